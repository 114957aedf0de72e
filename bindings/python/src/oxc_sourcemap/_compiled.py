"""`CompiledMap`: bytes that `SourceMap.compile` makes, opened in constant time and searched in place."""

from __future__ import annotations

import ctypes
import errno
import mmap
import os
import stat
from array import array
from collections.abc import Callable
from contextlib import suppress
from ctypes import byref
from typing import TYPE_CHECKING, NoReturn, Optional, final

from . import _library
from ._errors import SourceMapError, check_code
from ._handle import Handle
from ._library import lib
from ._map import SourceMap
from ._numbers import Output, Positions, number, positions_of, zeros
from ._values import Bias, Code, CompiledCounts, Kind, Original, TextKind, Token, token_of

try:
    from ._fast import originals, trace_compiled
except ImportError:
    from ._plain import originals, trace_compiled

if TYPE_CHECKING:
    from _typeshed import ReadableBuffer as Buffer
    from _typeshed import StrPath


class _PyBuffer(ctypes.Structure):
    """Py_buffer of CPython."""

    _fields_ = [("buf", ctypes.c_void_p), ("obj", ctypes.c_void_p), ("len", ctypes.c_ssize_t), ("itemsize", ctypes.c_ssize_t),
                ("readonly", ctypes.c_int), ("ndim", ctypes.c_int), ("format", ctypes.c_void_p), ("shape", ctypes.c_void_p),
                ("strides", ctypes.c_void_p), ("suboffsets", ctypes.c_void_p), ("internal", ctypes.c_void_p)]  # fmt: skip


# (prototypes of our own: those in ctypes.pythonapi are everybody's)
_got = ctypes.PYFUNCTYPE(ctypes.c_int, ctypes.py_object, ctypes.POINTER(_PyBuffer), ctypes.c_int)(
    ("PyObject_GetBuffer", ctypes.pythonapi)
)
_given_back = ctypes.PYFUNCTYPE(None, ctypes.POINTER(_PyBuffer))(("PyBuffer_Release", ctypes.pythonapi))


def _address_of(view: memoryview) -> int:
    """Where the bytes of a view lie, which stay there as long as it is not released. (ctypes reports it only for writable ones.)"""
    buffer = _PyBuffer()
    try:
        _got(view, byref(buffer), 0)
        return int(buffer.buf or 0)
    finally:
        _given_back(byref(buffer))


def _view_of(buffer: Buffer) -> memoryview:
    """The bytes of a buffer, which cannot be resized or closed until this is released."""
    try:
        view = memoryview(buffer)
    except TypeError as error:
        raise TypeError(f"buffer: {error}") from None
    if not view.c_contiguous:
        raise ValueError("the buffer is not contiguous")
    return view


@final
class CompiledMap(Handle):
    """A compiled map, searched in its buffer: bytes, a memoryview, an mmap, shared memory. It takes some hundred bytes more, and copies
    nothing but what a call returns. Threads may share one, as a `SourceMap`.

    Until it is closed (by `close`, a `with` or the collector) the buffer cannot be resized or closed; its bytes must not be changed.

    Any bytes may be opened. In bytes that `SourceMap.compile` did not make, a lookup finds some token of the line, or none, and a text that
    is not UTF-8 counts as None: a token with such a source has no source. `names`, `sources` and `source_contents` raise ValueError if
    texts overlap so far that all are longer than the bytes.

    Raises SourceMapError of NOT_COMPILED, COMPILED_VERSION, COMPILED_LENGTH or COMPILED_SIZES, and ValueError if the buffer is not
    contiguous.

    >>> data = SourceMap.from_tokens([Token(0, 4, 2, 1, 0, None)], sources=["a.ts"]).compile()
    >>> with CompiledMap(data) as map:
    ...     len(map), map.sources, map.trace(0, 9)[:3]
    (1, ['a.ts'], ('a.ts', 2, 1))
    """

    _view: memoryview

    def __new__(cls: type[CompiledMap], buffer: Buffer) -> CompiledMap:
        view = _view_of(buffer)
        try:
            at = _address_of(view)
            made = cls._made(lambda *out: lib.smap_open_compiled(at, view.nbytes, *out))
            made._view = view
            return made
        except BaseException:
            # (a traceback may outlive the call)
            view.release()
            raise

    @staticmethod
    def open_file(path: StrPath) -> CompiledMap:
        """Opens a file, which the system maps into memory: processes that open one file share it. It keeps a descriptor of the file.

        The file must not be changed or truncated meanwhile, since that may end the process: rename a new one over it. Raises OSError, also
        for what is no plain file, such as a pipe.

        >>> import os, tempfile
        >>> with tempfile.TemporaryDirectory() as folder:
        ...     path = os.path.join(folder, "a.js.map.smc")
        ...     with open(path, "wb") as file:
        ...         size = file.write(SourceMap.from_tokens([], sources=["a.ts"]).compile())
        ...     with CompiledMap.open_file(path) as map:
        ...         map.sources
        ['a.ts']
        """
        file = os.open(path, os.O_RDONLY | getattr(os, "O_NONBLOCK", 0) | getattr(os, "O_CLOEXEC", 0))
        try:
            status = os.fstat(file)
            if not stat.S_ISREG(status.st_mode):
                reason = errno.EISDIR if stat.S_ISDIR(status.st_mode) else errno.EINVAL
                raise OSError(reason, "Not a plain file", os.fspath(path))
            if not status.st_size:
                return CompiledMap(b"")
            data = mmap.mmap(file, 0, access=mmap.ACCESS_READ)
        finally:
            os.close(file)
        try:
            # (a lookup needs some pages here and there: what lies beside them is not read too)
            if hasattr(mmap, "MADV_RANDOM"):
                data.madvise(mmap.MADV_RANDOM)
            return CompiledMap(data)
        except BaseException:
            data.close()
            raise

    def close(self) -> None:
        """Closes the map, if it is not closed yet, and releases the buffer. All other calls then raise ValueError.

        >>> data = bytearray(SourceMap.from_tokens([]).compile())
        >>> map = CompiledMap(data)
        >>> map.close()
        >>> data.clear()
        """
        with suppress(ValueError):
            self._exclusively(lib.smap_free_compiled, closes=True)
        # (nobody reads it any more, also if it is a call before this one that has closed it, and that was interrupted)
        self._view.release()

    def __del__(self, free: Callable[..., object] = lib.smap_free_compiled) -> None:
        super().__del__(free)
        with suppress(AttributeError):
            self._view.release()

    def __reduce__(self) -> NoReturn:
        raise TypeError("a CompiledMap cannot be pickled: its bytes can")

    # ---- lookups ----

    def trace(self, line: int, column: int, bias: int = Bias.BEFORE) -> Optional[Original]:
        """Traces a generated position, as `SourceMap.trace` does. Raises SourceMapError of BAD_OPTION.

        >>> map = CompiledMap(SourceMap.from_tokens([Token(0, 4, 2, 1, 0, None)], sources=["a.ts"]).compile())
        >>> map.trace(0, 9)[:3]
        ('a.ts', 2, 1)
        >>> print(map.trace(0, 3), map.trace(0, 3, Bias.CLAMPED).token_index)
        None 0
        """
        try:
            found = trace_compiled(self._leases, line, column, bias)
        except UnicodeDecodeError:
            return self._traced(line, column, bias)
        return self._traced(line, column, bias) if isinstance(found, int) else found

    def _traced(self, line: int, column: int, bias: int) -> Optional[Original]:
        """The same where the map is being closed, or the call fails, or a text is not UTF-8."""
        found = _library.Original()

        def read(at: int) -> Optional[Original]:
            numbers = number(line), number(column), number(bias)
            check_code(lib.smap_compiled_trace(at, *numbers, byref(found)))
            return _originals(ctypes.addressof(found), 1)[0]

        return self._read(read)

    def trace_all(self, positions: Positions, bias: int = Bias.BEFORE) -> list[Optional[Original]]:
        """The same for many positions, as `SourceMap.trace_all`.

        >>> map = CompiledMap(SourceMap.from_tokens([Token(0, 4, 2, 1, 0, None)], sources=["a.ts"]).compile())
        >>> [found and found.source for found in map.trace_all([(0, 9), (7, 0)])]
        ['a.ts', None]
        """
        (rows, count), bias = positions_of(positions), number(bias)
        found = zeros("I", count * ctypes.sizeof(_library.Original) // 4)
        address = found.buffer_info()[0]

        def read(at: int) -> list[Optional[Original]]:
            check_code(lib.smap_compiled_trace_all(at, rows, count, bias, address, count))
            return _originals(address, count)

        return self._read(read)

    def find_all(self, positions: Positions, bias: int = Bias.BEFORE) -> array[int]:
        """The index of each token alone, where NO_ID stands for none.

        >>> CompiledMap(SourceMap.from_tokens([Token(0, 4, 2, 1, None, None)]).compile()).find_all([(0, 9), (7, 0)])
        array('I', [0, 4294967295])
        """
        rows, count = positions_of(positions)
        out = zeros("I", count)
        self._find_all(rows, count, bias, Output(out))
        return out

    def find_all_into(self, positions: Positions, out: Buffer, bias: int = Bias.BEFORE) -> None:
        """The same, written to a buffer of unsigned 32-bit numbers, one for each position, as `SourceMap.find_all_into`.

        >>> from array import array
        >>> indices = array("I", [7, 7])
        >>> map = CompiledMap(SourceMap.from_tokens([Token(0, 4, 2, 1, None, None)]).compile())
        >>> map.find_all_into([(0, 9), (0, 4)], indices)
        >>> indices
        array('I', [0, 0])
        """
        self._find_all(*positions_of(positions), bias, Output(out))

    def _find_all(self, rows: bytes, count: int, bias: int, output: Output) -> None:
        bias, out = number(bias), (output.address, output.numbers)
        check_code(self._read(lambda at: lib.smap_compiled_find_all(at, rows, count, bias, *out)))

    # ---- what a map holds ----

    def get_token(self, index: int) -> Optional[Token]:
        """The token at an index, or None past the last one.

        >>> CompiledMap(SourceMap.from_tokens([Token(0, 4, 2, 0, None, None)]).compile()).get_token(0).dst_col
        4
        """
        index, out = number(index), _library.Token()
        code = self._read(lambda at: lib.smap_compiled_get_token(at, index, byref(out)))
        if code == Code.NO_ENTRY:
            return None
        check_code(code)
        return token_of(out)

    def counts(self) -> CompiledCounts:
        """The numbers of entries.

        >>> CompiledMap(SourceMap.from_tokens([], sources=["a.ts", "b.ts"], ignore_list=[1]).compile()).counts()
        CompiledCounts(tokens=0, sources=2, names=0, ignored=1)
        """
        out = self._read(_counts_in)
        return CompiledCounts(out.tokens, out.sources, out.names, out.ignored if out.has_ignore_list else None)

    def __len__(self) -> int:
        return self.counts().tokens

    def __bool__(self) -> bool:
        return True

    def __repr__(self) -> str:
        try:
            counts = self.counts()
        except ValueError:
            return "<CompiledMap: closed>"
        return f"<CompiledMap: {counts.tokens} tokens, {counts.sources} sources, {counts.names} names>"

    def get_name(self, id: int) -> Optional[str]:
        """The name with this id, or None.

        >>> CompiledMap(SourceMap.from_tokens([], names=["f"]).compile()).get_name(0)
        'f'
        """
        id = number(id)
        return self._read(lambda at: _text_in(at, TextKind.NAME, id))

    def get_source(self, id: int) -> Optional[str]:
        """The source with this id, as listed and without the source root, or None.

        >>> CompiledMap(SourceMap.from_tokens([], sources=["a.ts"]).compile()).get_source(0)
        'a.ts'
        """
        id = number(id)
        return self._read(lambda at: _text_in(at, TextKind.SOURCE, id))

    def get_source_content(self, id: int) -> Optional[str]:
        """The content of the source with this id, or None, also if it is not known.

        >>> map = SourceMap.from_tokens([], sources=["a.ts"], source_contents=["let a;"])
        >>> CompiledMap(map.compile()).get_source_content(0)
        'let a;'
        """
        id = number(id)
        return self._read(lambda at: _text_in(at, TextKind.SOURCE_CONTENT, id))

    @property
    def file(self) -> Optional[str]:
        """The name of the generated file.

        >>> map = SourceMap.from_json('{"version":3,"file":"a.js","sources":[],"mappings":""}')
        >>> CompiledMap(map.compile()).file
        'a.js'
        """
        return self._read(lambda at: _text_in(at, TextKind.FILE))

    @property
    def source_root(self) -> Optional[str]:
        """The source root.

        >>> map = SourceMap.from_json('{"version":3,"sourceRoot":"src","sources":[],"mappings":""}')
        >>> CompiledMap(map.compile()).source_root
        'src'
        """
        return self._read(lambda at: _text_in(at, TextKind.SOURCE_ROOT))

    @property
    def debug_id(self) -> Optional[str]:
        """The debug id.

        >>> map = SourceMap.from_json('{"version":3,"sources":[],"mappings":"","debugId":"7f"}')
        >>> CompiledMap(map.compile()).debug_id
        '7f'
        """
        return self._read(lambda at: _text_in(at, TextKind.DEBUG_ID))

    def _texts(self, kind: TextKind) -> list[Optional[str]]:
        def copied(at: int) -> list[Optional[str]]:
            counts = _counts_in(at)
            texts: list[Optional[str]] = []
            left = self._view.nbytes
            for id in range(counts.names if kind == TextKind.NAME else counts.sources):
                texts.append(_text_in(at, kind, id))
                left -= len(texts[-1] or "")
                if left < 0:
                    raise ValueError("the compiled map is damaged: its texts overlap")
            return texts

        return self._read(copied)

    @property
    def names(self) -> list[Optional[str]]:
        """All names; None for one that is not UTF-8.

        >>> CompiledMap(SourceMap.from_tokens([], names=["f", "g"]).compile()).names
        ['f', 'g']
        """
        return self._texts(TextKind.NAME)

    @property
    def sources(self) -> list[Optional[str]]:
        """All sources, as listed and without the source root; None for one that is not UTF-8.

        >>> CompiledMap(SourceMap.from_tokens([], sources=["a.ts", "b.ts"]).compile()).sources
        ['a.ts', 'b.ts']
        """
        return self._texts(TextKind.SOURCE)

    @property
    def source_contents(self) -> list[Optional[str]]:
        """The content of each source, with None for one that is not known.

        >>> CompiledMap(SourceMap.from_tokens([], sources=["a.ts", "b.ts"], source_contents=[None, "let b;"]).compile()).source_contents
        [None, 'let b;']
        """
        return self._texts(TextKind.SOURCE_CONTENT)

    def is_ignored(self, id: int) -> bool:
        """Whether the ignore list has the id of a source.

        >>> CompiledMap(SourceMap.from_tokens([], sources=["a.ts", "b.ts"], ignore_list=[1]).compile()).is_ignored(1)
        True
        """
        id, out = number(id), ctypes.c_uint32()
        check_code(self._read(lambda at: lib.smap_compiled_is_ignored(at, id, byref(out))))
        return out.value == 1

    @property
    def text_length(self) -> int:
        """The number of bytes of the map's text that `SourceMap.compile` was given.

        >>> CompiledMap(SourceMap.from_tokens([]).compile(text_length=700)).text_length
        700
        """
        return int(self._read(_counts_in).text_length)

    @property
    def stamp(self) -> bytes:
        """The 32 bytes that `SourceMap.compile` was given.

        >>> import hashlib
        >>> map, text = SourceMap.from_tokens([]), b"the text of the map"
        >>> CompiledMap(map.compile(stamp=hashlib.sha256(text).digest())).stamp == hashlib.sha256(text).digest()
        True
        """
        text = _library.Text()

        def copied(at: int) -> bytes:
            check_code(lib.smap_compiled_get_stamp(at, byref(text)))
            return ctypes.string_at(text.at, text.len)

        return self._read(copied)

    def decompile(self) -> Optional[SourceMap]:
        """The map that was compiled. None if a text is not UTF-8, or, only in bytes that `SourceMap.compile` did not make, the tokens
        of a line or the bytes of a text begin before those of the previous one, or the last ones end before they begin. A map of such bytes
        may be unsorted.

        >>> CompiledMap(SourceMap.from_tokens([], sources=["a.ts"]).compile()).decompile().to_json()
        '{"version":3,"names":[],"sources":["a.ts"],"mappings":""}'
        """
        try:
            return SourceMap._made(lambda *out: self._read(lambda at: lib.smap_decompile(at, *out)))
        except SourceMapError as error:
            if error.code != Code.NO_ENTRY:
                raise
            return None


def _counts_in(at: int) -> _library.CompiledCounts:
    out = _library.CompiledCounts()
    check_code(lib.smap_compiled_get_counts(at, byref(out)))
    return out


def _checked(text: _library.Text) -> Optional[str]:
    """A copy of a text of a compiled map, which may be any bytes; None if they are not UTF-8."""
    try:
        return ctypes.string_at(text.at or 0, text.len).decode() if text.len else ""
    except UnicodeDecodeError:
        return None


def _text_in(at: int, kind: TextKind, id: int = 0) -> Optional[str]:
    text = _library.Text()
    code = lib.smap_compiled_get_text(at, kind, id, byref(text))
    if code == Code.NO_ENTRY:
        return None
    check_code(code)
    return _checked(text)


def _originals(address: int, count: int) -> list[Optional[Original]]:
    """What so many lookups found, by the address of the first answer."""
    try:
        return originals(address, count)
    except UnicodeDecodeError:
        return [_original_of(it) for it in (_library.Original * count).from_address(address)]


def _original_of(found: _library.Original) -> Optional[Original]:
    """The same for one, whose texts may be any bytes."""
    if found.kind == Kind.NOTHING:
        return None
    token = token_of(found.token)
    source = None if found.kind == Kind.UNMAPPED else _checked(found.source)
    if source is None:
        return Original(None, None, None, None, found.index, token)
    name = _checked(found.name) if found.kind == Kind.NAMED else None
    return Original(source, token.src_line, token.src_col, name, found.index, token)
