"""`SourceMapBuilder` and `SourceMapJoin`, which make maps call by call."""

from __future__ import annotations

import ctypes
import threading
from collections.abc import Callable
from contextlib import suppress
from ctypes import byref
from typing import Any, ClassVar, Optional, TypeVar, final

from . import _library
from ._errors import check
from ._library import lib
from ._map import SourceMap, map_in
from ._numbers import Tokens, bytes_of, number, tokens_of
from ._values import Text, Token

Self = TypeVar("Self", bound="_Maker")
T = TypeVar("T")


class _Maker:
    """What makes a map call by call. Threads may share one: a call waits for the one before it."""

    _new: ClassVar[Callable[..., int]]
    _finish: ClassVar[Callable[..., int]]
    _free: ClassVar[Callable[..., object]]

    def __init__(self) -> None:
        self._at, self._lock, self._is_used, fault = ctypes.c_void_p(), threading.RLock(), False, _library.Fault()
        check(type(self)._new(byref(self._at), byref(fault)), fault)

    def _coded(self, call: Callable[..., T], *arguments: Any) -> T:
        """The result of a call, which gets the handle and these."""
        with self._lock:
            self._check_unused()
            self._is_used = True
            try:
                if not self._at:
                    raise ValueError(f"The {type(self).__name__} is closed")
                return call(self._at, *arguments)
            finally:
                self._is_used = False

    def _check_unused(self) -> None:
        """What interrupts a call, as the handler of a signal may, has the lock of that call, too."""
        if self._is_used:
            raise RuntimeError(f"The {type(self).__name__} is used by a call that this one interrupts")

    def _call(self, call: Callable[..., int], *arguments: Any) -> None:
        """The same, but an error is raised."""
        fault = _library.Fault()
        check(self._coded(call, *arguments, byref(fault)), fault)

    def finish(self) -> SourceMap:
        """Makes the map. What made it is then empty, like a new one.

        >>> from oxc_sourcemap import SourceMapBuilder
        >>> with SourceMapBuilder() as builder:
        ...     builder.add_source("a.ts"), builder.finish().sources, builder.finish().sources
        (0, ['a.ts'], [])
        """
        return SourceMap._made(lambda *out: self._coded(type(self)._finish, *out))

    def close(self) -> None:
        """Frees it, if it is not freed yet. All other calls then raise ValueError.

        >>> from oxc_sourcemap import SourceMapJoin
        >>> join = SourceMapJoin()
        >>> join.close()
        >>> join.finish()
        Traceback (most recent call last):
        ValueError: The SourceMapJoin is closed
        """
        with self._lock:
            self._check_unused()
            address, self._at.value = self._at.value, None
            type(self)._free(address)

    @property
    def closed(self) -> bool:
        """Whether it is closed.

        >>> from oxc_sourcemap import SourceMapJoin
        >>> SourceMapJoin().closed
        False
        """
        return not self._at

    def __enter__(self: Self) -> Self:
        return self

    def __exit__(self, *_: object) -> None:
        self.close()

    def __del__(self) -> None:
        # (other finalizers of a cycle may use it after this: it is closed then)
        with suppress(AttributeError):
            address, self._at.value = self._at.value, None
            type(self)._free(address)

    def __repr__(self) -> str:
        return f"<{type(self).__name__}: {'closed' if self.closed else 'open'}>"


@final
class SourceMapBuilder(_Maker):
    """Builds a map call by call. `close`, or the end of a `with`, frees it; so does the garbage collector.

    >>> with SourceMapBuilder() as builder:
    ...     source = builder.add_source_and_content("a.ts", "let a;")
    ...     builder.add_token(Token(0, 4, 0, 4, source, None))
    ...     builder.finish().to_json()
    '{"version":3,"names":[],"sources":["a.ts"],"sourcesContent":["let a;"],"mappings":"IAAI"}'
    """

    _new: ClassVar[Callable[..., int]] = lib.smap_builder_new
    _finish: ClassVar[Callable[..., int]] = lib.smap_builder_finish
    _free: ClassVar[Callable[..., object]] = lib.smap_free_builder

    def _added(self, call: Callable[..., int], **texts: Text) -> int:
        id, data = ctypes.c_uint32(), [bytes_of(text, name) for name, text in texts.items()]
        self._call(call, *(it for text in data for it in (text, len(text))), byref(id))
        return id.value

    def add_name(self, name: Text) -> int:
        """Adds a name, or finds the equal one that was added before, and returns its id. Ids count from 0 in the order in which
        names come. Raises SourceMapError of TOO_LARGE if no id is left.

        >>> builder = SourceMapBuilder()
        >>> builder.add_name("f"), builder.add_name("g"), builder.add_name("f")
        (0, 1, 0)
        """
        return self._added(lib.smap_builder_add_name, name=name)

    def add_source(self, path: Text) -> int:
        """Adds a source without a content, or finds the one with this path, and returns its id. Fails as `add_name` does.

        >>> SourceMapBuilder().add_source("a.ts")
        0
        """
        return self._added(lib.smap_builder_add_source, path=path)

    def add_source_and_content(self, path: Text, content: Text) -> int:
        """The same with a content. A path added before keeps its id, and its content or lack of it.

        >>> SourceMapBuilder().add_source_and_content("a.ts", "let a;")
        0
        """
        return self._added(lib.smap_builder_add_source_and_content, path=path, content=content)

    def add_token(self, token: Token) -> None:
        """Appends a token. Add tokens in the order of their generated positions: otherwise the map is unsorted, and writing it may fail.
        Ids are not compared with what was added.

        >>> SourceMapBuilder().add_token(Token(0, 4, 0, 4, None, None))
        """
        self.add_tokens([token])

    def add_tokens(self, tokens: Tokens) -> None:
        """Appends tokens, all of them or none: `Token`, or a buffer of unsigned 32-bit numbers, six for each, where NO_ID stands
        for no id.

        >>> from array import array
        >>> with SourceMapBuilder() as builder:
        ...     builder.add_tokens(array("I", [0, 4, 0, 4, 0, 0]))
        ...     builder.finish().tokens()
        [Token(dst_line=0, dst_col=4, src_line=0, src_col=4, source_id=0, name_id=0)]
        """
        self._call(lib.smap_builder_add_tokens, *tokens_of(tokens))

    def set_file(self, file: Text) -> None:
        """Sets the name of the generated file.

        >>> with SourceMapBuilder() as builder:
        ...     builder.set_file("a.js")
        ...     builder.finish().file
        'a.js'
        """
        data = bytes_of(file, "file")
        self._call(lib.smap_builder_set_file, data, len(data))


@final
class SourceMapJoin(_Maker):
    """Joins maps one by one, as `SourceMap.join` does at once. `close`, or the end of a `with`, frees it; so does the garbage
    collector.

    >>> part = SourceMap.decode_mappings("AAAA", names=0, sources=1)
    >>> with SourceMapJoin() as join:
    ...     join.add(part, 0)
    ...     join.add(part, 7, 2)
    ...     [token[:2] for token in join.finish()]
    [(0, 0), (7, 2)]
    """

    _new: ClassVar[Callable[..., int]] = lib.smap_join_new
    _finish: ClassVar[Callable[..., int]] = lib.smap_join_finish
    _free: ClassVar[Callable[..., object]] = lib.smap_free_join

    def add(self, map: SourceMap, line: int, column: int = 0) -> None:
        """Adds a map, whose code begins at this line and column of the joined code. The map may be changed or closed then. Source
        roots are dropped unless `apply_source_root` ran before. Raises SourceMapError of TOO_LARGE.

        >>> SourceMapJoin().add(SourceMap.from_tokens([]), 7)
        """
        map, line, column, fault = map_in(map, "map"), number(line), number(column), _library.Fault()

        def added(at: ctypes.c_void_p) -> Optional[int]:
            return map._read_now(lambda map_at: lib.smap_join_add(at, map_at, line, column, byref(fault)))

        # While one of the two is waited for, the other is not held.
        while (code := self._coded(added)) is None:
            map._lent()
        check(code, fault)
