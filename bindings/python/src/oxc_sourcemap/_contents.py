"""`Contents`: what a map holds."""

from __future__ import annotations

import ctypes
from array import array
from collections.abc import Callable, Iterator
from ctypes import byref
from typing import TYPE_CHECKING, Optional, cast

from . import _library
from ._errors import check_code
from ._handle import Handle
from ._library import lib
from ._numbers import Output, listed, listed_or_none, listed_texts, number, text_at
from ._values import Code, Counts, Token, id_of, token_of

if TYPE_CHECKING:
    from _typeshed import ReadableBuffer as Buffer


class Contents(Handle):
    """The lists and texts of a map."""

    def counts(self) -> Counts:
        """The lengths of the lists, the number of lines, and the bytes of memory that the map holds.

        >>> SourceMap.from_tokens([Token(3, 0, 0, 0, 0, None)], sources=["a.ts"]).counts()[:6]
        (1, 0, 1, 0, 0, 4)
        """
        out = _library.Counts()
        check_code(self._read(lambda at: lib.smap_get_counts(at, byref(out))))
        return Counts(out.tokens, out.names, out.sources, out.source_contents, out.ignore_list, out.lines, out.bytes)

    def __len__(self) -> int:
        return self.counts().tokens

    def __bool__(self) -> bool:
        return True

    def __iter__(self) -> Iterator[Token]:
        return tokens_in(self.token_array())

    def __repr__(self) -> str:
        try:
            counts = self.counts()
        except ValueError:
            return "<SourceMap: closed>"
        return f"<SourceMap: {counts.tokens} tokens, {counts.sources} sources, {counts.names} names>"

    def is_sorted(self) -> bool:
        """Whether the tokens are sorted by generated line and column.

        >>> SourceMap.from_tokens([Token(1, 0, 0, 0, None, None), Token(0, 0, 0, 0, None, None)]).is_sorted()
        False
        """
        return self._says(lib.smap_is_sorted)

    def is_sound(self) -> bool:
        """Whether the tokens are sorted, and all ids are in range.

        >>> SourceMap.decode_mappings("AAAA", names=0, sources=1).is_sound()
        False
        """
        return self._says(lib.smap_is_sound)

    def _says(self, call: Callable[..., int]) -> bool:
        out = ctypes.c_uint32()
        check_code(self._read(lambda at: call(at, byref(out))))
        return out.value == 1

    def _text(self, call: Callable[..., int], *numbers: int) -> Optional[str]:
        text = _library.Text()

        def copied(at: int) -> Optional[str]:
            code = call(at, *numbers, byref(text))
            if code == Code.NO_ENTRY:
                return None
            check_code(code)
            return text_at(text.at, text.len)

        return self._read(copied)

    def _list(self, call: Callable[..., int], width: int, *numbers: int) -> array[int]:
        return self._read(lambda at: listed(lambda *out: call(at, *numbers, *out), "I", width))

    def _texts(self, call: Callable[..., int]) -> list[Optional[str]]:
        return self._read(lambda at: listed_texts(lambda *out: call(at, *out)))

    def get_name(self, id: int) -> Optional[str]:
        """The name with this id, or None.

        >>> SourceMap.from_tokens([], names=["f"]).get_name(0)
        'f'
        """
        return self._text(lib.smap_get_name, number(id))

    def get_source(self, id: int) -> Optional[str]:
        """The source with this id, as listed and without the source root, or None.

        >>> SourceMap.from_tokens([], sources=["a.ts"]).get_source(0)
        'a.ts'
        """
        return self._text(lib.smap_get_source, number(id))

    def get_source_content(self, id: int) -> Optional[str]:
        """The content of the source with this id, or None, also if it is not known.

        >>> SourceMap.from_tokens([], sources=["a.ts"], source_contents=["let a;"]).get_source_content(0)
        'let a;'
        """
        return self._text(lib.smap_get_source_content, number(id))

    @property
    def file(self) -> Optional[str]:
        """The name of the generated file.

        >>> SourceMap.from_json('{"version":3,"file":"a.js","sources":[],"mappings":""}').file
        'a.js'
        """
        return self._text(lib.smap_get_file)

    @property
    def source_root(self) -> Optional[str]:
        """The source root, which `apply_source_root` puts before sources.

        >>> SourceMap.from_json('{"version":3,"sourceRoot":"src","sources":[],"mappings":""}').source_root
        'src'
        """
        return self._text(lib.smap_get_source_root)

    @property
    def debug_id(self) -> Optional[str]:
        """The debug id.

        >>> SourceMap.from_json('{"version":3,"sources":[],"mappings":"","debugId":"7f"}').debug_id
        '7f'
        """
        return self._text(lib.smap_get_debug_id)

    @property
    def names(self) -> list[str]:
        """All names.

        >>> SourceMap.from_tokens([], names=["f", "g"]).names
        ['f', 'g']
        """
        return cast("list[str]", self._texts(lib.smap_get_names))

    @property
    def sources(self) -> list[str]:
        """All sources, as listed and without the source root.

        >>> SourceMap.from_tokens([], sources=["a.ts", "b.ts"]).sources
        ['a.ts', 'b.ts']
        """
        return cast("list[str]", self._texts(lib.smap_get_sources))

    @property
    def source_contents(self) -> list[Optional[str]]:
        """All contents of sources as listed, with None for one that is not known. There may be fewer than sources.

        >>> SourceMap.from_tokens([], sources=["a.ts", "b.ts"], source_contents=[None, "let b;"]).source_contents
        [None, 'let b;']
        """
        return self._texts(lib.smap_get_source_contents)

    @property
    def ignore_list(self) -> Optional[list[int]]:
        """The ids of sources that debuggers may skip; None if the map has no such list.

        >>> SourceMap.from_tokens([], sources=["a.ts", "b.ts"], ignore_list=[1]).ignore_list
        [1]
        """
        ids = self._read(lambda at: listed_or_none(lambda *out: lib.smap_get_ignore_list(at, *out), "I", 1))
        return None if ids is None else ids.tolist()

    def get_token(self, index: int) -> Optional[Token]:
        """The token at an index, or None past the last one.

        >>> SourceMap.from_tokens([Token(0, 4, 2, 0, None, None)]).get_token(0).dst_col
        4
        """
        index, out = number(index), _library.Token()
        code = self._read(lambda at: lib.smap_get_token(at, index, byref(out)))
        if code == Code.NO_ENTRY:
            return None
        check_code(code)
        return token_of(out)

    def tokens(self) -> list[Token]:
        """All tokens; `iter` makes them one by one.

        >>> SourceMap.from_tokens([Token(0, 4, 2, 0, None, None)]).tokens()
        [Token(dst_line=0, dst_col=4, src_line=2, src_col=0, source_id=None, name_id=None)]
        """
        return list(self)

    def token_array(self) -> array[int]:
        """All tokens as unsigned 32-bit numbers, six for each in the order of `Token`, where NO_ID stands for no id.

        With numpy: `numpy.frombuffer(map.token_array(), "u4").reshape(-1, 6)`.

        >>> SourceMap.from_tokens([Token(0, 4, 2, 0, None, None)]).token_array()
        array('I', [0, 4, 2, 0, 4294967295, 4294967295])
        """
        return self._list(lib.smap_get_tokens, 6)

    def tokens_into(self, out: Buffer) -> None:
        """Writes all tokens, as `token_array` has them, to a buffer with room for exactly these.

        Raises TypeError if it does not hold unsigned 32-bit numbers or is read-only, and SourceMapError of LENGTHS if it has room
        for more or for less.

        >>> from array import array
        >>> numbers = array("I", [0] * 6)
        >>> SourceMap.from_tokens([Token(0, 4, 2, 0, None, None)]).tokens_into(numbers)
        >>> numbers[1]
        4
        """
        output, count = Output(out), ctypes.c_size_t()

        def fill(at: int) -> int:
            code: int = lib.smap_get_tokens(at, None, 0, byref(count))
            if code == 0 and count.value * 6 != output.numbers:
                return Code.LENGTHS
            return code or int(lib.smap_get_tokens(at, output.address, count.value, byref(count)))

        check_code(self._read(fill))


def tokens_in(numbers: array[int]) -> Iterator[Token]:
    """The tokens that an array holds."""
    for dst_line, dst_col, src_line, src_col, source_id, name_id in zip(*[iter(numbers)] * 6):
        yield Token(dst_line, dst_col, src_line, src_col, id_of(source_id), id_of(name_id))
