"""`Lookups`: how a map traces positions."""

from __future__ import annotations

import ctypes
from array import array
from ctypes import byref
from typing import TYPE_CHECKING, Any, Optional, cast

from . import _library
from ._errors import check, check_code
from ._handle import Handle
from ._library import lib
from ._numbers import Output, Positions, listed, number, positions_of, zeros
from ._values import Bias, Code, Direction, Generated, Original, Piece, Position, Token, id_of, token_of

try:
    from ._fast import bind, originals, trace
except ImportError:
    from ._plain import bind, originals, trace

if TYPE_CHECKING:
    from _typeshed import ReadableBuffer as Buffer


def _address_of(call: object) -> int:
    """Where a call of the library is."""
    return ctypes.cast(cast(Any, call), ctypes.c_void_p).value or 0


bind(_address_of(lib.smap_trace), _address_of(lib.smap_compiled_trace), Original, Token)


class Lookups(Handle):
    """Lookups by generated and by original positions."""

    def trace(self, line: int, column: int, bias: int = Bias.BEFORE) -> Optional[Original]:
        """Traces a generated position: the token that answers for it by this bias, and where it points; None if there is none.

        Raises SourceMapError of BAD_OPTION, or of LINE_ORDER if the tokens are not in order of lines, as can happen after a join. For other
        unsorted maps (`is_sorted`), it succeeds with some answer.

        >>> map = SourceMap.from_tokens([Token(0, 4, 2, 1, 0, None)], sources=["a.ts"])
        >>> found = map.trace(0, 9)
        >>> found.source, found.line, found.column, found.name, found.token.dst_col
        ('a.ts', 2, 1, None, 4)
        >>> print(map.trace(0, 3), map.trace(0, 3, Bias.CLAMPED).token_index)
        None 0
        """
        found = trace(self._leases, line, column, bias)
        return self._traced(line, column, bias) if isinstance(found, int) else found

    def _traced(self, line: int, column: int, bias: int) -> Optional[Original]:
        """The same where the map is being changed, or the call fails."""
        found, fault = _library.Original(), _library.Fault()

        def read(at: int) -> Optional[Original]:
            numbers = number(line), number(column), number(bias)
            check(lib.smap_trace(at, *numbers, byref(found), byref(fault)), fault)
            return originals(ctypes.addressof(found), 1)[0]

        return self._read(read)

    def trace_all(self, positions: Positions, bias: int = Bias.BEFORE) -> list[Optional[Original]]:
        """What `trace` returns for each of many positions, in any order, by one call of the library. Positions are pairs of line and
        column, or a buffer of unsigned 32-bit numbers, two for each. Fails as `trace` does, even without positions.

        >>> map = SourceMap.from_tokens([Token(0, 4, 2, 1, 0, None)], sources=["a.ts"])
        >>> [found and found.source for found in map.trace_all([(0, 9), (7, 0)])]
        ['a.ts', None]
        """
        rows, count = positions_of(positions)
        found, fault, bias = zeros("I", count * ctypes.sizeof(_library.Original) // 4), _library.Fault(), number(bias)
        address = found.buffer_info()[0]

        def read(at: int) -> list[Optional[Original]]:
            check(lib.smap_trace_all(at, rows, count, bias, address, count, byref(fault)), fault)
            return originals(address, count)

        return self._read(read)

    def find_all(self, positions: Positions, bias: int = Bias.BEFORE) -> array[int]:
        """The same, but the index of each token alone, where NO_ID stands for none.

        >>> SourceMap.from_tokens([Token(0, 4, 2, 1, None, None)]).find_all([(0, 9), (7, 0)])
        array('I', [0, 4294967295])
        """
        rows, count = positions_of(positions)
        out = zeros("I", count)
        self._find_all(rows, count, bias, Output(out))
        return out

    def find_all_into(self, positions: Positions, out: Buffer, bias: int = Bias.BEFORE) -> None:
        """The same, written to a buffer of unsigned 32-bit numbers, one for each position.

        Raises TypeError if it does not hold such numbers or is read-only, and SourceMapError of LENGTHS if it has room for more or
        for less.

        >>> from array import array
        >>> indices = array("I", [7, 7])
        >>> SourceMap.from_tokens([Token(0, 4, 2, 1, None, None)]).find_all_into([(0, 9), (0, 4)], indices)
        >>> indices
        array('I', [0, 0])
        """
        self._find_all(*positions_of(positions), bias, Output(out))

    def _find_all(self, rows: bytes, count: int, bias: int, output: Output) -> None:
        fault, bias = _library.Fault(), number(bias)
        out = output.address, output.numbers
        check(self._read(lambda at: lib.smap_find_all(at, rows, count, bias, *out, byref(fault))), fault)

    def pieces(self, begin: tuple[int, int], end: tuple[int, int]) -> list[Piece]:
        """The pieces of a range of generated code, from `begin` up to but not including `end`, in order. Each extends as far as
        the same token answers (by Bias.BEFORE) at each position. A range that ends at or before its beginning has none.

        >>> map = SourceMap.from_tokens([Token(0, 4, 2, 1, None, None)])
        >>> [(piece.end.column, piece.token_index) for piece in map.pieces((0, 0), (0, 9))]
        [(4, None), (9, 0)]
        """
        ends = [_end(*it) for it in ((begin, "begin"), (end, "end"))]
        rows = self._read(lambda at: listed(lambda *out: lib.smap_pieces(at, *ends, *out), "I", 5))
        return [Piece(Position(a, b), Position(c, d), id_of(index)) for a, b, c, d, index in zip(*[iter(rows)] * 5)]

    def index_sources(self) -> None:
        """Makes the index by original positions, which `generated` and `all_generated` need, if the map has none. It takes 4 bytes
        a token. A call that sets the tokens, such as `sort`, drops it. Raises SourceMapError of TOO_LARGE.

        >>> SourceMap.from_tokens([]).index_sources()
        """
        self._change(lib.smap_index_sources)

    def generated(self, source_id: int, line: int, column: int, direction: int = Direction.AT) -> Optional[Generated]:
        """The first token in the order of the map that answers for an original position; None if there is none.

        Raises SourceMapError of BAD_OPTION, or of NO_INDEX without `index_sources`.

        >>> map = SourceMap.from_tokens([Token(0, 4, 2, 1, 0, None)], sources=["a.ts"])
        >>> map.index_sources()
        >>> map.generated(0, 2, 9, Direction.FOR).token.dst_col
        4
        """
        numbers, index, token = list(map(number, (source_id, line, column, direction))), ctypes.c_uint32(), _library.Token()
        code = self._read(lambda at: lib.smap_generated(at, *numbers, byref(index), byref(token)))
        if code == Code.NO_ENTRY:
            return None
        check_code(code)
        return Generated(index.value, token_of(token))

    def all_generated(self, source_id: int, line: int, column: int, direction: int = Direction.AT) -> list[int]:
        """The indices of all tokens that answer for an original position, in the order of the map. Fails as `generated` does.

        >>> map = SourceMap.from_tokens([Token(0, 4, 2, 1, 0, None), Token(0, 8, 2, 1, 0, None)], sources=["a.ts"])
        >>> map.index_sources()
        >>> map.all_generated(0, 2, 0, Direction.ON_LINE)
        [0, 1]
        """
        numbers = [*map(number, (source_id, line, column, direction))]
        return self._read(lambda at: listed(lambda *out: lib.smap_all_generated(at, *numbers, *out), "I", 1)).tolist()


def _end(position: tuple[int, int], name: str) -> _library.Position:
    try:
        line, column = position
        return _library.Position(number(line), number(column))
    except TypeError as error:
        raise TypeError(f"{name}: {error}") from error
