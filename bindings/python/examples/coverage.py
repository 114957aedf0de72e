"""Tells which lines of the originals ran, by V8's block coverage of a generated code and the code's map.

    coverage.py CODE..

For each CODE: the file is read, its map CODE.map, and its coverage CODE.coverage.json, an entry of what node writes for
NODE_V8_COVERAGE. It prints how many original lines with code ran and how many did not, and for each source which did not. Lines
are printed from 1, as editors count.
"""

from __future__ import annotations

import json
import re
import sys
from bisect import bisect_right
from collections.abc import Iterator
from heapq import heappop, heappush
from itertools import accumulate
from pathlib import Path
from typing import Any

sys.path.append(str(Path(__file__).resolve().parents[1] / "src"))

from oxc_sourcemap import Position, SourceMap

# What is code of some line: not white space, nor punctuation that a generator puts in or leaves out.
CODE = re.compile(r"[^\t-\r \u00a0\u2028\u2029\ufeff()\[\]{},:;]")
LINE_END = re.compile("\r\n|[\n\r\u2028\u2029]")


class Units:
    """A code as UTF-16 units, in which offsets and columns count, with the offsets at which its lines begin."""

    def __init__(self, code: str) -> None:
        self.data = code.encode("utf-16-le")
        lines = [code[start:end] for start, end in pairwise([0, *(it.end() for it in LINE_END.finditer(code)), len(code)])]
        self.starts = [0, *accumulate(len(line.encode("utf-16-le")) // 2 for line in lines)]

    def position(self, offset: int) -> Position:
        line = bisect_right(self.starts, offset, hi=len(self.starts) - 1) - 1
        return Position(line, offset - self.starts[line])

    def text(self, begin: Position, end: Position) -> str:
        start, stop = (2 * (self.starts[line] + column) for line, column in (begin, end))
        return self.data[start:stop].decode("utf-16-le", errors="replace")


def pairwise(items: list[int]) -> Iterator[tuple[int, int]]:
    return zip(items, items[1:])


def blocks_of(coverage: dict[str, Any]) -> Iterator[tuple[int, int, bool]]:
    """The parts of the code in which no range begins or ends, and whether each ran: by the innermost range around it."""
    ranges = [(it["startOffset"], it["endOffset"], it["count"]) for function in coverage["functions"] for it in function["ranges"]]
    begins = sorted((start, start - end, -at) for at, (start, end, _) in enumerate(ranges))[::-1]
    cuts = sorted({offset for start, end, _ in ranges for offset in (start, end)})
    # Those that have begun, by their lengths: of two ranges one is in the other, or they do not overlap; of equal ones the last counts.
    around: list[tuple[int, int]] = []
    for start, end in pairwise(cuts):
        while begins and begins[-1][0] == start:
            _, length, at = begins.pop()
            heappush(around, (-length, at))
        while around and ranges[-around[0][1]][1] <= start:
            heappop(around)
        if around:
            yield start, end, ranges[-around[0][1]][2] > 0


def lines_of(code: str, map: SourceMap, coverage: dict[str, Any]) -> dict[tuple[int, int], bool]:
    """For each original line with code, by its source id and its number: whether some of its code ran."""
    units, lines = Units(code), dict[tuple[int, int], bool]()
    tokens = map.tokens()
    for start, end, ran in blocks_of(coverage):
        for piece in map.pieces(units.position(start), units.position(end)):
            token = None if piece.token_index is None else tokens[piece.token_index]
            if token and token.source_id is not None and CODE.search(units.text(piece.begin, piece.end)):
                line = token.source_id, token.src_line
                lines[line] = lines.get(line, False) or ran
    return lines


def main() -> None:
    for name in sys.argv[1:]:
        code, text, coverage = (Path(name + end).read_text(encoding="utf-8") for end in ("", ".map", ".coverage.json"))
        with SourceMap.from_json(text) as map:
            lines = lines_of(code, map, json.loads(coverage))
            print(f"{Path(name).name}: {sum(lines.values())} lines ran, {len(lines) - sum(lines.values())} did not")
            of_source: list[tuple[list[int], list[int]]] = [([], []) for _ in map.sources]
            for (id, line), ran in sorted(lines.items()):
                of_source[id][ran].append(line + 1)
            for source, (idle, busy) in zip(map.sources, of_source):
                print(f"  {source}: {len(busy)} lines ran, {len(idle)} did not: {idle}")


if __name__ == "__main__":
    main()
