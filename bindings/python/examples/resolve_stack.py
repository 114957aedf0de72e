"""Resolves a JavaScript stack trace.

    resolve_stack.py DIRECTORY < stack.txt

Every position FILE:LINE:COLUMN at the end of a line of the input, as V8, Firefox and Safari print it, is looked up in the map
DIRECTORY/NAME.map, where NAME is the last part of FILE, and replaced by the original position. All else is copied.
"""

from __future__ import annotations

import re
import sys
from functools import lru_cache
from pathlib import Path
from typing import Optional

sys.path.append(str(Path(__file__).resolve().parents[1] / "src"))

from oxc_sourcemap import SourceMap, SourceMapError

POSITION = re.compile(r"(.*?([^/]+)):(\d+):(\d+)(\)?)")


def start_of(line: str) -> int:
    """Where the file of a line begins: in the parentheses at its end, behind `at`, behind a function and `@`, or at the last word."""
    if line.endswith(")"):
        return line.rfind("(") + 1
    found = re.match(r" *at (async )?", line) or re.match(r".*?(?<!/)@", line)
    return found.end() if found else line.rfind(" ") + 1


class Resolver:
    """Looks positions up in the maps of a folder, each of which is read when it is first asked for."""

    def __init__(self, folder: Path) -> None:
        self.folder = folder
        self.map_of = lru_cache(maxsize=None)(self.read)

    def read(self, name: str) -> Optional[SourceMap]:
        """The map of a generated file; None if there is none that can be read."""
        path = self.folder / f"{name}.map"
        try:
            return SourceMap.read_found(path.read_bytes()).map
        except FileNotFoundError:
            return None
        except SourceMapError as error:
            where = f" ({error.place.message})" if error.place else ""
            print(f"{path}: {error}{where}", file=sys.stderr)
            return None

    def resolved(self, line: str) -> str:
        """A line of the trace with its position resolved. Lines and columns of a trace count from 1."""
        found = POSITION.fullmatch(line, start_of(line))
        if found is None:
            return line
        _, name, row, column, _ = found.groups()
        map = self.map_of(name)
        if map is None or not (0 < int(row) < 2**32 and 0 < int(column) < 2**32):
            return line
        original = map.trace(int(row) - 1, int(column) - 1)
        if original is None or original.line is None or original.column is None:
            return line
        return f"{line[: found.start()]}{original.source}:{original.line + 1}:{original.column + 1}{found[5]}"


def main() -> None:
    resolver = Resolver(Path(sys.argv[1]))
    for line in sys.stdin:
        print(resolver.resolved(line.rstrip("\r\n")))


if __name__ == "__main__":
    main()
