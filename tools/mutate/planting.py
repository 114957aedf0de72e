"""What the programs that plant bugs share: rows of bugs, texts with a bug, and the table that tells by what each is found."""

import re
import sys
from collections import Counter
from collections.abc import Callable, Iterable, Iterator
from concurrent.futures import ThreadPoolExecutor
from pathlib import Path
from typing import Any, NamedTuple

TOP = Path(__file__).resolve().parents[2]


class Row(NamedTuple):
    files: str
    old: str
    new: str
    name: str
    where: str


class Bug(NamedTuple):
    """A bug, the file that has it, and the text of that file with it."""

    name: str
    file: str
    text: str


def rows(path: Path) -> list[Row]:
    """The rows of a file, each a text and what is put in its place: lines `- OLD` and behind them lines `+ NEW`. `# FILE` holds for all
    rows below it (patterns of names, if it is in one of several); `= NAME` and `@ WHERE` say how the next row is called, and where it is
    found."""
    found = []
    files = name = where = ""
    old: list[str] = []
    new: list[str] = []
    for line in [*path.read_text(encoding="utf-8").splitlines(), "#"]:
        sign, rest = line[:1], line[2:]
        if new and sign != "+":
            found.append(Row(files, "\n".join(old), "\n".join(new), name, where))
            name, where, old, new = "", "", [], []
        if sign == "#":
            files = rest
        elif sign == "=":
            name = rest
        elif sign == "@":
            where = rest
        elif sign == "-":
            old.append(rest)
        elif sign == "+":
            new.append(rest)
    return found


def planted(row: Row, folder: Path) -> tuple[str, str]:
    """The file of a folder that has the text of a row, and its text with the bug."""
    for file in (it for pattern in row.files.split() for it in sorted(folder.glob(pattern))):
        text = file.read_text(encoding="utf-8")
        if row.old in text:
            return str(file.relative_to(folder)), text.replace(row.old, row.new, 1)
    sys.exit(f"{row.files} has no {row.old}")


def listed(path: Path, folder: Path) -> Iterator[Bug]:
    """The bugs of a file of rows."""
    for number, row in enumerate(rows(path), 1):
        file, text = planted(row, folder)
        yield Bug(row.name or f"{path.stem} {number}, {file}: {row.old.strip().splitlines()[0][:60]}", file, text)


def swapped(text: str, one: str, other: str) -> str:
    """A text with each of two words in the place of the other."""
    return re.sub(rf"\b(?:{one}|{other})\b", lambda it: other if it[0] == one else one, text)


def chosen(bugs: Iterable[Any], words: list[str]) -> list[Any]:
    """The bugs whose names have one of these words in them, or all."""
    return [it for it in bugs if not words or any(word in it[0] for word in words)]


class Tally:
    """Prints by what each bug is found, and counts them by the first words of their names."""

    def __init__(self) -> None:
        self.counts: Counter[tuple[str, bool]] = Counter()

    def tell(self, name: str, by: str | None) -> None:
        self.counts[name.split()[0], by is not None] += 1
        print(f"{name}: {by or 'NOT FOUND'}", flush=True)

    def end(self) -> int:
        kinds = dict.fromkeys(kind for kind, _ in self.counts)
        if len(kinds) < 20:
            print("".join(f"{kind}: {self.counts[kind, True]} found, {self.counts[kind, False]} not found\n" for kind in kinds), end="")
        lost = sum(count for (_, is_found), count in self.counts.items() if not is_found)
        print(f"{self.counts.total() - lost} found, {lost} not found")
        return 1 if lost else 0


def try_all(nothing: Any, bugs: list[Any], found_by: Callable[[Any], str | None], jobs: int) -> int:
    """Tries each bug, once it is known that nothing fails without one. Returns the status: 1 if one is not found."""
    if by := found_by(nothing):
        sys.exit(f"the tests fail without a bug: {by}")
    tally = Tally()
    with ThreadPoolExecutor(jobs) as pool:
        for bug, by in zip(bugs, pool.map(found_by, bugs)):
            tally.tell(bug[0], by)
    return tally.end()
