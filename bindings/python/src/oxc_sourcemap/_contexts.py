"""Lines of a content by their numbers."""

from __future__ import annotations

import re
from array import array
from typing import NamedTuple

# As docs/FORMAT.md, "Positions in a text".
_END = re.compile("\r\n?|[\n\u2028\u2029]")


class Context(NamedTuple):
    """Lines of an original source, without their ends. `first` is the number of the first one, and `line` that of the position; lines
    count from 0.

    >>> Context(4, 5, ["a", "b"]).lines[5 - 4]
    'b'
    """

    first: int
    line: int
    lines: list[str]


class Lines:
    """The lines of a text, which is gone over once. Lines count from 0, and end in a line feed, a carriage return, both, U+2028 or
    U+2029.

    >>> lines = Lines("a\\nb\\r\\nc")
    >>> len(lines), lines.line(1), lines.around(2, 1)
    (3, 'b', Context(first=1, line=2, lines=['b', 'c']))
    """

    def __init__(self, text: str) -> None:
        self._text = text
        self._starts, self._ends = array("Q", [0]), array("Q")
        for found in _END.finditer(text):
            self._ends.append(found.start())
            self._starts.append(found.end())
        self._ends.append(len(text))

    @property
    def size(self) -> int:
        """Of how many bytes at most, so that a table of them is bounded.

        >>> Lines("a").size
        20
        """
        return 4 * len(self._text) + 16 * len(self._starts)

    def __len__(self) -> int:
        return len(self._starts)

    def line(self, number: int) -> str:
        """A line without its end. Raises IndexError of a number below 0, or past the last one.

        >>> Lines("a\\nb").line(1)
        'b'
        """
        if not 0 <= number < len(self):
            raise IndexError(f"there is no line {number}: there are {len(self)}")
        return self._text[self._starts[number] : self._ends[number]]

    def around(self, number: int, count: int) -> Context:
        """A line with up to `count` lines before and behind it. Raises IndexError as `line`, and ValueError of a count below 0.

        >>> Lines("a\\nb\\nc").around(0, 1)
        Context(first=0, line=0, lines=['a', 'b'])
        """
        if count < 0:
            raise ValueError("the count is below 0")
        self.line(number)
        first, last = max(number - count, 0), min(number + count, len(self) - 1)
        return Context(first, number, [self.line(it) for it in range(first, last + 1)])
