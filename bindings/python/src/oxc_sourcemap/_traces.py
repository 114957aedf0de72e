"""The frames of stack traces, as V8, Firefox and Safari print them, in time linear in the text."""

from __future__ import annotations

import re
from collections.abc import Iterator
from typing import NamedTuple, Optional

MOST_URL = 4096
"""The most characters of a URL or path of a frame; longer ones are no frames."""

_NUMBERS = re.compile(r":([0-9]{1,10}):([0-9]{1,10})(?![0-9:])")
_SPACES = re.compile(r"[^\S\n]*")
# Behind a bracket too, as React prints it.
_AT = re.compile(r"(?<![^\s(])at ")
_BRACKET = re.compile(r"[()]")
_LETTER = re.compile(r"[^\W\d_]")
_PLACE = re.compile(r"[a-zA-Z][a-zA-Z0-9+.-]+://|/|[a-zA-Z]:[\\/]")
_ADDRESS = "address at "


class Frame(NamedTuple):
    """A place in generated code that a trace names: the URL or path of the code, and a line and column that count from 1, the column
    in UTF-16 code units. `start` and `end` are where the place stands in the text, in characters of the str.

    >>> Frame("https://example.com/app.js", 1, 14).column
    14
    """

    url: str
    line: int
    column: int
    start: int = 0
    end: int = 0


def _opening(text: str, low: int, at: int) -> int:
    """Where the text of the innermost bracket begins that is open at `at`; -1 if none is, from `low` on."""
    begin = text.rfind("(", low, at)
    if begin < 0 or text.find(")", begin, at) < 0:
        return begin + 1 or -1
    opened = []
    for found in _BRACKET.finditer(text, low, at):
        if found[0] == "(":
            opened.append(found.end())
        elif opened:
            opened.pop()
    return opened[-1] if opened else -1


def _names_file(url: str) -> bool:
    """Whether a name in a frame is that of a file: engines put others in brackets, and a number is that of a clock."""
    if url.startswith(("<", "[", "node:", "internal/", "eval at ")) or " > " in url:
        return False
    return _LETTER.search(url) is not None and "\0" not in url


def _is_path(url: str) -> bool:
    """Whether a name behind other words is that of a file."""
    is_root = url.startswith("/") or url[1:2] == ":" or "://" in url
    return is_root or " " not in url and any(it in url for it in "./\\")


class _Line:
    """A line of a text, and where what is still to be read of it begins."""

    def __init__(self, text: str, start: int, end: int) -> None:
        self.text, self.start, self.end, self.low = text, start, end, start
        self.head = _SPACES.match(text, start, end).end()  # type: ignore[union-attr]
        found = _AT.search(text, start, end)
        self.first_at = found.start() if found else end
        self.is_call = text.startswith("at ", self.head)

    def is_last(self, end: int) -> bool:
        """Whether nothing stands behind a place but white space, and the bracket that begins the properties of an error."""
        at = _SPACES.match(self.text, end, self.end).end()  # type: ignore[union-attr]
        if self.text.startswith("{", at):
            at = _SPACES.match(self.text, at + 1, self.end).end()  # type: ignore[union-attr]
        return at >= self.end

    def in_brackets(self, at: int) -> tuple[int, bool]:
        """Where the file of `at f (FILE:1:2)` begins, and whether it is of bytecode, whose columns count from 0; -1 if there is none."""
        start = _opening(self.text, max(self.low, at - MOST_URL), at)
        if start < 0 or self.first_at > start:
            return -1, False
        if self.text.startswith(_ADDRESS, start):
            return start + len(_ADDRESS), True
        return start + 3 * self.text.startswith("at ", start), False

    def behind_at(self, at: int) -> int:
        """Where the file of `at FILE:1:2` begins."""
        text = self.text
        if self.is_call and self.low <= self.head:
            start = self.head + 3
        elif self.first_at < at:
            start = text.rfind(" at ", max(self.low, at - MOST_URL), at) + 4
            if start < 4:
                return -1
        else:
            return -1
        return start + 6 * text.startswith("async ", start)

    def at_end(self, at: int) -> int:
        """Where the file of a place at the end of a line begins, as `f@FILE:1:2`, a URL or a path alone, or behind the sign of Vitest."""
        text = self.text
        word = max(text.rfind(" ", self.low, at), text.rfind("\t", self.low, at), self.low - 1) + 1
        if text.rfind("❯ ", self.low, at) >= 0:
            return word
        sign = text.find("@", self.low, at)
        if sign >= 0 and text.find(":/", self.low, sign) < 0:
            return sign + 1
        return word if _PLACE.match(text, word, at) else -1

    def frame(self, found: re.Match[str]) -> Optional[Frame]:
        """The frame whose line and column are found, if it is one."""
        text, (at, end) = self.text, found.span()
        follows = text[end : end + 1]
        is_bytecode, is_framed = False, True
        if follows == ")":
            start, is_bytecode = self.in_brackets(at)
        elif follows and not follows.isspace() and follows not in ",;":
            return None
        else:
            start = self.behind_at(at)
            is_framed = self.is_call and start >= 0 and self.low <= self.head
            if start < 0 and not self.is_call and self.is_last(end):
                start, is_framed = self.at_end(at), True
        self.low = end
        if start < 0 or not 0 < at - start <= MOST_URL:
            return None
        url = text[start:at]
        if not _names_file(url) or not is_framed and not _is_path(url):
            return None
        return Frame(url, int(found[1]), int(found[2]) + is_bytecode, start, end)


def frames_in(text: str) -> Iterator[Frame]:
    """The disjoint frames of a trace or a log, in order.

    >>> [frame[:3] for frame in frames_in("Error: x\\n    at f (https://h/app.js:1:14)\\ng@https://h/b.js:2:1")]
    [('https://h/app.js', 1, 14), ('https://h/b.js', 2, 1)]
    """
    line: Optional[_Line] = None
    for found in _NUMBERS.finditer(text):
        at = found.start()
        if line is None or at >= line.end:
            start = text.rfind("\n", line.end if line else 0, at) + 1
            end = text.find("\n", at)
            line = _Line(text, start, end if end >= 0 else len(text))
        frame = line.frame(found)
        if frame is not None:
            yield frame
