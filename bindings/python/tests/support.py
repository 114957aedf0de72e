"""What the tests share: a map, ways to compare, and the implementations of the repository that share no code with the library."""

from __future__ import annotations

import json
import sys
import threading
import unittest
from array import array
from pathlib import Path

TOP = Path(__file__).resolve().parents[3]
sys.path.append(str(TOP / "bindings/python/src"))
sys.path.append(str(TOP / "tests/reference"))

import lookups  # tests/reference: these share no code with the library
import mapping_urls
import peer
from oxc_sourcemap import Code, SourceMap, SourceMapError, Token

__all__ = ["lookups", "mapping_urls", "peer"]

MAP = {
    "version": 3,
    "file": "out.js",
    "sourceRoot": "src/",
    "names": ["hi", "größe"],
    "sources": ["a.ts", "b.ts"],
    "sourcesContent": ["let hi;", None],
    "ignoreList": [1],
    "mappings": "AAAA,GAASA,K;CCCTC",
    "debugId": "d-1",
}
TEXT = json.dumps(MAP, ensure_ascii=False, separators=(",", ":"))

# The tokens of that map, worked by hand: the third has no source.
TOKENS = [
    Token(0, 0, 0, 0, 0, None),
    Token(0, 3, 0, 9, 0, 0),
    Token(0, 8, 0, 9, None, None),
    Token(1, 1, 1, 0, 1, 1),
]
NO_ID = 4294967295
NUMBERS = [
    [0, 0, 0, 0, 0, NO_ID],
    [0, 3, 0, 9, 0, 0],
    [0, 8, 0, 9, NO_ID, NO_ID],
    [1, 1, 1, 0, 1, 1],
]  # fmt: skip
FLAT = array("I", [number for row in NUMBERS for number in row])

# A map of two tokens whose lines go back.
BACK = [Token(1, 0, 0, 0, None, None), Token(0, 0, 0, 0, None, None)]


def read(text: str | bytes = TEXT) -> SourceMap:
    return SourceMap.from_json(text)


def simple(mappings: object, sources: tuple[str, ...] = ("a.js",), **more: object) -> str:
    """The JSON text of a map."""
    value = {"version": 3, "names": [], "sources": sources, "mappings": mappings} | more
    return json.dumps(value, ensure_ascii=False, separators=(",", ":"))


class Case(unittest.TestCase):
    def fails(self, code: Code, call, *arguments, detail: int = 0, place: str | None = None, **named) -> SourceMapError:
        """Asserts that a call raises an error with this code, number and place."""
        with self.assertRaises(SourceMapError) as caught:
            call(*arguments, **named)
        error = caught.exception
        self.assertIs(type(error.code), Code)
        self.assertEqual((error.code, error.detail, error.place and error.place.message), (code, detail, place))
        return error

    def is_closed(self, call, *arguments) -> None:
        """Asserts that a call says that what it is given is closed."""
        with self.assertRaisesRegex(ValueError, "is closed"):
            call(*arguments)

    def together(self, *calls, seconds=60) -> None:
        """Runs calls at once, each in a thread, and asserts that all end in this time, and without an error."""
        errors, start = [], threading.Barrier(len(calls))

        def run(call):
            start.wait()
            try:
                call()
            except BaseException as error:
                errors.append(error)

        threads = [threading.Thread(target=run, args=(call,), daemon=True) for call in calls]
        for thread in threads:
            thread.start()
        for thread in threads:
            thread.join(seconds)
        self.assertEqual([thread.is_alive() for thread in threads], [False] * len(threads))
        self.assertEqual(errors, [])
