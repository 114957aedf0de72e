#!/usr/bin/env python3
"""Where the traces of 20,000 pairs of random small maps differ first, by trying all positions, as the numbers in
tests/differences.rs: how many pairs differ, and a checksum of where.

    tests/reference/differences.py [CASE]

CASE prints both maps and the answer of one case.

A line has 2 ** 32 columns, but tokens stand only in the first and last few, so what is found changes only there and in the column
after: those columns are tried. At each the lookup is a filter of all tokens, and what it finds is compared by texts."""
import sys
from collections import namedtuple

CASES, WIDTH, COLUMNS = 20000, 2**32, [0, 1, 2, 3, 4, 2**32 - 2, 2**32 - 1]
TRIED = [(line, col) for line in range(5) for col in (*range(8), *range(WIDTH - 4, WIDTH))]

# A token is (line, column, source line, source id or None, name id or None).
Map = namedtuple("Map", "names sources contents tokens")


def listed(items, i):
    return items[i] if i is not None and i < len(items) else None


def original(map, token):
    """What a token points to: None if it has no source, or one out of range."""
    _, _, src_line, source_id, name_id = token
    path = listed(map.sources, source_id)
    return None if path is None else (path, listed(map.contents, source_id), src_line, listed(map.names, name_id))


def trace(map, line, col):
    """What the token found at a position points to, in a tuple; () if none is found."""
    before = [token for token in map.tokens if token[0] == line and token[1] <= col]
    if not before:
        return ()
    best = max(token[1] for token in before)
    near = [token for token in before if token[1] == best]
    return (original(map, near[0] if best == col else near[-1]),)


def first_difference(a, b):
    differ = [place for place in TRIED if trace(a, *place) != trace(b, *place)]
    return min(differ, default=None)


class Numbers:
    """Random numbers, the same as those of the test."""

    def __init__(self):
        self.seed = 1

    def below(self, limit):
        self.seed = (self.seed * 1103515245 + 12345) % 2**31
        return (self.seed >> 16) % limit

    def an_id(self):
        """Rarely none, or one out of range."""
        number = self.below(8)
        return None if number == 0 else 2 if number == 1 else number % 2

    def token(self):
        line, col = self.below(4), COLUMNS[self.below(7)]
        src_line = self.below(2)
        source_id = self.an_id()
        return line, col, src_line, source_id, self.an_id()

    def content(self):
        return [None, "x", "y"][self.below(3)]


def swapped(i):
    return 1 - i if i in (0, 1) else i


def edited(numbers, tokens):
    """The tokens, of which some are dropped, doubled, moved to the next column, or point to another line."""
    after = []
    for line, col, src_line, source_id, name_id in tokens:
        kind = numbers.below(24)
        token = line, col + (kind == 2 and col < WIDTH - 1), src_line ^ (kind == 3), source_id, name_id
        after += [token] * (0 if kind == 0 else 2 if kind == 1 else 1)
    return after


def pair(numbers):
    """A map, and one that may say the same with its lists in another order, or is edited."""
    tokens = sorted((numbers.token() for _ in range(numbers.below(9))), key=lambda token: token[:2])
    a = Map(["p", "q"], ["a", "b"], [numbers.content(), numbers.content()], tokens)
    names, sources, contents, after = a.names, a.sources, a.contents, edited(numbers, tokens)
    if numbers.below(2) == 1:
        sources, contents = sources[::-1], contents[::-1]
        after = [(*token[:3], swapped(token[3]), token[4]) for token in after]
    if numbers.below(2) == 1:
        names = names[::-1]
        after = [(*token[:4], swapped(token[4])) for token in after]
    if numbers.below(8) == 0:
        contents = [numbers.content(), contents[1]]
    return a, Map(names, sources, contents, sorted(after, key=lambda token: token[:2]))


def main(only):
    numbers, count, checksum = Numbers(), 0, 0
    for case in range(CASES):
        a, b = pair(numbers)
        found = first_difference(a, b)
        if case == only:
            print(a, b, found, sep="\n")
        count += found is not None
        for number in found or (99, 99):
            checksum = (checksum * 31 + number) % 2**32
    print(f"{CASES} pairs, {count} differ, checksum {checksum}")


main(int(sys.argv[1]) if len(sys.argv) > 1 else None)
