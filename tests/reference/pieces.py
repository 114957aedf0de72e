#!/usr/bin/env python3
"""The pieces of 20,000 ranges of random small maps, by brute force, as the numbers in tests/pieces.rs: how many pieces, how many of
them with a token, and a checksum of all.

    tests/reference/pieces.py [CASE]

CASE prints the tokens, the range and the pieces of one case.

A line has 2 ** 32 columns, but tokens stand only in the first and last few, so what is found changes only there: those columns are
visited. At each visited place of the range the lookup is a filter of all tokens; a piece is the longest run of equal answers."""
import sys

CASES, WIDTH, COLUMNS = 20000, 2**32, [0, 1, 2, 3, 4, 2**32 - 2, 2**32 - 1]
VISITED = [*range(8), *range(WIDTH - 4, WIDTH)]


def lookup(tokens, line, col):
    """The index of the token found: of those at the greatest column that is not past this one, the first at the column itself, else
    the last."""
    before = [(it[1], i) for i, it in enumerate(tokens) if it[0] == line and it[1] <= col]
    if not before:
        return None
    best = max(column for column, _ in before)
    near = [i for column, i in before if column == best]
    return near[0] if best == col else near[-1]


def pieces(tokens, start, end):
    """Each piece: where it begins, where it ends, and the index of its token."""
    lines = range(start[0], end[0] + 1)
    visited = sorted({(line, col) for line in lines for col in VISITED} | {start})
    found = []
    for place in (place for place in visited if start <= place < end):
        answer = lookup(tokens, *place)
        if not found or found[-1][1] != answer:
            found.append((place, answer))
    ends = [place for place, _ in found[1:]] + [end]
    return [(place, stop, answer) for (place, answer), stop in zip(found, ends)]


class Numbers:
    """Random numbers, the same as those of the test."""

    def __init__(self):
        self.seed = 1

    def below(self, limit):
        self.seed = (self.seed * 1103515245 + 12345) % 2**31
        return (self.seed >> 16) % limit

    def position(self):
        line = self.below(4)
        return line, COLUMNS[self.below(7)]


def main(only):
    numbers, count, mapped, checksum = Numbers(), 0, 0, 0
    for case in range(CASES):
        tokens = sorted(numbers.position() for _ in range(numbers.below(9)))
        start, end = numbers.position(), numbers.position()
        found = pieces(tokens, start, end)
        if case == only:
            print("tokens", tokens, "\nrange", start, end, *found, sep="\n")
        for begins, ends, answer in found:
            count, mapped = count + 1, mapped + (answer is not None)
            for number in (*begins, *ends, 99 if answer is None else answer):
                checksum = (checksum * 31 + number) % 2**32
    print(f"{CASES} ranges, {count} pieces, {mapped} with a token, checksum {checksum}")


main(int(sys.argv[1]) if len(sys.argv) > 1 else None)
