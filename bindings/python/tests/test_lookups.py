"""Lookups, by rows worked by hand and by tests/reference/lookups.py."""

import random
import unittest
from array import array

from support import BACK, NO_ID, TOKENS, Case, lookups, read

from oxc_sourcemap import Bias, Code, Direction, Generated, Kind, Original, Piece, Position, SourceMap, Token

MAX = 4294967295


def random_map(chosen: random.Random) -> list[Token]:
    """Up to 30 tokens on few lines and columns, sorted, some without a source or a name."""
    def token():
        ids = chosen.choice([None, 0, 1]), chosen.choice([None, 0, 1])
        return Token(*(chosen.randrange(4) for _ in range(4)), *ids)

    return lookups.sorted_tokens([token() for _ in range(chosen.randrange(30))])


class Traces(Case):
    def test_kinds(self):
        with read() as map:
            named = Original("a.ts", 0, 9, "hi", 1, TOKENS[1])
            self.assertEqual((map.trace(0, 4), named.kind), (named, Kind.NAMED))
            self.assertEqual(map.trace(0, 2), Original("a.ts", 0, 0, None, 0, TOKENS[0]))
            self.assertEqual(map.trace(0, 2).kind, Kind.MAPPED)
            self.assertEqual(map.trace(0, 9), Original(None, None, None, None, 2, TOKENS[2]))
            self.assertEqual(map.trace(0, 9).kind, Kind.UNMAPPED)
            self.assertIsNone(map.trace(1, 0))
            self.assertEqual(map.trace(1, 0, Bias.CLAMPED), Original("b.ts", 1, 0, "größe", 3, TOKENS[3]))
            self.assertEqual(map.trace(0, 4, Bias.AFTER).token_index, 2)
            self.assertIsNone(map.trace(7, 0))

    def test_an_id_out_of_range_is_none(self):
        with SourceMap.decode_mappings("AAAA", names=0, sources=1) as map:
            self.assertEqual(map.trace(0, 0), Original(None, None, None, None, 0, Token(0, 0, 0, 0, 0, None)))

    def test_numbers(self):
        with read() as map:
            for numbers in ((-1, 0), (0, -1), (1 << 32, 0), (0, 1 << 32), (0, 0, -1), (0, 0, 1 << 32)):
                self.assertRaises(OverflowError, map.trace, *numbers)
            for numbers in ((0.5, 0), ("0", 0), (0, None), (0, 0, 0.5)):
                self.assertRaises(TypeError, map.trace, *numbers)
            self.assertIsNone(map.trace(MAX, MAX))

    def test_like_the_reference(self):
        finders = {Bias.BEFORE: lookups.found_at, Bias.CLAMPED: lookups.clamped_at, Bias.AFTER: lookups.found_after}
        chosen = random.Random(1)
        for _ in range(40):
            tokens = random_map(chosen)
            positions = [(line, column) for line in range(5) for column in range(5)]
            chosen.shuffle(positions)
            flat = array("I", [number for position in positions for number in position])
            with SourceMap.from_tokens(tokens, names=["p", "q"], sources=["a", "b"]) as map:
                for bias, finder in finders.items():
                    wanted = [finder(tokens, *position) for position in positions]
                    one_by_one = [map.trace(*position, bias) for position in positions]
                    self.assertEqual([found and (found.token_index, found.token) for found in one_by_one], wanted)
                    indices = [NO_ID if found is None else found[0] for found in wanted]
                    for given in (positions, iter(positions), flat):
                        self.assertEqual(list(map.find_all(given, bias)), indices)
                    self.assertEqual(map.trace_all(flat, bias), one_by_one)
                    self.assertEqual(map.trace_all(positions, bias), one_by_one)

    def test_as_many_answers_as_positions(self):
        positions = [(at % 3, at % 11) for at in range(4097)]
        with read() as map:
            wanted = [map.trace(*it) for it in positions[:33]] * 125
            for count in (0, 1, 255, 256, 257, 999, 1000, 1001, 4095, 4096, 4097):
                given, out = positions[:count], array("I", [7] * count)
                self.assertEqual(map.trace_all(given), wanted[:count])
                map.find_all_into(given, out)
                self.assertEqual(out.tolist(), [NO_ID if it is None else it.token_index for it in wanted[:count]])
                self.assertEqual(map.find_all(given), out)

    def test_bias_is_before_by_default(self):
        with SourceMap.from_tokens([Token(0, 4, 0, 0, None, None)]) as map:
            out = array("I", [7])
            map.find_all_into([(0, 0)], out)
            self.assertEqual((map.trace(0, 0), map.trace_all([(0, 0)]), list(map.find_all([(0, 0)])), list(out)), (None, [None], [NO_ID], [NO_ID]))
            map.find_all_into([(0, 0)], out, Bias.CLAMPED)
            self.assertEqual(list(out), [0])

    def test_refusals(self):
        with read() as map, SourceMap.from_tokens(BACK) as back:
            calls = lambda map: (lambda *bias: map.trace(0, 0, *bias), lambda *bias: map.trace_all([], *bias), lambda *bias: map.find_all([], *bias))
            for call in calls(map):
                self.fails(Code.BAD_OPTION, call, 3)
            for call in calls(back):
                self.fails(Code.LINE_ORDER, call, detail=1)
            self.assertEqual((map.trace_all([]), list(map.find_all([]))), ([], []))
            self.fails(Code.LENGTHS, map.find_all_into, [(0, 0)], array("I", [0, 0]))
            for call in (map.trace_all, map.find_all):
                self.assertRaises(OverflowError, call, [(0, -1)])
                self.assertRaises(OverflowError, call, [(0, 1 << 32)])
                self.assertRaises(ValueError, call, [(0, 0, 0)])


class Pieces(Case):
    # Rows of tests/pieces.rs.
    def test_rows(self):
        for columns, begin, end, cuts, found in (
            ([], (0, 0), (7, 3), [], [None]),
            ([(0, 3)], (0, 0), (0, 4), [(0, 3)], [None, 0]),
            ([(0, 3)], (0, 5), (1, 6), [(1, 0)], [0, None]),
            ([(0, 2), (0, 5), (0, 5), (0, 5), (0, 9)], (0, 0), (0, 12), [(0, 2), (0, 5), (0, 6), (0, 9)], [None, 0, 1, 3, 4]),
            ([(0, 4), (2, 0), (2, 7)], (0, 0), (5, 1), [(0, 4), (1, 0), (2, 0), (2, 7), (3, 0)], [None, 0, None, 1, 2, None]),
            ([(MAX, 0), (MAX, MAX)], (MAX - 1, MAX), (MAX, MAX), [(MAX, 0)], [None, 0]),
        ):  # fmt: skip
            ends = [begin, *cuts, end]
            with SourceMap.from_tokens([Token(*it, 0, 0, None, None) for it in columns]) as map:
                pieces = map.pieces(begin, end)
                self.assertEqual(pieces, [Piece(*it) for it in zip(ends, ends[1:], found)])
                self.assertIs(type(pieces[0].begin), Position)
                self.assertIs(type(pieces[0].end), Position)
                self.assertEqual(map.pieces(end, begin), [])
                self.assertRaises(OverflowError, map.pieces, (-1, 0), end)
                self.assertRaises(OverflowError, map.pieces, begin, (0, 1 << 32))


class Differences(Case):
    # Rows of tests/differences.rs.
    def test_rows(self):
        def made(*rows, names="pq", sources="ab"):
            return SourceMap.from_tokens([Token(*row) for row in rows], names=names, sources=sources)

        for first, second, wanted in (
            (made(), made(), None),
            (made(), made((3, 7, 0, 0, 0, None)), (3, 7)),
            (made((3, 7, 0, 0, 0, None)), made(), (3, 7)),
            (made((0, 4, 1, 1, 0, 1)), made((0, 4, 1, 1, 1, 0), names="qp", sources="ba"), None),
            (made((2, 1, 5, 6, 0, 0)), made((2, 1, 4, 6, 0, 0)), (2, 1)),
            (made((0, 1, 1, 1, 0, None), (0, 1, 2, 2, 0, None)), made((0, 1, 1, 1, 0, None)), (0, 2)),
        ):
            found = first.first_difference(second)
            self.assertEqual((found, first.first_difference(first)), (wanted, None))
            self.assertIs(type(found), Position if wanted else type(None))


class Reverse(Case):
    def test_like_the_reference(self):
        finders = {
            Direction.AT: lookups.generated_at,
            Direction.FOR: lookups.all_generated_for,
            Direction.FROM: lookups.all_generated_from,
            Direction.ON_LINE: lambda tokens, source, line, _: lookups.pointing_to(tokens, source, line),
        }
        chosen = random.Random(2)
        for _ in range(40):
            tokens = random_map(chosen)
            # Each token is told from its equals by its column.
            tokens = [token._replace(dst_col=index) for index, token in enumerate(tokens)]
            tokens = lookups.sorted_tokens(tokens)
            with SourceMap.from_tokens(tokens, names=["p", "q"], sources=["a", "b"]) as map:
                map.index_sources()
                for source, line, column in ((s, l, c) for s in range(3) for l in range(5) for c in range(5)):
                    for direction, finder in finders.items():
                        wanted = [tokens.index(token) for token in finder(tokens, source, line, column)]
                        self.assertEqual(map.all_generated(source, line, column, direction), wanted)
                        first = Generated(wanted[0], tokens[wanted[0]]) if wanted else None
                        self.assertEqual(map.generated(source, line, column, direction), first)

    def test_refusals(self):
        with read() as map:
            self.fails(Code.NO_INDEX, map.generated, 0, 0, 0)
            self.fails(Code.NO_INDEX, map.all_generated, 0, 0, 0)
            map.index_sources()
            self.assertEqual((map.generated(0, 0, 9).token_index, map.all_generated(0, 0, 9)), (1, [1]))
            self.assertEqual((map.generated(0, 0, 8), map.all_generated(0, 0, 8)), (None, []))
            for call in (map.generated, map.all_generated):
                self.fails(Code.BAD_OPTION, call, 0, 0, 0, 4)
                for at in range(4):
                    numbers = [0] * 4
                    for number in (-1, 1 << 32):
                        numbers[at] = number
                        self.assertRaises(OverflowError, call, *numbers)

    def test_a_sorted_map_has_no_index(self):
        with SourceMap.from_tokens(BACK) as map:
            map.index_sources()
            self.assertEqual(map.all_generated(0, 0, 0), [])
            map.sort()
            self.fails(Code.NO_INDEX, map.all_generated, 0, 0, 0)


if __name__ == "__main__":
    unittest.main()
