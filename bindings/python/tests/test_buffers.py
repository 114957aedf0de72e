"""Bulk calls over buffers: those that fit, and those of a wrong type or size."""

import ctypes
import unittest
from array import array

from support import FLAT, NO_ID, TOKENS, Case, read

from oxc_sourcemap import Code, SourceMap, SourceMapBuilder, encode_mappings

POSITIONS = [(1, 1), (0, 4), (7, 0), (0, 9)]
INDICES = [3, 1, NO_ID, 2]
NUMBERS = array("I", [number for position in POSITIONS for number in position])

try:
    import numpy
except ImportError:
    numpy = None


def spread(numbers: array) -> memoryview:
    """The same numbers, with another one after each."""
    wide = array("I", [7]) * (2 * len(numbers))
    wide[::2] = numbers
    return memoryview(wide)[::2]


class Inputs(Case):
    def test_positions(self):
        table = memoryview(NUMBERS).cast("B").cast("I", [4, 2])
        of_ctypes = (ctypes.c_uint32 * 8)(*NUMBERS)
        with read() as map:
            for given in (NUMBERS, memoryview(NUMBERS), memoryview(NUMBERS).toreadonly(), table, of_ctypes, spread(NUMBERS)):
                self.assertEqual(list(map.find_all(given)), INDICES)
                self.assertEqual([found and found.token_index for found in map.trace_all(given)], [3, 1, None, 2])
            self.assertEqual((list(map.find_all(array("I"))), map.trace_all(array("I"))), ([], []))
            for call in (map.find_all, map.trace_all, lambda given: map.find_all_into(given, array("I", INDICES))):
                for wrong in (bytes(8), bytearray(8), array("i", NUMBERS), array("L", NUMBERS), array("Q", NUMBERS), array("f", NUMBERS), array("H", NUMBERS), (ctypes.c_int32 * 2)()):
                    self.assertRaises(TypeError, call, wrong)
                for wrong in (NUMBERS[:7], memoryview(NUMBERS).cast("B").cast("I", [2, 4]), memoryview(NUMBERS).cast("B").cast("I", [2, 2, 2])):
                    self.assertRaises(ValueError, call, wrong)

    def test_tokens(self):
        table = memoryview(FLAT).cast("B").cast("I", [4, 6])
        calls = encode_mappings, lambda given: SourceMap.from_tokens(given, names="xy", sources="ab"), SourceMapBuilder().add_tokens
        for given in (FLAT, table, memoryview(FLAT).toreadonly(), spread(FLAT)):
            self.assertEqual(encode_mappings(given), "AAAA,GAASA,K;CCCTC")
            with calls[1](given) as map:
                self.assertEqual(map.tokens(), TOKENS)
        for call in calls:
            for wrong in (bytes(24), array("i", [0] * 6), array("Q", [0] * 6), array("f", [0] * 6)):
                self.assertRaises(TypeError, call, wrong)
            for wrong in (FLAT[:23], memoryview(FLAT).cast("B").cast("I", [6, 4])):
                self.assertRaises(ValueError, call, wrong)

    def test_ids(self):
        with read() as map:
            for given in ([1, 0], iter([1, 0]), array("I", [1, 0]), memoryview(array("I", [1, 0])).cast("B").cast("I", [2, 1])):
                map.set_ignore_list(given)
                self.assertEqual(map.ignore_list, [1, 0])
            for wrong in (bytes(4), array("i", [1]), "ab", ["a"]):
                self.assertRaises(TypeError, map.set_ignore_list, wrong)
            self.assertEqual(map.ignore_list, [1, 0])

    def test_texts(self):
        for wrong in (5, None, ["a"], 0.5):
            for call in (SourceMap.from_json, SourceMap.read_found, SourceMapBuilder().add_name):
                self.assertRaises(TypeError, call, wrong)
        with read(memoryview(bytearray(b'{"version":3,"sources":["x"],"mappings":""}'))) as map:
            self.assertEqual(map.sources, ["x"])


class Outputs(Case):
    def test_outputs(self):
        with read() as map:
            tokens, found = lambda out: map.tokens_into(out), lambda out: map.find_all_into(POSITIONS, out)
            for call, wanted in ((tokens, list(FLAT)), (found, INDICES)):
                size = len(wanted)
                for out in (array("I", [7]) * size, (ctypes.c_uint32 * size)()):
                    call(out)
                    self.assertEqual(list(out), wanted)
                room = array("I", [7]) * (size + 2)
                call(memoryview(room)[1:-1])
                self.assertEqual(list(room), [7, *wanted, 7])
                for out in (bytearray(4 * size), array("i", [7]) * size, array("Q", [7]) * size, array("f", [7]) * size, bytes(4 * size)):
                    before = bytes(out)
                    self.assertRaises(TypeError, call, out)
                    self.assertEqual(bytes(out), before)
                self.assertRaises(TypeError, call, [7] * size)
                self.assertRaises(TypeError, call, memoryview(room[1:-1]).toreadonly())
                self.assertRaises(ValueError, call, spread(room[1:-1]))
                for length in (size - 1, size + 1, size + 6, 0):
                    out = array("I", [7]) * length
                    self.fails(Code.LENGTHS, call, out)
                    self.assertEqual(list(out), [7] * length)

    def test_empty_outputs(self):
        with SourceMap.from_tokens([]) as map:
            map.tokens_into(array("I"))
            map.find_all_into([], array("I"))
            self.assertEqual(list(map.token_array()), [])

    @unittest.skipUnless(numpy, "there is no numpy")
    def test_numpy(self):
        with read() as map:
            tokens = numpy.frombuffer(map.token_array(), "u4").reshape(-1, 6)
            self.assertEqual(tokens.ravel().tolist(), list(FLAT))
            with SourceMap.from_tokens(tokens, names="xy", sources="ab") as again:
                self.assertEqual(again.tokens(), TOKENS)
            out = numpy.zeros(4, "u4")
            map.find_all_into(numpy.array(POSITIONS, "u4"), out)
            self.assertEqual(out.tolist(), INDICES)
            self.assertEqual(map.trace(*numpy.array([0, 4], "u4")).token_index, 1)
            self.assertRaises(TypeError, map.find_all, numpy.array(POSITIONS))


if __name__ == "__main__":
    unittest.main()
