"""Memory that the library holds: none stays of what is dropped, closed, refused, or caught in a cycle."""

import ctypes
import gc
import itertools
import sys
import unittest
import weakref

from support import BACK, FLAT, TEXT, Case, read, simple

from oxc_sourcemap import (
    CompiledMap,
    Scopes,
    SourceMap,
    SourceMapBuilder,
    SourceMapError,
    SourceMapJoin,
    decode_data_url,
    encode_mappings,
    source_mapping_url,
)

LIBC = ctypes.CDLL(None)


class Info(ctypes.Structure):
    _fields_ = [(name, ctypes.c_size_t) for name in "arena ordblks smblks hblks hblkhd usmblks fsmblks uordblks fordblks keepcost".split()]


def held() -> int:
    """The bytes that the process has from malloc."""
    gc.collect()
    info = LIBC.mallinfo2()
    return info.uordblks + info.hblkhd


class Node:
    """Something that refers to itself."""

    def __init__(self, **values):
        self.me = self
        self.__dict__.update(values)


@unittest.skipUnless(hasattr(LIBC, "mallinfo2"), "the C library counts no memory")
class Memory(Case):
    @classmethod
    def setUpClass(cls):
        LIBC.mallinfo2.restype, LIBC.mallinfo2.argtypes = Info, []

    def keeps_nothing(self, call, times=1000):
        """Asserts that a call, done many times, leaves nothing: 16 bytes of malloc, or an object of Python, that were left each time
        would be more than is allowed. What is kept once, as by a cache of the interpreter, is not left in each of three rounds."""
        for _ in range(50):
            call()
        for _ in range(3):
            before, blocks = held(), sys.getallocatedblocks()
            for _ in range(times):
                call()
            left, objects = held() - before, sys.getallocatedblocks() - blocks
            if left < 16 * times // 2 and objects < times // 2:
                return
        self.fail(f"{left} bytes and {objects} objects are left by {times} calls")

    def test_maps_read_and_dropped(self):
        self.keeps_nothing(lambda: read(), 10_000)

    def test_maps_read_and_closed(self):
        def call():
            with read() as map:
                map.close()

        self.keeps_nothing(call, 10_000)

    def test_maps_in_cycles(self):
        node = Node(map=read())
        dead = weakref.ref(node.map)
        del node
        gc.collect()
        self.assertIsNone(dead())
        self.keeps_nothing(lambda: Node(map=read(), builder=SourceMapBuilder(), join=SourceMapJoin()))

    def test_refused_maps(self):
        for text in ("{", simple("AAAA,AA"), b"\xff"):
            for call in (SourceMap.from_json, SourceMap.read_found):
                self.keeps_nothing(lambda: self.assertRaises(SourceMapError, call, text))
        self.keeps_nothing(lambda: self.assertRaises(SourceMapError, SourceMap.from_tokens, FLAT))

    def test_maps_made(self):
        with read() as map, read(simple("AAAA")) as one, SourceMap.from_tokens(BACK) as back:
            for call in (
                map.clone, lambda: SourceMap.read_found(b"\xef\xbb\xbf" + TEXT.encode()), lambda: SourceMap.from_tokens([], names=["a"]),
                lambda: SourceMap.decode_mappings("A", 0, 0), lambda: SourceMap.join([(map, 0, 0)]), lambda: SourceMap.evaluate("@0", [TEXT]),
                lambda: one.compose(map), lambda: one.remap({"a.js": map}),
                lambda: self.assertRaises(SourceMapError, map.compose, one), lambda: self.assertRaises(SourceMapError, one.compose, back),
            ):  # fmt: skip
                self.keeps_nothing(call)

    def test_compiled_maps_copy_nothing(self):
        with SourceMap.from_tokens([], sources=["a"], source_contents=["x" * 10_000_000]) as map:
            data = map.compile()
        before = held()
        with CompiledMap(data) as map:
            self.assertLess(held() - before, 100_000)
            self.assertEqual(map.sources, ["a"])

    def test_compiled_maps(self):
        data = read().compile()

        def closed():
            with CompiledMap(data) as map:
                map.close()

        self.keeps_nothing(lambda: CompiledMap(data), 10_000)
        self.keeps_nothing(closed, 10_000)
        with read() as map, SourceMap.from_tokens(BACK) as back, CompiledMap(data) as compiled:
            for call in (
                map.compile, lambda: self.assertRaises(SourceMapError, back.compile), compiled.decompile, lambda: compiled.trace(0, 4),
                lambda: compiled.trace_all([(0, 4)]), lambda: compiled.find_all([(0, 4)]), lambda: compiled.sources, lambda: compiled.stamp,
                lambda: self.assertRaises(SourceMapError, CompiledMap, b"{}"), lambda: Node(map=CompiledMap(data)),
            ):  # fmt: skip
                self.keeps_nothing(call)

    def test_scopes(self):
        text = "BFAAA,DAC,BFCAC,CCA,CFA,EGAA,GCB,HBAFA,ECKC,IAFC,FK,FU"
        data = f'{{"names":["f","g"],"scopes":"{text}"}}'

        def closed():
            with Scopes.read(data) as it:
                it.close()

        self.keeps_nothing(lambda: Scopes.read(data), 10_000)
        self.keeps_nothing(closed, 10_000)
        with read() as map, Scopes.decode(text, 2) as it:
            for call in (
                it.counts, lambda: it.scopes, lambda: it.ranges, lambda: it.get_range(1), lambda: it.scope_at(0, 3, 0), lambda: it.frames_at(0, 12),
                lambda: it.trace(map, 0, 12), lambda: Node(it=Scopes.decode(text, 2)), lambda: self.assertRaises(SourceMapError, Scopes.decode, text, 1),
                lambda: self.assertRaises(SourceMapError, Scopes.read, '{"scopes":7}'), lambda: it.get_variables(0), lambda: it.value_at(0, 1, 0, 4),
                lambda: it.scope_chain_at(0, 12), lambda: it.scope_chain(0, 0, 12, map), lambda: it.scope_chain(9, 0, 12), lambda: it.get_variables(9),
            ):  # fmt: skip
                self.keeps_nothing(call)

    def test_texts(self):
        with read() as map, SourceMap.from_tokens(BACK) as back:
            for call in (
                map.to_json, map.to_data_url, map.get_mappings, lambda: map.visualize("a"), lambda: map.visualizer_url("a"),
                lambda: encode_mappings(FLAT), lambda: decode_data_url("data:application/json,{}"),
                lambda: source_mapping_url("//# sourceMappingURL=a"), lambda: self.assertRaises(SourceMapError, back.to_json),
                lambda: map.sources, lambda: map.trace(0, 4), lambda: map.trace_all([(0, 4)]), lambda: map.token_array(),
            ):  # fmt: skip
                self.keeps_nothing(call)

    def test_large_numbers(self):
        # (those up to 256 are there once and for all)
        numbers = itertools.count(1000)
        with read() as map:
            line, column, bias = 10**6, 10**7, int("257") - 256
            before = [sys.getrefcount(it) for it in (line, column)]
            for _ in range(1000):
                map.trace(line, column, bias)
                self.assertRaises(OverflowError, map.trace, line, -column)
                self.assertRaises(SourceMapError, map.trace, line, column, line)
            self.assertEqual([sys.getrefcount(it) for it in (line, column)], before)
            self.keeps_nothing(lambda: map.trace(next(numbers), next(numbers)), 100_000)
            self.keeps_nothing(lambda: map.trace(0, next(numbers)), 100_000)
            for refused in ((next(numbers), 2**32 + next(numbers)), (next(numbers), "a"), (-next(numbers), 0)):
                self.keeps_nothing(lambda: self.assertRaises((OverflowError, TypeError), map.trace, *refused))

    def test_changes(self):
        with read() as map:
            for call in (
                lambda: map.set_file("a" * 100), lambda: map.set_source_root("a" * 100), lambda: map.set_debug_id("a" * 100),
                lambda: map.set_sources(["a" * 100]), lambda: map.set_source_contents(["a" * 100]), lambda: map.set_ignore_list([0] * 100),
                map.sort, map.index_sources, map.apply_source_root,
            ):  # fmt: skip
                self.keeps_nothing(call)

    def test_builders(self):
        def built(closes):
            builder = SourceMapBuilder()
            builder.add_name("a")
            builder.add_source_and_content("a", "b")
            builder.add_tokens(FLAT)
            builder.finish()
            builder.add_name("c" * 100)
            if closes:
                builder.close()

        def joined(closes):
            join = SourceMapJoin()
            join.add(map, 0)
            join.finish()
            join.add(map, 0)
            if closes:
                join.close()

        with read() as map:
            for call in (built, joined):
                for closes in (False, True):
                    self.keeps_nothing(lambda: call(closes))


if __name__ == "__main__":
    unittest.main()
