"""Builders."""

import unittest
from array import array

from support import BACK, FLAT, TOKENS, Case, read

from oxc_sourcemap import Code, SourceMapBuilder, SourceMapJoin, Token


class Building(Case):
    def test_built_and_read(self):
        with SourceMapBuilder() as builder:
            builder.set_file("out.js")
            self.assertEqual([builder.add_source_and_content(it, it.upper()) for it in ("a.ts", "b.ts", "a.ts")], [0, 1, 0])
            self.assertEqual([builder.add_source(it) for it in ("b.ts", "c.ts", b"c.ts")], [1, 2, 2])
            self.assertEqual(builder.add_source_and_content("c.ts", "late"), 2)
            self.assertEqual([builder.add_name(it) for it in ("größe", "hi", b"hi")], [0, 1, 1])
            builder.add_token(TOKENS[0])
            builder.add_tokens(TOKENS[1:3])
            builder.add_tokens(FLAT[18:])
            builder.add_tokens([])
            with builder.finish() as map:
                self.assertEqual((map.file, map.names, map.sources), ("out.js", ["größe", "hi"], ["a.ts", "b.ts", "c.ts"]))
                self.assertEqual((map.source_contents, map.tokens()), (["A.TS", "B.TS", None], TOKENS))
            with builder.finish() as map:
                self.assertEqual((map.file, map.names, map.sources, map.tokens()), (None, [], [], []))

    def test_refusals(self):
        with SourceMapBuilder() as builder:
            self.assertEqual(builder.add_name("a"), 0)
            for call, arguments in (
                (builder.add_name, [b"\xff"]),
                (builder.add_source, [b"\xff"]),
                (builder.add_source_and_content, [b"\xff", "a"]),
                (builder.add_source_and_content, ["a", b"\xff"]),
                (builder.set_file, [b"\xff"]),
            ):
                self.fails(Code.NOT_UTF8, call, *arguments)
            for at in range(6):
                numbers = [0] * 6
                for number in (-1, 1 << 32):
                    numbers[at] = number
                    self.assertRaises(OverflowError, builder.add_tokens, [TOKENS[0], Token(*numbers)])
            with builder.finish() as map:
                self.assertEqual((map.file, map.names, map.sources, len(map)), (None, ["a"], [], 0))

    def test_ids_are_not_compared(self):
        with SourceMapBuilder() as builder:
            builder.add_tokens(array("I", [0, 0, 0, 0, 5, 6]))
            with builder.finish() as map:
                self.assertEqual((map.tokens(), map.is_sound()), ([Token(0, 0, 0, 0, 5, 6)], False))
                self.fails(Code.BAD_SOURCE_REFERENCE, read, map.to_json(), detail=0, place="line 0, segment 0 (byte 0)")
            builder.add_tokens(BACK)
            with builder.finish() as map:
                self.fails(Code.LINE_ORDER, map.to_json, detail=1)


class Closing(Case):
    def test_what_is_closed(self):
        with read() as map:
            builder, join = SourceMapBuilder(), SourceMapJoin()
            for it in (builder, join):
                self.assertEqual((it.closed, repr(it)), (False, f"<{type(it).__name__}: open>"))
                it.close()
                it.close()
                self.assertEqual((it.closed, repr(it)), (True, f"<{type(it).__name__}: closed>"))
                self.is_closed(it.finish)
            self.is_closed(join.add, map, 0)
            for call in (builder.add_name, builder.add_source, builder.set_file):
                self.is_closed(call, "a")
            self.is_closed(builder.add_source_and_content, "a", "")
            self.is_closed(builder.add_token, TOKENS[0])
            self.is_closed(builder.add_tokens, [])
        for make in (SourceMapBuilder, SourceMapJoin):
            with make() as it:
                pass
            self.assertTrue(it.closed)

    def test_a_map_that_is_closed_is_not_joined(self):
        with SourceMapJoin() as join:
            with read() as map:
                join.add(map, 0)
            self.is_closed(join.add, map, 1)
            with join.finish() as joined:
                self.assertEqual(joined.tokens(), TOKENS)


if __name__ == "__main__":
    unittest.main()
