"""Maps changed, and made of other maps."""

import json
import random
import unittest

from support import BACK, TEXT, TOKENS, Case, peer, read, simple

from oxc_sourcemap import Code, SourceMap, SourceMapJoin

OUTER = simple("AACA", file="out.js")
INNER = simple(";AAEA", ("a.ts",))


def in_peer(map: SourceMap):
    """A map as tests/reference/peer.py has it: its value, and its tokens."""
    value = json.loads(map.to_json())
    return value, peer.decode(value["mappings"])


def random_text(chosen: random.Random, sources: tuple[str, ...]) -> str:
    """The JSON text of a sorted map of few lines and columns."""
    def token():
        position = chosen.randrange(4), chosen.randrange(6)
        if chosen.random() < 0.2:
            return (*position, None, 0, 0, None)
        return (*position, chosen.randrange(len(sources)), chosen.randrange(4), chosen.randrange(6), chosen.choice([None, 0, 1]))

    tokens = peer.sort([token() for _ in range(chosen.randrange(20))])
    names = [chosen.choice("pqr") for _ in range(2)]
    contents = [chosen.choice([None, "x", "y"]) for _ in sources]
    return simple(peer.encode(tokens), sources, names=names, sourcesContent=contents, ignoreList=chosen.choice([[], [0]]))


class Setting(Case):
    def test_texts(self):
        with read() as map:
            for set, get in (
                (map.set_file, lambda: map.file),
                (map.set_source_root, lambda: map.source_root),
                (map.set_debug_id, lambda: map.debug_id),
            ):
                before = map.file, map.source_root, map.debug_id
                for text in ("é\0x", "", "a" * 1000):
                    set(text)
                    self.assertEqual(get(), text)
                set(b"b")
                self.fails(Code.NOT_UTF8, set, b"ab\xff", detail=2)
                self.assertEqual(get(), "b")
                after = map.file, map.source_root, map.debug_id
                self.assertEqual(sum(a != b for a, b in zip(before, after)), 1)
                self.assertRaises(TypeError, set, None)

    def test_lists(self):
        with read() as map:
            map.set_sources(["x", b"y", "", "é"])
            map.set_source_contents([None, "", b"z"])
            map.set_ignore_list([3, 0, 7])
            self.assertEqual((map.sources, map.source_contents, map.ignore_list), (["x", "y", "", "é"], [None, "", "z"], [3, 0, 7]))
            self.fails(Code.NOT_UTF8, map.set_sources, ["é", b"\xff"])
            self.fails(Code.NOT_UTF8, map.set_source_contents, [None, b"a\xff"], detail=1)
            self.assertRaises(OverflowError, map.set_ignore_list, [-1])
            self.assertRaises(TypeError, map.set_sources, [None])
            self.assertEqual((map.sources, map.source_contents, map.ignore_list), (["x", "y", "", "é"], [None, "", "z"], [3, 0, 7]))
            map.set_sources([])
            map.set_source_contents([])
            map.set_ignore_list([])
            self.assertEqual((map.sources, map.source_contents, map.ignore_list), ([], [], []))

    def test_source_roots(self):
        for root in (None, "", "lib", "lib/", "/", "https://x/y"):
            sources = ("a.ts", "/b.ts", "http://x/c", "é:d", "")
            text = simple("", sources, **({} if root is None else {"sourceRoot": root}))
            with read(text) as map:
                map.apply_source_root()
                self.assertEqual((map.sources, map.source_root), (peer.rooted(json.loads(text))["sources"], None))

    def test_sorting(self):
        with SourceMap.from_tokens([*BACK, *TOKENS], sources="ab", names="xy") as map:
            map.sort()
            self.assertEqual(map.tokens(), sorted([*BACK, *TOKENS], key=lambda token: token[:2]))
            self.assertTrue(map.is_sorted())

    def test_simplifying(self):
        chosen = random.Random(3)
        for _ in range(40):
            with read(random_text(chosen, ("a", "b", "a"))) as map:
                value, tokens = peer.simplify(*in_peer(map))
                map.simplify()
                self.assertEqual(map.to_json(), peer.to_text(value, tokens))
        with SourceMap.from_tokens(BACK) as map:
            self.fails(Code.UNSORTED, map.simplify)
            self.assertEqual(map.tokens(), BACK)


class MapsOfMaps(Case):
    def test_composing(self):
        chosen = random.Random(4)
        for _ in range(40):
            with read(random_text(chosen, ("a.js",))) as outer, read(random_text(chosen, ("a.ts", "b.ts"))) as inner:
                wanted = peer.to_text(*peer.compose(*in_peer(outer), *in_peer(inner)))
                with outer.compose(inner) as map:
                    self.assertEqual(map.to_json(), wanted)
                self.assertTrue(outer.to_json() and inner.to_json())

    def test_composing_is_refused(self):
        with read() as two, read(OUTER) as outer, SourceMap.from_tokens(BACK) as back:
            self.fails(Code.SEVERAL_SOURCES, two.compose, outer, detail=2)
            self.fails(Code.LINE_ORDER, outer.compose, back, detail=1)
            self.assertEqual((two.to_json(), outer.to_json(), back.tokens()), (TEXT, OUTER_TEXT, BACK))

    def test_remapping(self):
        chosen = random.Random(5)
        for _ in range(40):
            with read(random_text(chosen, ("a.js", "b.js"))) as map, read(random_text(chosen, ("a.ts",))) as first:
                with read(random_text(chosen, ("b.ts", "c.ts"))) as second:
                    inputs = [("b.js", second), ("b.js", first), ("no.js", first)]
                    wanted = peer.to_text(*peer.remap(*in_peer(map), [(path, *in_peer(it)) for path, it in inputs]))
                    with map.remap(inputs) as remapped, map.remap({b"b.js".decode(): second}) as again:
                        self.assertEqual((remapped.to_json(), again.to_json()), (wanted, wanted))

    def test_remapping_is_refused(self):
        with read(OUTER) as map, SourceMap.from_tokens(BACK) as back, read(INNER) as inner:
            self.fails(Code.INPUT_LINE_ORDER, map.remap, [("a.js", inner), ("a.js", back)], detail=1)
            self.fails(Code.NOT_UTF8, map.remap, [(b"\xff", inner)])
            with map.remap({}) as same:
                self.assertEqual(same.sources, ["a.js"])

    def test_joining(self):
        chosen = random.Random(6)
        for _ in range(40):
            maps = [read(random_text(chosen, sources)) for sources in (("a",), ("b", "c"), ("a",))]
            offsets = [0, 4, 8]
            wanted = peer.to_text(*peer.join([(*in_peer(map), line) for map, line in zip(maps, offsets)]))
            with SourceMap.join((map, line, 0) for map, line in zip(maps, offsets)) as map, SourceMapJoin() as join:
                self.assertEqual(map.to_json(), wanted)
                for it, line in zip(maps, offsets):
                    join.add(it, line)
                with join.finish() as map:
                    self.assertEqual(map.to_json(), wanted)

    def test_joining_at_columns(self):
        with read() as part, SourceMapJoin() as join:
            wanted = [(3, 5), (3, 8), (3, 13), (4, 1)]
            with SourceMap.join([(part, 3, 5)]) as map:
                self.assertEqual(([token[:2] for token in map], map.ignore_list, map.file), (wanted, [1], None))
            join.add(part, 3, 5)
            with join.finish() as map:
                self.assertEqual([token[:2] for token in map], wanted)
            with join.finish() as map:
                self.assertEqual((len(map), map.sources), (0, []))
        with SourceMap.join([]) as map:
            self.assertEqual(len(map), 0)

    def test_joining_is_refused(self):
        with read() as part, SourceMapJoin() as join:
            self.fails(Code.TOO_LARGE, SourceMap.join, [(part, 4294967295, 0)])
            join.add(part, 0)
            self.fails(Code.TOO_LARGE, join.add, part, 4294967295)
            for numbers in ((-1, 0), (0, -1), (1 << 32, 0), (0, 1 << 32)):
                self.assertRaises(OverflowError, join.add, part, *numbers)
                self.assertRaises(OverflowError, SourceMap.join, [(part, *numbers)])
            with join.finish() as map:
                self.assertEqual(map.tokens(), TOKENS)

    def test_plans(self):
        with SourceMap.evaluate(["join", "2", "@0", "0", "rewrite", "@1", "4"], [TEXT, TEXT.encode()]) as map:
            self.assertEqual(map.sources, ["a.ts", "b.ts", "a.ts", "b.ts"])
        with SourceMap.evaluate("remap @0 1 a.js @1", [OUTER, INNER]) as map:
            self.assertEqual(map.sources, ["a.ts"])
        for words, code, detail in ((["@7"], Code.NO_TEXT, 7), (["join"], Code.WORDS, 0), ("compose @0 @0", Code.SEVERAL_SOURCES, 2), ([], Code.WORDS, 0)):
            self.fails(code, SourceMap.evaluate, words, [TEXT], detail=detail)
        self.fails(Code.TOO_DEEP, SourceMap.evaluate, [*["rewrite"] * 65, "@0"], [TEXT])
        self.fails(Code.UNSORTED, SourceMap.evaluate, "simplify @0", [simple("C,D")])
        place = "text 1, line 1, segment 1 (byte 4)"
        error = self.fails(Code.BAD_SEGMENT_SIZE, SourceMap.evaluate, "join 2 @0 0 @1 1", [TEXT, simple("A;C,AA")], detail=2, place=place)
        self.assertEqual(error.place.text, 1)
        self.fails(Code.NOT_UTF8, SourceMap.evaluate, [b"\xff"], [TEXT])
        self.fails(Code.NOT_UTF8, SourceMap.evaluate, ["@0"], [b"\xff"])


OUTER_TEXT = json.dumps({"version": 3, "file": "out.js", "names": [], "sources": ["a.js"], "mappings": "AACA"}, separators=(",", ":"))

if __name__ == "__main__":
    unittest.main()
