"""Maps read, made of lists, and what they hold."""

import copy
import json
import unittest
from array import array

from support import BACK, FLAT, MAP, NUMBERS, TEXT, TOKENS, Case, read, simple

from oxc_sourcemap import Code, Field, Mend, MendKind, PlaceKind, SourceMap, Token


class Reading(Case):
    def test_fields(self):
        for text in (TEXT, TEXT.encode(), bytearray(TEXT.encode()), memoryview(TEXT.encode())):
            with read(text) as map:
                self.assertEqual((map.file, map.source_root, map.debug_id), ("out.js", "src/", "d-1"))
                self.assertEqual((map.names, map.sources), (MAP["names"], MAP["sources"]))
                self.assertEqual((map.source_contents, map.ignore_list), (MAP["sourcesContent"], [1]))
                self.assertEqual(map.tokens(), TOKENS)

    def test_nothing_is_none(self):
        with read(simple("")) as map:
            self.assertEqual((map.file, map.source_root, map.debug_id), (None, None, None))
            self.assertEqual((map.names, map.source_contents, map.ignore_list, map.tokens()), ([], [], None, []))
            self.assertEqual((map.get_name(0), map.get_source(1), map.get_source_content(0), map.get_token(0)), (None,) * 4)
        with read(simple("", file="", sourceRoot="", debugId="", ignoreList=[])) as map:
            self.assertEqual((map.file, map.source_root, map.debug_id, map.ignore_list), ("", "", "", []))

    def test_entries(self):
        with read() as map:
            self.assertEqual([map.get_name(id) for id in range(3)], ["hi", "größe", None])
            self.assertEqual([map.get_source(id) for id in range(3)], ["a.ts", "b.ts", None])
            self.assertEqual([map.get_source_content(id) for id in range(3)], ["let hi;", None, None])
            self.assertEqual([map.get_token(index) for index in range(5)], [*TOKENS, None])
            for call in (map.get_name, map.get_source, map.get_source_content, map.get_token):
                for number in (-1, 1 << 32):
                    self.assertRaises(OverflowError, call, number)
                self.assertRaises(TypeError, call, 0.5)

    def test_counts(self):
        with SourceMap.from_tokens(TOKENS, names="xyz", sources="vwxyz", source_contents="wxyz", ignore_list=[0, 1, 2, 3, 4, 0]) as map:
            self.assertEqual(map.counts()[:6], (4, 3, 5, 4, 6, 2))
            counts = map.counts()
            self.assertEqual((counts.tokens, counts.names, counts.sources), (4, 3, 5))
            self.assertEqual((counts.source_contents, counts.ignore_list, counts.lines), (4, 6, 2))
            self.assertEqual(len(map), 4)
            self.assertEqual(repr(map), "<SourceMap: 4 tokens, 5 sources, 3 names>")
        with SourceMap.from_tokens([]) as map:
            self.assertEqual((len(map), bool(map), list(map)), (0, True, []))

    def test_bytes_held(self):
        content = "x" * 100_000
        with SourceMap.from_tokens([]) as empty, SourceMap.from_tokens([], source_contents=[content], sources=["a"]) as map:
            more = map.counts().bytes - empty.counts().bytes
        self.assertTrue(100_000 <= more < 110_000, more)

    def test_order(self):
        twice = [Token(0, 0, 0, 0, 7, None)]
        for tokens, sources, is_sorted, is_sound in ((TOKENS, "ab", True, True), (BACK, "", False, False), ([], "", True, True)):
            with SourceMap.from_tokens(tokens, sources=sources, names="xy") as map:
                self.assertEqual((map.is_sorted(), map.is_sound()), (is_sorted, is_sound))
        with SourceMap.decode_mappings("AAAA", names=0, sources=1) as map:
            self.assertEqual((map.is_sorted(), map.is_sound()), (True, False))
        self.fails(Code.BAD_SOURCE_REFERENCE, SourceMap.from_tokens, twice, sources="ab", detail=7)

    def test_refusals(self):
        bad = '{"version":3,"sources":["a"],"mappings":'
        for text, code, detail, place, message in (
            (b"a\xff", Code.NOT_UTF8, 1, None, "Byte 1 is not UTF-8"),
            ("{", Code.JSON_READING, 0, "line 0, column 1 (byte 1)", "JSON parsing error: the text is not JSON"),
            ('{"version":2}', Code.JSON_VERSION, 2, "version", "JSON parsing error: unsupported source map version: 2"),
            (bad + '"AA"}', Code.BAD_SEGMENT_SIZE, 2, "line 0, segment 0 (byte 0)", "Mapping segment had an unsupported size of 2"),
            (bad + '"A;C,ACAA"}', Code.BAD_SOURCE_REFERENCE, 0, "line 1, segment 1 (byte 4)", "Reference to non-existing source at position 0"),
            (bad + '"AAAAC"}', Code.BAD_NAME_REFERENCE, 1, "line 0, segment 0 (byte 0)", "Reference to non-existing name at position 1"),
            (bad + '"g"}', Code.VLQ_LEFTOVER, 0, "line 0, segment 0 (byte 0)", "VLQ string was malformed and data was left over"),
            (bad + '"ggggggggggggggA"}', Code.VLQ_OVERFLOW, 0, "line 0, segment 0 (byte 0)", "The input encoded a number that didn't fit into i64"),
            (bad + '"","ignoreList":[1]}', Code.BAD_SOURCE_REFERENCE, 1, "entry 0 of ignoreList", "Reference to non-existing source at position 1"),
        ):  # fmt: skip
            error = self.fails(code, SourceMap.from_json, text, detail=detail, place=place)
            self.assertEqual((str(error), error.message, error.name), (message, message, f"SMAP_{code.name}"))
            self.assertIsNone(error.field)

    def test_fields_at_fault(self):
        ways = {"file": 1, "sourceRoot": 1, "sources": 1, "sourcesContent": 1, "names": 1, "debugId": 1, "ignoreList": 1,
                "x_google_ignoreList": 1, "version": "3", "mappings": None}  # fmt: skip
        names = {"sourceRoot": "SOURCE_ROOT", "sourcesContent": "SOURCES_CONTENT", "debugId": "DEBUG_ID", "ignoreList": "IGNORE_LIST",
                 "x_google_ignoreList": "GOOGLE_IGNORE_LIST"}  # fmt: skip
        for member, value in ways.items():
            text = json.dumps(json.loads(simple("")) | {member: value})
            error = self.fails(Code.JSON_SHAPE, SourceMap.from_json, text, place=member)
            field = Field[names.get(member, member.upper())]
            self.assertEqual((error.field, error.place.field, error.place.kind), (field, field, PlaceKind.MEMBER))
            self.assertEqual(str(error), f"JSON parsing error: field {member} is missing or has the wrong type")
        error = self.fails(Code.JSON_SHAPE, SourceMap.from_json, "[]", place="the value")
        self.assertEqual(error.field, Field.OBJECT)

    def test_places(self):
        error = self.fails(Code.BAD_SEGMENT_SIZE, read, simple("A;C,AA"), detail=2, place="line 1, segment 1 (byte 4)")
        self.assertEqual(error.place, (PlaceKind.SEGMENT, None, None, None, 1, 1, 4, None, "line 1, segment 1 (byte 4)"))
        error = self.fails(Code.JSON_READING, read, '{\n\n  "é": tru\n}', place="line 2, column 8 (byte 11)")
        self.assertEqual(error.place[:8], (PlaceKind.READING, None, None, None, 2, 8, 11, None))
        error = self.fails(Code.JSON_SHAPE, read, simple("", sources=["a", "b", None]), place="entry 2 of sources")
        self.assertEqual(error.place[:8], (PlaceKind.ENTRY, Field.SOURCES, None, None, None, None, None, 2))

    def test_indexed_maps(self):
        def section(line, map={"version": 3, "sources": ["a.ts"], "mappings": "AAAA"}):
            return {"offset": {"line": line, "column": 2}, "map": map}

        def read_all(sections):
            return read(json.dumps({"version": 3, "sections": sections}))

        with read_all([section(0), section(4)]) as map:
            self.assertEqual(map.tokens(), [Token(0, 2, 0, 0, 0, None), Token(4, 2, 0, 0, 1, None)])
        for sections, code, field, detail, place in (
            (7, Code.JSON_SHAPE, Field.SECTIONS, 0, "sections"),
            ([section(-1)], Code.JSON_SHAPE, Field.OFFSET, 0, "section 0, offset"),
            ([section(0, 7)], Code.JSON_SHAPE, Field.MAP, 0, "section 0, map"),
            ([section(4), section(0)], Code.SECTION_ORDER, None, 1, "section 1, offset"),
        ):
            error = self.fails(code, read_all, sections, detail=detail, place=place)
            self.assertEqual(error.field, field)
            self.assertEqual(error.place.section, None if sections == 7 else detail)


class Found(Case):
    # Rows of tests/found.rs.
    def test_mends(self):
        for text, mappings, mends, message in (
            ('{"version":"3","sources":[],"mappings":""}', "", [(MendKind.VERSION, None, 0)], "version is 3.0 or the text 3, and is read as 3"),
            ('{"version":3,"sources":["b",null],"mappings":"ACAA"}', "ACAA", [(MendKind.NULL_SOURCE, None, 1)], "source 1 is null, and is read as an empty text"),
            ('{"version":3,"sources":["a"],"names":null,"mappings":"AAAA"}', "AAAA", [(MendKind.NULL_NAMES, None, 0)], "names is null, and is read as missing"),
            ("\ufeff" + simple("AAAA"), "AAAA", [(MendKind.BYTE_ORDER_MARK, None, 0)], "the byte order mark in front is passed over"),
            (")]}'\n" + simple("AAAA"), "AAAA", [(MendKind.JSON_PREFIX, None, 0)], "the first line, which begins with )]}', is passed over"),
            ("data:application/json," + simple("AAAA"), "AAAA", [(MendKind.DATA_URL, None, 0)], "the text is a data URL, and the text in it is read"),
            ('{"version":3,"mappings":""}', "", [(MendKind.NO_SOURCES, None, 0)], "sources is missing, and is read as an empty list"),
            (simple("", sourcesContent="A"), "", [(MendKind.NO_CONTENTS, None, 0)], "sourcesContent is no list, and is read as missing"),
            (simple("", sourcesContent=[None, 1]), "", [(MendKind.BAD_CONTENT, None, 1)], "content 1 is neither a text nor null, and is read as null"),
            (simple("", ignoreList={}), "", [(MendKind.NO_IGNORE_LIST, None, 0)], "ignoreList is no list, and is read as missing"),
            (simple("", ignoreList=[0, 3]), "", [(MendKind.BAD_IGNORED_ID, None, 1)], "entry 1 of ignoreList is no id of a source, and is left out"),
            (simple("", x_google_ignoreList="a"), "", [(MendKind.NO_GOOGLE_IGNORE_LIST, None, 0)], "x_google_ignoreList is no list, and is read as missing"),
            (simple("", x_google_ignoreList=[0, 1]), "", [(MendKind.BAD_GOOGLE_IGNORED_ID, None, 1)], "entry 1 of x_google_ignoreList is no id of a source, and is left out"),
            (simple("AAAA,CCAA,CAAA"), "AAAA,C,C", [(MendKind.SOURCE_IDS, None, 2)], "tokens with a source id out of range, which are read as unmapped: 2"),
            (simple("AAAAC"), "AAAA", [(MendKind.NAME_IDS, None, 1)], "tokens with a name id out of range, which are read without a name: 1"),
            (simple("GAAA,HACA,GACA"), "AACA,GADA,AAEA", [(MendKind.UNSORTED, None, 0)], "the tokens are not in order, and are sorted"),
        ):  # fmt: skip
            with self.subTest(text), SourceMap.read_found(text).map as map:
                self.assertEqual((map.get_mappings(), map.is_sound()), (mappings, True))
                found = SourceMap.read_found(text.encode()).mends
                self.assertEqual((found, [mend.message for mend in found]), (mends, [message]))
                self.assertIs(type(found[0].kind), MendKind)

    def test_sections(self):
        map = {"version": 3, "sources": ["a"], "mappings": "AAAA;AACA;AACA"}
        sections = [{"offset": {"line": line, "column": 0}, "map": map} for line in (0, 1)]
        found = SourceMap.read_found(json.dumps({"version": 3, "sections": sections}))
        # The last token of the first section is behind the offset of the second.
        self.assertEqual(found.mends, [Mend(MendKind.CUT, 0, 1)])
        self.assertEqual([token[:2] for token in found.map], [(0, 0), (1, 0), (1, 0), (2, 0), (3, 0)])

    def test_nothing_to_mend(self):
        map, mends = SourceMap.read_found(TEXT)
        self.assertEqual((map.to_json(), mends), (TEXT, []))

    def test_refusals(self):
        self.fails(Code.JSON_VERSION, SourceMap.read_found, '{"version":2}', detail=2, place="version")
        self.fails(Code.NOT_UTF8, SourceMap.read_found, b"\xff")
        self.assertEqual(Mend(99, None, 0).message, "")


class Lists(Case):
    def test_all_lists(self):
        for tokens in (TOKENS, iter(TOKENS), FLAT, memoryview(FLAT)):
            with SourceMap.from_tokens(
                tokens,
                names=iter(MAP["names"]),
                sources=[b"a.ts", "b.ts"],
                source_contents=MAP["sourcesContent"],
                ignore_list=array("I", [1]),
            ) as map:
                self.assertEqual(json.loads(map.to_json()), {k: v for k, v in MAP.items() if k not in ("file", "sourceRoot", "debugId")})

    def test_contents(self):
        with SourceMap.from_tokens([], sources=["a", "b", "c"], source_contents=["", None]) as map:
            self.assertEqual(map.source_contents, ["", None])

    def test_refusals(self):
        made = SourceMap.from_tokens
        self.fails(Code.BAD_SOURCE_REFERENCE, made, TOKENS, names="xy", sources="a", detail=1)
        self.fails(Code.BAD_NAME_REFERENCE, made, TOKENS, names="x", sources="ab", detail=1)
        self.fails(Code.BAD_SOURCE_REFERENCE, made, [], sources="ab", ignore_list=[0, 2], detail=2)
        for name in ("names", "sources", "source_contents"):
            self.fails(Code.NOT_UTF8, made, [], **{name: ["é", b"\xff"]})
        for token in ((0, 0, 0, 0, 0), (0, 0, 0, 0, 0, 0, 0)):
            self.assertRaises(ValueError, made, [token])
        for at in range(6):
            numbers = [0] * 6
            for number, error in ((-1, OverflowError), (1 << 32, OverflowError), (0.5, TypeError)):
                numbers[at] = number
                self.assertRaises(error, made, [Token(*numbers)])
        self.assertRaises(TypeError, made, [], names=[None])

    def test_mappings_alone(self):
        with SourceMap.decode_mappings(MAP["mappings"], names=2, sources=2) as map:
            self.assertEqual((map.tokens(), map.names, map.sources), (TOKENS, [], []))
        decode = SourceMap.decode_mappings
        self.fails(Code.BAD_NAME_REFERENCE, decode, MAP["mappings"], 1, 2, detail=1, place="line 1, segment 0 (byte 13)")
        self.fails(Code.BAD_SOURCE_REFERENCE, decode, MAP["mappings"], 2, 1, detail=0, place="line 1, segment 0 (byte 13)")
        self.fails(Code.NOT_UTF8, decode, b"A\xff", 0, 0, detail=1)

    def test_copies(self):
        with read() as map:
            for made in (map.clone(), copy.copy(map), copy.deepcopy(map)):
                made.set_file("other.js")
                self.assertEqual((map.file, made.file), ("out.js", "other.js"))
                made.set_file("out.js")
                self.assertEqual(made.to_json(), TEXT)
                made.close()
                self.assertEqual(map.to_json(), TEXT)

    def test_token_arrays(self):
        with read() as map:
            self.assertEqual((map.token_array(), list(map)), (FLAT, TOKENS))
            self.assertEqual([list(map.token_array()[at : at + 6]) for at in range(0, 24, 6)], NUMBERS)
            out = array("I", [7] * 24)
            map.tokens_into(out)
            self.assertEqual(out, FLAT)


if __name__ == "__main__":
    unittest.main()
