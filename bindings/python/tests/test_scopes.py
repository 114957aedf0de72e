"""Scopes, by rows worked by hand; each fault of their text; frames and variables with the texts of a map; and handles."""

import copy
import json
import pickle
import threading
import unittest
from unittest import mock

from support import Case, read

from oxc_sourcemap import (
    Bias,
    Call,
    Code,
    CompiledMap,
    Frames,
    FrameView,
    Position,
    Range,
    Scope,
    ScopeChainEntry,
    ScopeFrame,
    Scopes,
    ScopesCounts,
    ScopesFault,
    ScopeVariable,
    ScopeView,
    SourceFrame,
    SourceMap,
    _library,
    _scopes,
)

# global; in it outer, and inner, which was inlined into outer at columns 20 to 30.
INLINED = "BCAAC,BHBAEE,DI,CDB,BHBAGA,CCB,CBA,ECAA,EGKC,GH,ECKC,IADE,FK,FK,FBA"
NAMES = ["n0", "global", "outer", "function", "a", "inner", "x"]
# Columns 0 and 20 of line 0 are lines 1 and 5 of the source, and line 2 has no source.
JSON = json.dumps({"version": 3, "sources": ["a.js"], "names": NAMES, "mappings": "AACA,oBAIE;;A", "scopes": INLINED})

P = Position
# The text, the number of names, that of sources, the scopes, the ranges.
ROWS = [
    (
        INLINED, 7, 1,
        [
            Scope(0, P(0, 0), P(8, 0), None, 1, False, None),
            Scope(0, P(1, 0), P(4, 1), 2, 3, True, 0),
            Scope(0, P(5, 0), P(7, 1), 5, 3, True, 0),
        ],
        [
            Range(P(0, 0), P(1, 0), 0, False, False, None, None),
            Range(P(0, 10), P(0, 40), 1, True, False, None, 0),
            Range(P(0, 20), P(0, 30), 2, False, False, Call(0, 3, 4), 1),
        ],
    ),
    ("A,BCCDA,CAG", 1, 2, [Scope(1, P(2, 3), P(2, 9), None, 0, False, None)], []),
    ("ENDC,FCH", 0, 0, [], [Range(P(3, 2), P(5, 7), None, True, True, None, None)]),
    (
        "BAAA,DAC,CJA,ECAA,GAD,HBBBE,FCE", 4, 1,
        [Scope(0, P(0, 0), P(9, 0), None, None, False, None)],
        [Range(P(0, 0), P(2, 4), 0, False, False, None, None)],
    ),
    (
        "BFAAA,CEA,BFBAA,CFA,EGAC,FJ,EGAD,FBC", 1, 2,
        [Scope(0, P(0, 0), P(4, 0), 0, None, True, None), Scope(1, P(1, 0), P(6, 0), 0, None, True, None)],
        [Range(P(0, 0), P(0, 9), 1, True, False, None, None), Range(P(0, 9), P(1, 2), 0, True, False, None, None)],
    ),
    ("", 0, 0, [], []),
]  # fmt: skip
INNER, OUTER, NAMELESS = ScopeFrame(5, 2, None), ScopeFrame(2, 1, None), ScopeFrame(None, None, None)
# Scopes with a, b and c, of which two items tell, and its code from 2:5 to 4:9. a is x, from 2:9 on y, from 3:2 on nothing, and z from 3:5
# on; b is x from 3:0 on.
SPLIT, SPLIT_NAMES = "BAAA,DAC,DC,CJA,EDCFA,GEAG,HAAEFBCAADG,HCAAA,HBBAE,FCJ", ["a", "b", "c", "x", "y", "z"]
# f with a, inlined into itself at columns 10 to 20, where a is y and not x; the same code where the inner range is of no scope; and a block
# in f, whose code stands around that of f.
RECURSIVE = "BFAAA,DC,CJA,EGAA,GD,ECKA,GE,IABB,FK,FU"
OF_NONE = "BFAAA,DC,CJA,EGAA,GD,EAK,FK,FU"
TURNED = "BFAAA,DC,BABA,DC,CBC,CJA,ECAC,GC,ECKD,GD,FK,FU"
# A block with b in f, whose code is in that of f; in it f was inlined, and there a block in the block has code, and the block itself none.
DROPPED = "BFAAA,BABA,DC,BABA,CBA,CFA,CBA,EGAA,ECBC,GD,ECJD,IABB,ECBE,FE,FF,FT,FB"
NESTED = "BFAAA,CJA,EGAA," + ",".join(["ECAA,IABC"] * 9) + ",FK" * 10


class OfScopes(Case):
    def test_rows(self):
        for text, names, sources, listed, ranges in ROWS:
            for it in (Scopes.decode(text, names), Scopes.decode(text.encode(), names=names)):
                self.assertEqual((it.scopes, it.ranges), (listed, ranges), text)
                self.assertEqual(it.counts(), ScopesCounts(sources, len(listed), len(ranges)))
                self.assertEqual([it.get_scope(k) for k in range(len(listed) + 1)], [*listed, None])
                self.assertEqual([it.get_range(k) for k in range(len(ranges) + 1)], [*ranges, None])
                self.assertEqual((it.get_scope(2**32 - 1), it.get_range(2**32 - 1)), (None, None))
                for value in [*it.scopes, *it.ranges]:
                    self.assertIs(type(value.is_stack_frame), bool)

    def test_lookups(self):
        it = Scopes.decode(INLINED, 7)
        scopes = [it.scope_at(0, *place) for place in [(0, 0), (1, 0), (4, 0), (4, 1), (5, 0), (8, 0)]]
        self.assertEqual(scopes, [0, 1, 1, 0, 2, None])
        self.assertEqual([it.function_at(0, *place) for place in [(0, 0), (4, 0), (4, 1), (5, 0)]], [None, 1, None, 2])
        self.assertEqual([it.range_at(0, column) for column in (9, 10, 20, 29, 30, 40)], [0, 1, 2, 2, 1, 0])
        self.assertEqual((it.range_at(1, 0), it.scope_at(1, 1, 0), it.function_at(1, 1, 0)), (None, None, None))

    def test_frames(self):
        it = Scopes.read(JSON)
        self.assertEqual(it.frames_at(0, 25), Frames([INNER, ScopeFrame(2, 1, Call(0, 3, 4))], False))
        self.assertEqual(it.frames_at(0, 15), Frames([OUTER], False))
        self.assertEqual(it.frames_at(0, 5), Frames([NAMELESS], False))
        self.assertEqual(it.frames_at(1, 0), Frames([], False))
        self.assertEqual(Scopes.decode("ENDC,FCH", 0).frames_at(4, 0), Frames([NAMELESS], True))
        self.assertIs(type(it.frames_at(0, 25).is_hidden), bool)
        deep = Scopes.decode(NESTED, 1).frames_at(0, 3).frames
        self.assertEqual(deep, [ScopeFrame(0, 0, None)] + [ScopeFrame(0, 0, Call(0, 1, 2))] * 9)

    def test_traces(self):
        it, map = Scopes.read(JSON), SourceMap.from_json(JSON)
        inner = [SourceFrame("a.js", 5, 2, "inner"), SourceFrame("a.js", 3, 4, "outer")]
        with CompiledMap(map.compile()) as compiled:
            for of in (map, compiled):
                self.assertEqual(it.trace(of, 0, 25), inner)
                self.assertEqual(it.trace(of, 0, 15), [SourceFrame("a.js", 1, 0, "outer")])
                self.assertEqual(it.trace(of, 0, 5), [SourceFrame("a.js", 1, 0, None)])
                # (no range, and no mapping)
                self.assertEqual((it.trace(of, 1, 0), it.trace(of, 2, 0)), ([], []))
        elsewhere = Scopes.decode("EAU,FU", 0)
        self.assertEqual(elsewhere.trace(map, 0, 4), [SourceFrame("a.js", 1, 0, None)])
        self.assertEqual(Scopes.decode("ENAA,FJA", 0).trace(map, 0, 4), [])
        # (a call in another source)
        two = SourceMap.from_json('{"version":3,"sources":["c.js","d.js"],"names":["f","g"],"mappings":"AAAA"}')
        called = Scopes.decode("BFAAA,CJA,BFAAC,CJA,EGAC,ECAD,IBED,FJ,FJ", 2)
        self.assertEqual(called.trace(two, 0, 4), [SourceFrame("c.js", 0, 0, "f"), SourceFrame("d.js", 4, 3, "g")])
        # (a range where the map says nothing, or by another bias)
        unmapped = Scopes.decode("BFAAA,CJA,EHBAA,FJA", 7)
        self.assertEqual(unmapped.trace(map, 1, 0), [SourceFrame(None, None, None, "n0")])
        late = SourceMap.from_json('{"version":3,"sources":["b.js"],"names":["f"],"mappings":"IACA"}')
        of_late = Scopes.decode("BFAAA,CJA,EGAA,FU", 1)
        self.assertEqual(of_late.trace(late, 0, 1), [SourceFrame(None, None, None, "f")])
        self.assertEqual(of_late.trace(late, 0, 1, Bias.CLAMPED), [SourceFrame("b.js", 1, 0, "f")])
        for wrong in (None, 7, "map", it):
            with self.assertRaisesRegex(TypeError, "map is no SourceMap or CompiledMap, but "):
                it.trace(wrong, 0, 0)

    def test_variables(self):
        it = Scopes.decode(INLINED, 7)
        self.assertEqual([it.get_variables(scope) for scope in (0, 1, 2, 3, 2**32 - 1)], [[], [4], [], None, None])
        self.assertEqual(Scopes.decode(SPLIT, 6).get_variables(0), [0, 1, 2])

    def test_values(self):
        it = Scopes.decode(INLINED, 7)
        rows = [(1, 0, 10, 6), (1, 0, 39, 6), (1, 1, 10, None), (0, 0, 10, None), (2, 0, 20, None), (3, 0, 20, None), (2**32 - 1, 0, 20, None)]
        for range, variable, column, value in rows:
            self.assertEqual(it.value_at(range, variable, 0, column), value, (range, variable, column))
        it = Scopes.decode(SPLIT, 6)
        rows = [
            (0, 2, 5, 3), (0, 2, 8, 3), (0, 2, 9, 4), (0, 2, 2**32 - 1, 4), (0, 3, 1, 4), (0, 3, 2, None), (0, 3, 4, None), (0, 3, 5, 5), (0, 4, 8, 5),
            (1, 2, 5, None), (1, 3, 0, 3), (1, 4, 8, 3), (2, 2, 5, None), (2, 4, 0, None), (3, 3, 0, None), (2**32 - 1, 3, 0, None),
        ]  # fmt: skip
        for variable, line, column, value in rows:
            self.assertEqual(it.value_at(0, variable, line, column), value, (variable, line, column))

    def test_chains(self):
        it = Scopes.read(JSON)
        inner, outer = ScopeChainEntry(2, 2, []), ScopeChainEntry(1, 1, [ScopeVariable(4, 6, None, None)])
        whole = ScopeChainEntry(0, 0, [])
        rows = [(9, [whole]), (10, [outer, whole]), (15, [outer, whole]), (20, [inner, whole]), (25, [inner, whole]), (30, [outer, whole])]
        for column, chain in rows:
            self.assertEqual(it.scope_chain_at(0, column), chain, column)
        self.assertEqual((it.scope_chain_at(1, 0), it.scope_chain(0, 1, 0), it.scope_chain(2, 0, 25), it.scope_chain(2**32 - 1, 0, 25)), ([], None, None, None))
        self.assertEqual((it.scope_chain(0, 0, 25), it.scope_chain(0, 0, 15), it.scope_chain(1, 0, 15)), ([inner, whole], [outer, whole], None))
        # (the frame of the call, at 3:4)
        self.assertEqual(it.scope_chain(1, 0, 25), [outer, whole])

    def test_values_in_chains(self):
        def told(chain):
            return [(scope, range, [(it.name_id, it.value_id) for it in variables]) for scope, range, variables in chain]

        it = Scopes.decode(RECURSIVE, 4)
        for column, range, value in [(0, 0, 2), (9, 0, 2), (10, 1, 3), (19, 1, 3), (20, 0, 2), (39, 0, 2)]:
            self.assertEqual(told(it.scope_chain_at(0, column)), [(0, range, [(1, value)])], column)
            self.assertEqual(it.scope_chain(0, 0, column), it.scope_chain_at(0, column))
        # (the frame of the call does not see the values of the body that was inlined)
        self.assertEqual(told(it.scope_chain(1, 0, 15)), [(0, 0, [(1, 2)])])
        it = Scopes.decode(OF_NONE, 3)
        self.assertEqual((told(it.scope_chain_at(0, 9)), it.scope_chain_at(0, 15)), ([(0, 0, [(1, 2)])], []))
        self.assertEqual(it.scope_chain(0, 0, 15), [])
        it = Scopes.decode(TURNED, 3)
        self.assertEqual(told(it.scope_chain_at(0, 5)), [(1, 0, [(2, 1)]), (0, None, [(1, None)])])
        self.assertEqual(told(it.scope_chain_at(0, 15)), [(0, 1, [(1, 2)])])
        # (a block without code in its own activation has that of the outer one)
        it = Scopes.decode(DROPPED, 4)
        self.assertEqual(told(it.scope_chain_at(0, 12)), [(2, 3, []), (1, 1, [(1, 2)]), (0, 2, [])])
        self.assertEqual(told(it.scope_chain(1, 0, 12)), [(1, 1, [(1, 2)]), (0, 0, [])])
        it = Scopes.decode(SPLIT, 6)
        for place, values in [((2, 8), [3, None, None]), ((2, 9), [4, None, None]), ((3, 0), [4, 3, None]), ((3, 2), [None, 3, None]), ((4, 8), [5, 3, None])]:
            self.assertEqual(told(it.scope_chain_at(*place)), [(0, 0, list(zip([0, 1, 2], values)))], place)

    def test_texts_of_variables(self):
        it = Scopes.decode(SPLIT, 6)
        few = SourceMap.from_json(json.dumps({"version": 3, "sources": [], "names": SPLIT_NAMES[:4], "mappings": ""}))
        map = SourceMap.from_json(json.dumps({"version": 3, "sources": [], "names": SPLIT_NAMES, "mappings": ""}))
        wanted = [ScopeVariable(0, 4, "a", "y"), ScopeVariable(1, 3, "b", "x"), ScopeVariable(2, None, "c", None)]
        with CompiledMap(map.compile()) as compiled:
            for of in (map, compiled):
                self.assertEqual(it.scope_chain_at(3, 1, of), [ScopeChainEntry(0, 0, wanted)])
                self.assertEqual(it.scope_chain(0, 3, 1, map=of), [ScopeChainEntry(0, 0, wanted)])
        self.assertEqual(it.scope_chain_at(3, 1, few)[0].variables, [ScopeVariable(0, 4, "a", None), *wanted[1:]])
        for wrong in (7, "map", it):
            for call in (lambda: it.scope_chain_at(0, 0, wrong), lambda: it.scope_chain(0, 0, 0, wrong)):
                with self.assertRaisesRegex(TypeError, "map is no SourceMap or CompiledMap, but "):
                    call()

    def test_views(self):
        it, map = Scopes.read(JSON), SourceMap.from_json(JSON)
        whole = ScopeView(0, 0, [], "global", None)
        of_inner = ScopeView(2, 2, [], "function", "inner")
        of_outer = ScopeView(1, 1, [ScopeVariable(4, 6, "a", "x")], "function", "outer")
        inner = [FrameView("a.js", 5, 2, "inner", [of_inner, whole]), FrameView("a.js", 3, 4, "outer", [of_outer, whole])]
        with CompiledMap(map.compile()) as compiled:
            for of in (map, compiled):
                self.assertEqual(it.view(of, 0, 25), inner)
                self.assertEqual(it.view(of, 0, 15), [FrameView("a.js", 1, 0, "outer", [of_outer, whole])])
                self.assertEqual(it.view(of, 0, 5), [FrameView("a.js", 1, 0, None, [whole])])
                # (no range, and no mapping)
                self.assertEqual((it.view(of, 1, 0), it.view(of, 2, 0)), ([], []))
        # A helper; no range; a range that is the code of no scope.
        self.assertEqual(Scopes.decode("ENAA,FJA", 0).view(map, 0, 4), [])
        self.assertEqual(Scopes.decode("EAU,FU", 0).view(map, 0, 4), [FrameView("a.js", 1, 0, None, [])])
        self.assertEqual(Scopes.decode("EAA,FU", 0).view(map, 0, 4), [FrameView("a.js", 1, 0, None, [])])
        for value in (it.view(map, 0, 25)[1], of_outer):
            self.assertEqual(pickle.loads(pickle.dumps(value)), value)
        for wrong in (None, 7, "map", it):
            with self.assertRaisesRegex(TypeError, "map is no SourceMap or CompiledMap, but "):
                it.view(wrong, 0, 0)

    def test_views_of_a_recursion(self):
        value = {"version": 3, "sources": ["a.js"], "names": ["f", "a", "x", "y"], "mappings": "AAAA,UAEI", "scopes": RECURSIVE}
        it, map = Scopes.read(json.dumps(value)), SourceMap.from_json(json.dumps(value))

        def told(*place):
            return [(*frame[:4], [(v.name, v.value) for scope in frame.scopes for v in scope.variables]) for frame in it.view(map, *place)]

        # The body is at 2:4, and was called from 1:1.
        self.assertEqual(told(0, 15), [("a.js", 2, 4, "f", [("a", "y")]), ("a.js", 1, 1, "f", [("a", "x")])])
        self.assertEqual(told(0, 25), [("a.js", 2, 4, "f", [("a", "x")])])
        late = SourceMap.from_json(json.dumps(value | {"mappings": "KAEI"}))
        self.assertEqual([frame[:3] for frame in it.view(late, 0, 1)], [(None, None, None)])
        self.assertEqual([frame[:3] for frame in it.view(late, 0, 1, Bias.CLAMPED)], [("a.js", 2, 4)])
        # (names that the map lacks)
        few = SourceMap.from_json(json.dumps(value | {"names": ["f"]}))
        self.assertEqual(it.view(few, 0, 25)[0].scopes, [ScopeView(0, 0, [ScopeVariable(1, 2, None, None)], None, "f")])

    def test_faults(self):
        rows = [
            ("A,!", 0, ScopesFault.NOT_A_DIGIT, 2, "a character is no base64 digit"),
            ("A,Bg", 0, ScopesFault.CUT_SHORT, 2, "the last number is cut short"),
            ("A,gggggggA", 0, ScopesFault.TOO_LARGE, 2, "a number is too large"),
            ("A,,A", 0, ScopesFault.MISSING_NUMBER, 2, "a number is missing"),
            ("BBAAC", 1, ScopesFault.BAD_INDEX, 0, "an index leads to no name, scope or value"),
            ("A,CAA", 0, ScopesFault.NOTHING_OPEN, 2, "no scope or range is open"),
            ("BAAA,A", 0, ScopesFault.NOT_CLOSED, 5, "the scopes before it are not closed"),
            (",".join(["BAAA"] * 1025), 0, ScopesFault.TOO_DEEP, 5120, "more than 1024 scopes or ranges are nested"),
            ("BAAA", 0, ScopesFault.LEFT_OPEN, 4, "a scope or a range has no end"),
            ("EAA,GB,HABAB,HABAB", 1, ScopesFault.SPLIT_TWICE, 13, "the value has sub-ranges already"),
        ]
        self.assertEqual([kind for _, _, kind, _, _ in rows], list(ScopesFault))
        for text, names, kind, byte, message in rows:
            error = self.fails(Code.BAD_SCOPES, Scopes.decode, text, names, detail=byte)
            self.assertIs(error.field, kind)
            self.assertEqual((str(error), error.name), (f"scopes, byte {byte}: {message}", "SMAP_BAD_SCOPES"))
            self.assertIs(pickle.loads(pickle.dumps(error)).field, kind)
        self.assertEqual(_scopes.check_code(0), None)
        self.fails(Code.NOT_UTF8, Scopes.decode, b"B\xff", 0, detail=1)

    def test_members(self):
        for text in ("{}", '{"scopes":null}', '{"scopes":""}', "[]", b"{}"):
            self.assertEqual(Scopes.read(text).counts(), ScopesCounts(0, 0, 0))
        self.assertEqual(Scopes.read('{"scopes":"BBAAC,CAA","names":["f","g"]}').get_scope(0).name_id, 1)
        self.assertIs(self.fails(Code.BAD_SCOPES, Scopes.read, '{"scopes":"BBAAC","names":["f"]}').field, ScopesFault.BAD_INDEX)
        self.assertEqual(str(self.fails(Code.SCOPES_NOT_TEXT, Scopes.read, '{"scopes":7}')), "`scopes` is no text")
        self.assertEqual(str(self.fails(Code.SCOPES_INDEXED, Scopes.read, '{"sections":[]}')), "the scopes of an indexed map are not read")
        self.assertIsNone(self.fails(Code.JSON_READING, Scopes.read, "{").field)
        self.fails(Code.NOT_UTF8, Scopes.read, b"{\xff", detail=1)

    def test_arguments(self):
        it = Scopes.decode("", 0)
        for call in (it.scope_at, it.function_at):
            self.assertRaises(OverflowError, call, 0, -1, 0)
            self.assertRaises(OverflowError, call, 2**32, 0, 0)
        for call in (it.range_at, it.frames_at, it.scope_chain_at):
            self.assertRaises(OverflowError, call, 2**32, 0)
            self.assertRaises(OverflowError, call, 0, -1)
        for at in range(4):
            self.assertRaises(OverflowError, it.value_at, *([0] * at), 2**32, *([0] * (3 - at)))
        for at in range(3):
            self.assertRaises(OverflowError, it.scope_chain, *([0] * at), -1, *([0] * (2 - at)))
        for call in (it.get_scope, it.get_range, it.get_variables):
            self.assertRaises(TypeError, call, "0")
        self.assertRaises(OverflowError, Scopes.decode, "", -1)
        self.assertRaises(TypeError, Scopes.read, {})
        self.assertRaises(TypeError, Scopes)

    def test_want_of_memory(self):
        it = Scopes.read(JSON)
        with mock.patch.object(_library.lib, "smap_frames_at", lambda *_: Code.OUT_OF_MEMORY):
            self.assertRaises(MemoryError, it.frames_at, 0, 25)
        for name, *given in [("scope_chain_at", 0, 25), ("scope_chain", 1, 0, 25)]:
            call = getattr(_library.lib, f"smap_{name}")
            # (at once, and where how many there are is known)
            for refused in (lambda *_: Code.OUT_OF_MEMORY, lambda *given, call=call: Code.OUT_OF_MEMORY if given[-2] else call(*given)):
                with mock.patch.object(_library.lib, f"smap_{name}", refused):
                    self.assertRaises(MemoryError, getattr(it, name), *given)

    def test_codes_that_are_not_none(self):
        it = Scopes.read(JSON)
        for call in ("smap_get_scope", "smap_scope_chain"):
            with mock.patch.object(_library.lib, call, lambda *_: Code.BAD_OPTION):
                self.fails(Code.BAD_OPTION, it.view, SourceMap.from_json(JSON), 0, 15)
        rows = [("get_scope", 0), ("get_range", 0), ("scope_at", 0, 0, 0), ("function_at", 0, 1, 0), ("range_at", 0, 0)]
        for name, *given in [*rows, ("get_variables", 0), ("value_at", 0, 0, 0, 0), ("scope_chain_at", 0, 0), ("scope_chain", 0, 0, 0)]:
            call = f"smap_{name}"
            with mock.patch.object(_library.lib, call, lambda *_: Code.BAD_OPTION):
                self.fails(Code.BAD_OPTION, getattr(it, name), *given)
        for call in ("smap_get_variables", "smap_value_at"):
            with mock.patch.object(_library.lib, call, lambda *_: Code.BAD_OPTION):
                self.fails(Code.BAD_OPTION, it.scope_chain_at, 0, 15)

    def test_closed(self):
        with Scopes.read(JSON) as it:
            self.assertEqual(repr(it), "<Scopes: 1 sources, 3 scopes, 3 ranges>")
            self.assertFalse(it.closed)
        self.assertTrue(it.closed)
        self.assertEqual(repr(it), "<Scopes: closed>")
        it.close()
        closed = read()
        closed.close()
        for call in (Scopes.read(JSON).trace, Scopes.read(JSON).view):
            self.assertRaisesRegex(ValueError, "^The map is closed$", call, closed, 0, 0)
        for call in (it.counts, lambda: it.scopes, lambda: it.ranges, lambda: it.get_scope(0), lambda: it.get_range(0), lambda: it.scope_at(0, 0, 0),
                     lambda: it.function_at(0, 0, 0), lambda: it.range_at(0, 0), lambda: it.frames_at(0, 0), lambda: it.trace(read(), 0, 0),
                     lambda: it.get_variables(0), lambda: it.value_at(0, 0, 0, 0), lambda: it.scope_chain_at(0, 0), lambda: it.scope_chain(0, 0, 0), lambda: it.view(read(), 0, 0)):  # fmt: skip
            self.assertRaisesRegex(ValueError, "^The scopes are closed$", call)
        it = Scopes.read(JSON)
        for call in (pickle.dumps, copy.copy, copy.deepcopy):
            self.assertRaisesRegex(TypeError, "cannot be pickled", call, it)
        for value in (*it.scopes, *it.ranges, it.frames_at(0, 25), it.counts(), it.scope_chain_at(0, 15)[0]):
            self.assertEqual(pickle.loads(pickle.dumps(value)), value)

    def test_threads(self):
        it, answers = Scopes.read(JSON), []

        def ask():
            for _ in range(200):
                answers.append((it.frames_at(0, 25), tuple(it.scopes), it.scope_at(0, 4, 0), it.range_at(0, 29), it.scope_chain_at(0, 15)) == wanted)

        wanted = (it.frames_at(0, 25), tuple(it.scopes), 1, 2, it.scope_chain(0, 0, 15))
        threads = [threading.Thread(target=ask) for _ in range(8)]
        for thread in threads:
            thread.start()
        for thread in threads:
            thread.join()
        self.assertEqual((len(answers), all(answers)), (1600, True))
        it.close()


if __name__ == "__main__":
    unittest.main()
