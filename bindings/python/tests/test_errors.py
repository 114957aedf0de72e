"""Errors: what they carry, that they pickle, and that a call that fails loses nothing."""

import copy
import pickle
import resource
import unittest
from array import array

from support import TEXT, TOKENS, Case, read, simple

from oxc_sourcemap import (
    Code,
    Field,
    PlaceKind,
    SourceMap,
    SourceMapBuilder,
    SourceMapError,
    SourceMapJoin,
    _errors,
    _library,
    _values,
    decode_data_url,
    source_mapping_url,
)


class Errors(Case):
    def test_pickled(self):
        text = simple("", sources=["a", None])
        error = self.fails(Code.JSON_SHAPE, SourceMap.evaluate, "@0", [text], place="text 0, entry 1 of sources")
        for again in (pickle.loads(pickle.dumps(error)), copy.copy(error), copy.deepcopy(error)):
            self.assertIs(type(again), SourceMapError)
            for name in ("code", "name", "message", "field", "detail", "place"):
                self.assertEqual(getattr(again, name), getattr(error, name), name)
                self.assertIs(type(getattr(again, name)), type(getattr(error, name)))
            self.assertEqual((str(again), again.args), (str(error), error.args))
        with read() as map:
            for value in (map.counts(), map.trace(0, 4), map.pieces((0, 0), (0, 4)), *SourceMap.read_found(b"\xef\xbb\xbf" + TEXT.encode())[1]):
                self.assertEqual(pickle.loads(pickle.dumps(value)), value)

    def test_fields(self):
        error = self.fails(Code.JSON_SHAPE, read, simple("", names=[1]), place="entry 0 of names")
        self.assertEqual((error.name, error.field, error.detail), ("SMAP_JSON_SHAPE", Field.NAMES, 0))
        self.assertEqual(error.place, (PlaceKind.ENTRY, Field.NAMES, None, None, None, None, None, 0, "entry 0 of names"))
        self.assertIsInstance(error, ValueError)
        error = self.fails(Code.JSON_VERSION, read, '{"version":7}', detail=7, place="version")
        self.assertEqual(error.field, None)

    def test_places_behind_what_is_mended(self):
        self.fails(Code.JSON_READING, SourceMap.read_found, ")]}'\n{\n \"version\": x}", place="line 2, column 12 (byte 19)")
        self.fails(Code.JSON_SHAPE, SourceMap.read_found, '{"version":3,"sources":[null,1],"mappings":""}', place="entry 1 of sources")

    def test_a_message_longer_than_the_first_buffer(self):
        text = "é" * 200

        def write(value, buffer, room):
            written = text.encode()[:room]
            buffer[: len(written)] = written
            return len(text.encode())

        self.assertEqual(_values.message_of(write, _library.Fault()), text)

    def test_all_codes_have_names(self):
        for code in Code:
            name: bytes = _library.lib.smap_code_name(code)
            self.assertEqual(name.decode(), f"SMAP_{code.name}")

    def test_codes_of_newer_libraries(self):
        fault = _library.Fault(9999, 77, 5, _library.FaultPlace(99, 98, 1, 2, 3, 4, 5, 6))
        error = _errors.error_of(fault)
        self.assertEqual((error.code, error.name, str(error), error.field, error.detail), (9999, "SMAP_UNKNOWN", "SMAP_UNKNOWN", None, 5))
        self.assertEqual(error.place.kind, 99)
        self.assertEqual(_errors.error_of(_library.Fault(Code.JSON_SHAPE, 77)).field, 77)

    def test_long_messages(self):
        # The message of a field is short; that of a large number fits too.
        error = self.fails(Code.JSON_VERSION, read, '{"version":4294967295}', detail=4294967295, place="version")
        self.assertEqual(str(error), "JSON parsing error: unsupported source map version: 4294967295")

    def test_want_of_memory(self):
        error = _errors.error_of(_library.Fault(Code.OUT_OF_MEMORY))
        self.assertEqual((type(error), str(error)), (MemoryError, "Out of memory"))
        with SourceMap.from_tokens([], sources=["a"], source_contents=["x" * 10_000_000]) as map:
            parts = [(map, line, 0) for line in range(100)]
            with open("/proc/self/statm", encoding="ascii") as file:
                held = int(file.read().split()[0]) * resource.getpagesize()
            before = resource.getrlimit(resource.RLIMIT_AS)
            resource.setrlimit(resource.RLIMIT_AS, (held + 300_000_000, before[1]))
            try:
                self.assertRaises(MemoryError, SourceMap.join, parts)
                self.assertEqual(len(map.sources), 1)
            finally:
                resource.setrlimit(resource.RLIMIT_AS, before)
            with SourceMap.join(parts[:3]) as joined:
                self.assertEqual(len(joined.sources), 3)


class Arguments(Case):
    def test_lone_surrogates(self):
        # "é" has two bytes, so the bad one is at byte 2: as bytes would be.
        text, map, builder = "é\ud800x", read(), SourceMapBuilder()
        self.fails(Code.NOT_UTF8, SourceMap.from_json, '{"file":"\udfff"}', detail=9)
        self.fails(Code.NOT_UTF8, SourceMap.read_found, '\ufeff{"file":"\udfff"}', detail=12)
        self.fails(Code.NOT_UTF8, decode_data_url, "data:application/json,\udfff", detail=22)
        for call in (
            lambda: SourceMap.from_tokens([], names=["a", text]), lambda: SourceMap.from_tokens([], sources=["a", text]),
            lambda: SourceMap.from_tokens([], source_contents=[None, text]), lambda: SourceMap.decode_mappings(text, 0, 0),
            lambda: SourceMap.evaluate("@0", ["{}", text]), lambda: SourceMap.evaluate([text], []), lambda: map.remap([(text, map)]),
            lambda: map.set_file(text), lambda: map.set_source_root(text), lambda: map.set_debug_id(text), lambda: map.set_sources([text]),
            lambda: map.set_source_contents([None, text]), lambda: map.visualize(text), lambda: map.visualizer_url(text),
            lambda: builder.add_name(text), lambda: builder.add_source(text), lambda: builder.add_source_and_content(text, "a"),
            lambda: builder.add_source_and_content("a", text), lambda: builder.set_file(text), lambda: source_mapping_url(text),
        ):  # fmt: skip
            self.fails(Code.NOT_UTF8, call, detail=2)
        self.assertEqual((map.to_json(), len(builder.finish().sources)), (TEXT, 0))

    def test_arguments_of_other_types(self):
        map, builder, join = read(), SourceMapBuilder(), SourceMapJoin()
        for said, call in (
            ("json: a str or bytes is needed, not NoneType", lambda: SourceMap.from_json(None)),
            ("text: a str or bytes is needed, not int", lambda: SourceMap.read_found(7)),
            ("parts: 'NoneType' object is not iterable", lambda: SourceMap.join(None)),
            ("parts[0]: cannot unpack non-iterable NoneType object", lambda: SourceMap.join([None])),
            ("parts[1]: map: a SourceMap is needed, not NoneType", lambda: SourceMap.join([(map, 0, 0), (None, 0, 0)])),
            ("parts[1]: 'NoneType' object cannot be interpreted as an integer", lambda: SourceMap.join([(map, 0, 0), (map, 0, None)])),
            ("inputs: 'NoneType' object is not iterable", lambda: map.remap(None)),
            ("inputs[0]: map: a SourceMap is needed, not NoneType", lambda: map.remap({"a": None})),
            ("inputs[1]: path: a str or bytes is needed, not NoneType", lambda: map.remap([("a", map), (None, map)])),
            ("input: a SourceMap is needed, not NoneType", lambda: map.compose(None)),
            ("other: a SourceMap is needed, not str", lambda: map.first_difference("a")),
            ("map: a SourceMap is needed, not SourceMapJoin", lambda: join.add(join, 0)),
            ("tokens: 'NoneType' object is not iterable", lambda: SourceMap.from_tokens(None)),
            ("tokens[1]: cannot unpack non-iterable NoneType object", lambda: builder.add_tokens([TOKENS[0], None])),
            ("names: 'NoneType' object is not iterable", lambda: SourceMap.from_tokens([], names=None)),
            ("names[1]: a str or bytes is needed, not NoneType", lambda: SourceMap.from_tokens([], names=["a", None])),
            ("source_contents[1]: a str or bytes is needed, not int", lambda: SourceMap.from_tokens([], source_contents=[None, 7])),
            ("ignore_list[1]: 'NoneType' object cannot be interpreted as an integer", lambda: SourceMap.from_tokens([], ignore_list=[0, None])),
            ("positions: 'NoneType' object is not iterable", lambda: map.trace_all(None)),
            ("positions[1]: cannot unpack non-iterable NoneType object", lambda: map.find_all([(0, 0), None])),
            ("end: cannot unpack non-iterable NoneType object", lambda: map.pieces((0, 0), None)),
            ("words: 'NoneType' object is not iterable", lambda: SourceMap.evaluate(None, [])),
            ("texts[0]: a str or bytes is needed, not NoneType", lambda: SourceMap.evaluate("@0", [None])),
            ("sources[0]: a str or bytes is needed, not NoneType", lambda: map.set_sources([None])),
            ("contents: 'NoneType' object is not iterable", lambda: map.set_source_contents(None)),
            ("ids: 'NoneType' object is not iterable", lambda: map.set_ignore_list(None)),
            ("file: a str or bytes is needed, not NoneType", lambda: map.set_file(None)),
            ("content: a str or bytes is needed, not NoneType", lambda: builder.add_source_and_content("a", None)),
            ("code: a str or bytes is needed, not NoneType", lambda: source_mapping_url(None)),
        ):  # fmt: skip
            with self.assertRaises(TypeError) as caught:
                call()
            self.assertEqual(str(caught.exception), said)
        self.assertEqual(map.to_json(), TEXT)


class Closing(Case):
    def test_a_map_that_is_closed(self):
        with read() as map, read() as other:
            self.assertFalse(map.closed)
            map.close()
            map.close()
            self.assertTrue(map.closed)
            self.assertEqual(repr(map), "<SourceMap: closed>")
            for name in ("file", "source_root", "debug_id", "names", "sources", "source_contents", "ignore_list"):
                self.is_closed(getattr, map, name)
            for call in (
                map.clone, map.counts, map.is_sorted, map.is_sound, map.tokens, map.token_array, map.__len__, map.__copy__,
                map.index_sources, map.apply_source_root, map.sort, map.simplify, map.to_json, map.to_data_url, map.get_mappings,
            ):  # fmt: skip
                self.is_closed(call)
            for call in (map.get_name, map.get_source, map.get_source_content, map.get_token):
                self.is_closed(call, 0)
            self.is_closed(map.tokens_into, array("I"))
            for call in (map.trace, map.generated, map.all_generated):
                self.is_closed(call, *[0] * (2 if call == map.trace else 3))
            self.is_closed(map.trace_all, [])
            self.is_closed(map.find_all, [])
            self.is_closed(map.pieces, (0, 0), (0, 1))
            for call in (map.set_file, map.set_source_root, map.set_debug_id, map.visualize, map.visualizer_url):
                self.is_closed(call, "a")
            for call in (map.set_ignore_list, map.set_sources, map.set_source_contents):
                self.is_closed(call, [])
            for first, second in ((map, other), (other, map)):
                self.is_closed(first.first_difference, second)
                self.is_closed(first.compose, second)
                self.is_closed(first.remap, {"a": second})
                self.is_closed(SourceMap.join, [(first, 0, 0), (second, 1, 0)])
            self.assertEqual(other.to_json(), TEXT)

    def test_a_map_is_made_by_calls(self):
        self.assertRaises(TypeError, SourceMap)
        with read() as map:
            self.assertRaises(TypeError, pickle.dumps, map)


if __name__ == "__main__":
    unittest.main()
