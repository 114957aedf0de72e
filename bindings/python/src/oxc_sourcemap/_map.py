"""`SourceMap`."""

from __future__ import annotations

import ctypes
from collections.abc import Callable, Iterable, Mapping
from ctypes import byref
from typing import TYPE_CHECKING, Any, NoReturn, Optional, Union, cast, final

from . import _library
from ._contents import Contents
from ._errors import check_code
from ._library import NOT_TOLD, lib
from ._lookups import Lookups
from ._numbers import (
    Ids,
    Texts,
    Tokens,
    addresses_of,
    bytes_of,
    contents_in,
    entries_of,
    ids_of,
    limit_of,
    long_number,
    number,
    positions_of,
    stamp_of,
    texts_in,
    tokens_of,
)
from ._texts import written, written_bytes
from ._values import Code, Found, Mend, MendKind, Position, Text, named

if TYPE_CHECKING:
    from _typeshed import ReadableBuffer as Buffer


@final
class SourceMap(Contents, Lookups):
    """A source map. `close`, or the end of a `with`, frees it; so does the garbage collector.

    Lines, columns, ids and indices count from 0; columns are in UTF-16 code units. Numbers are of 32 bits: others raise
    OverflowError. Texts are str, or bytes that are UTF-8: others raise SourceMapError of Code.NOT_UTF8.

    Threads may share a map: one that changes or closes it waits for those that read it, and they for it. What interrupts a call on
    a map in its own thread (a handler of a signal, a finalizer, `__index__` of a number) may read that map if the call does; where
    it would wait for that call, it raises RuntimeError. A map that is closed raises ValueError. A call that fails leaves the map and
    its arguments unchanged, and one that is interrupted has done all of its work or none; lack of memory is MemoryError. Do not use maps in
    a child that a process with several threads has forked.

    As a collection a map contains its tokens, but it is true even without any.

    >>> with SourceMap.from_json('{"version":3,"sources":["a.ts"],"names":["f"],"mappings":"AAEA,IAAIA"}') as map:
    ...     len(map), map.sources, map.trace(0, 5)[:4]
    (2, ['a.ts'], ('a.ts', 2, 4, 'f'))
    """

    def __init__(self) -> None:
        raise TypeError("a SourceMap is made by from_json, read_found, from_tokens, decode_mappings, join or evaluate")

    # ---- reading ----

    @staticmethod
    def from_json(text: Text) -> SourceMap:
        """Reads a map from its JSON text. An indexed map is read as the join of its sections, without their source roots.

        Raises SourceMapError of JSON_READING, JSON_SHAPE, JSON_VERSION, BAD_SOURCE_REFERENCE (of the ignore list), of a fault of
        the mappings (VLQ_OVERFLOW, VLQ_LEFTOVER, BAD_SEGMENT_SIZE, BAD_SOURCE_REFERENCE, BAD_NAME_REFERENCE, TOO_LARGE), or of
        SECTION_ORDER; each has its place.

        >>> SourceMap.from_json('{"version":3,"sources":["a.ts"],"mappings":"AAAA"}').sources
        ['a.ts']
        """
        data = bytes_of(text, "json")
        return SourceMap._made(lambda *out: lib.smap_from_json_string(data, len(data), *out))

    @staticmethod
    def read_found(text: Text) -> Found:
        """Reads a map as it is found, and reports what it mended, such as a byte order mark, null sources, or ids out of range.

        The map is sorted and sound. A text that `from_json` reads as a sorted map gives the same map, without mends. Raises SourceMapError
        of the first fault that is not mended, with its place if it has one (smap_read_found in oxc_sourcemap.h).

        >>> map, mends = SourceMap.read_found('{"version":"3","sources":[null],"mappings":"AAAA"}')
        >>> [mend.message for mend in mends]
        ['version is 3.0 or the text 3, and is read as 3', 'source 0 is null, and is read as an empty text']
        """
        data, mends = bytes_of(text, "text"), ctypes.c_void_p()
        try:
            map = SourceMap._made(lambda made, fault: lib.smap_read_found(data, len(data), made, byref(mends), fault))
            return Found(map, _mends_of(mends))
        finally:
            lib.smap_free_mends(mends)

    @staticmethod
    def from_tokens(
        tokens: Tokens,
        *,
        names: Iterable[Text] = (),
        sources: Iterable[Text] = (),
        source_contents: Iterable[Optional[Text]] = (),
        ignore_list: Ids = (),
    ) -> SourceMap:
        """Makes a map of whole lists. There may be fewer contents than sources, and None is an unknown one. An empty ignore list is none.
        Tokens are `Token`, or a buffer of unsigned 32-bit numbers, six for each, where NO_ID stands for no id.

        Raises SourceMapError of BAD_SOURCE_REFERENCE or BAD_NAME_REFERENCE if an id is out of range, or of TOO_LARGE if a list is
        too long.

        >>> map = SourceMap.from_tokens([Token(0, 4, 2, 0, 0, None)], sources=["a.ts"], source_contents=["let a;"])
        >>> map.to_json()
        '{"version":3,"names":[],"sources":["a.ts"],"sourcesContent":["let a;"],"mappings":"IAEA"}'
        """
        rows, ids = tokens_of(tokens), ids_of(ignore_list, "ignore_list")
        texts = texts_in(names, "names"), texts_in(sources, "sources"), contents_in(source_contents, "source_contents")
        lists = [it for text in texts for it in (text.words, text.count)]
        return SourceMap._made(lambda *out: lib.smap_from_tokens(*rows, *lists, *ids, *out))

    @staticmethod
    def decode_mappings(mappings: Text, names: int, sources: int) -> SourceMap:
        """Reads a `mappings` text alone, whose ids have to be below these numbers of names and sources. The map has its tokens, and no
        names and no sources. Raises SourceMapError of a fault of the mappings, as `from_json` does.

        >>> SourceMap.decode_mappings("AAAA;C", names=0, sources=1).tokens()[1]
        Token(dst_line=1, dst_col=1, src_line=0, src_col=0, source_id=None, name_id=None)
        """
        data, names, sources = bytes_of(mappings, "mappings"), number(names), number(sources)
        return SourceMap._made(lambda *out: lib.smap_decode_mappings(data, len(data), names, sources, *out))

    @staticmethod
    def join(parts: Iterable[tuple[SourceMap, int, int]]) -> SourceMap:
        """Joins maps, each at the line and column where its code begins in the joined code. Source roots are dropped
        unless `apply_source_root` ran before. Raises SourceMapError of TOO_LARGE.

        >>> map = SourceMap.from_tokens([Token(0, 4, 2, 0, 0, None)], sources=["a.ts"])
        >>> SourceMap.join([(map, 0, 0), (map, 7, 2)]).trace(7, 6).token.source_id
        1
        """
        all_parts = entries_of(parts, "parts", _part)
        positions, count = positions_of((position for _, position in all_parts), "parts")
        maps = [map for map, _ in all_parts]

        def call(made: object, fault: object, at: list[int]) -> int:
            addresses = addresses_of(at)
            return int(lib.smap_join_all(addresses.buffer_info()[0], count, positions, count, made, fault))

        return SourceMap._made(lambda made, fault: SourceMap._read_all(maps, lambda at: call(made, fault, at)))

    @staticmethod
    def evaluate(words: Union[str, Iterable[Text]], texts: Iterable[Text]) -> SourceMap:
        """Evaluates a plan: words over JSON texts; one str is cut at its white space. `@K` reads text K (from 0), `sort @K` reads
        it and sorts its tokens, `rewrite P` writes and reads again, `root P` puts the source root before the sources, `simplify P`
        drops what lookups do not need, `join N` joins N times `P LINE`, `joinat N` N times `P LINE COLUMN`, `compose P P` composes,
        `remap P N` remaps by N times `PATH P`.

        Raises SourceMapError of WORDS, NO_TEXT, TOO_DEEP, or of the first step that fails; the error of a text has the number of the text.

        >>> text = '{"version":3,"sources":["a.ts"],"mappings":"AAAA"}'
        >>> SourceMap.evaluate("join 2 @0 0 @0 5", [text]).sources
        ['a.ts', 'a.ts']
        """
        plan = texts_in(words.split() if isinstance(words, str) else words, "words")
        given = texts_in(texts, "texts")
        return SourceMap._made(lambda *out: lib.smap_evaluate(plan.words, plan.count, given.words, given.count, *out))

    def clone(self) -> SourceMap:
        """A map that is equal to this one; `copy.copy` makes one too.

        >>> map = SourceMap.from_tokens([])
        >>> copy = map.clone()
        >>> copy.set_file("b.js")
        >>> map.file, copy.file
        (None, 'b.js')
        """
        return SourceMap._made(lambda *out: self._read(lambda at: lib.smap_clone(at, *out)))

    def __reduce__(self) -> NoReturn:
        raise TypeError("a SourceMap cannot be pickled: its to_json() can")

    def __copy__(self) -> SourceMap:
        return self.clone()

    def __deepcopy__(self, memo: object) -> SourceMap:
        return self.clone()

    # ---- changing ----

    def set_file(self, file: Text) -> None:
        """Sets the name of the generated file.

        >>> map = SourceMap.from_tokens([])
        >>> map.set_file("a.js")
        >>> map.file
        'a.js'
        """
        data = bytes_of(file, "file")
        self._change(lib.smap_set_file, data, len(data))

    def set_source_root(self, root: Text) -> None:
        """Sets the source root.

        >>> map = SourceMap.from_tokens([])
        >>> map.set_source_root("src")
        >>> map.source_root
        'src'
        """
        data = bytes_of(root, "root")
        self._change(lib.smap_set_source_root, data, len(data))

    def set_debug_id(self, id: Text) -> None:
        """Sets the debug id.

        >>> map = SourceMap.from_tokens([])
        >>> map.set_debug_id("7f")
        >>> map.debug_id
        '7f'
        """
        data = bytes_of(id, "id")
        self._change(lib.smap_set_debug_id, data, len(data))

    def set_ignore_list(self, ids: Ids) -> None:
        """Sets the ids of sources that debuggers may skip. They are not compared with the sources.

        >>> map = SourceMap.from_tokens([], sources=["a.ts"])
        >>> map.set_ignore_list([0])
        >>> map.ignore_list
        [0]
        """
        self._change(lib.smap_set_ignore_list, *ids_of(ids, "ids"))

    def set_sources(self, sources: Iterable[Text]) -> None:
        """Sets all sources. The ids of tokens are not compared with them.

        >>> map = SourceMap.from_tokens([])
        >>> map.set_sources(["a.ts"])
        >>> map.sources
        ['a.ts']
        """
        texts = texts_in(sources, "sources")
        self._change(lib.smap_set_sources, texts.words, texts.count)

    def set_source_contents(self, contents: Iterable[Optional[Text]]) -> None:
        """Sets the contents of all sources, with None for one that is not known.

        >>> map = SourceMap.from_tokens([], sources=["a.ts", "b.ts"])
        >>> map.set_source_contents([None, "let b;"])
        >>> map.source_contents
        [None, 'let b;']
        """
        texts = contents_in(contents, "contents")
        self._change(lib.smap_set_source_contents, texts.words, texts.count)

    def apply_source_root(self) -> None:
        """Puts the source root before each source, and removes it from the map.

        >>> map = SourceMap.from_json('{"version":3,"sourceRoot":"src","sources":["a.ts"],"mappings":""}')
        >>> map.apply_source_root()
        >>> map.sources, map.source_root
        (['src/a.ts'], None)
        """
        self._change(lib.smap_apply_source_root)

    def sort(self) -> None:
        """Sorts the tokens by generated position; those at one position keep their order.

        >>> map = SourceMap.from_tokens([Token(1, 0, 0, 0, None, None), Token(0, 0, 0, 0, None, None)])
        >>> map.sort()
        >>> map.is_sorted()
        True
        """
        self._change(lib.smap_sort)

    def simplify(self) -> None:
        """Drops tokens, names and sources that no lookup needs (smap_simplify in oxc_sourcemap.h).

        Raises SourceMapError of UNSORTED or TOO_LARGE.

        >>> map = SourceMap.from_tokens([Token(0, 0, 2, 0, 0, None), Token(0, 4, 2, 0, 0, None)], sources=["a.ts", "b.ts"])
        >>> map.simplify()
        >>> len(map), map.sources
        (1, ['a.ts'])
        """
        self._change(lib.smap_simplify)

    # ---- two maps, and more ----

    def first_difference(self, other: SourceMap) -> Optional[Position]:
        """The first generated position that two maps trace differently, by texts and not by ids; None if there is none. For unsorted maps
        it returns some answer.

        >>> map = SourceMap.from_tokens([Token(0, 4, 2, 1, None, None)])
        >>> map.first_difference(SourceMap.from_tokens([]))
        Position(line=0, column=4)
        """
        out, maps = _library.Position(), [self, map_in(other, "other")]
        code = SourceMap._read_all(maps, lambda at: lib.smap_first_difference(*at, byref(out)))
        if code == Code.NO_ENTRY:
            return None
        check_code(code)
        return Position(out.line, out.column)

    def compose(self, input: SourceMap) -> SourceMap:
        """Composes this map, from generated to intermediate code, with one from intermediate to original code. Raises
        SourceMapError of SEVERAL_SOURCES (of this map), LINE_ORDER (of the input) or TOO_LARGE.

        >>> minified = SourceMap.from_tokens([Token(0, 4, 2, 0, 0, None)], sources=["a.js"])
        >>> compiled = SourceMap.from_tokens([Token(2, 0, 7, 1, 0, None)], sources=["a.ts"])
        >>> minified.compose(compiled).trace(0, 4)[:3]
        ('a.ts', 7, 1)
        """
        maps = [self, map_in(input, "input")]
        return SourceMap._made(lambda *out: SourceMap._read_all(maps, lambda at: lib.smap_compose(*at, *out)))

    def remap(self, inputs: Union[Mapping[str, SourceMap], Iterable[tuple[Text, SourceMap]]]) -> SourceMap:
        """Traces this map through the maps of its sources: inputs pairs the path of a source with its map; of equal paths the first counts.
        Source roots are dropped unless `apply_source_root` ran before. Raises SourceMapError of INPUT_LINE_ORDER or TOO_LARGE.

        >>> bundle = SourceMap.from_tokens([Token(0, 4, 2, 0, 0, None)], sources=["a.js", "b.js"])
        >>> compiled = SourceMap.from_tokens([Token(2, 0, 7, 1, 0, None)], sources=["a.ts"])
        >>> bundle.remap({"a.js": compiled}).sources
        ['a.ts', 'b.js']
        """
        given = cast("Iterable[tuple[Text, SourceMap]]", inputs.items() if isinstance(inputs, Mapping) else inputs)
        pairs = entries_of(given, "inputs", _input)
        paths, maps = Texts(path for path, _ in pairs), [self, *(map for _, map in pairs)]

        def call(made: object, fault: object, at: list[int]) -> int:
            addresses = addresses_of(at[1:])
            under = addresses.buffer_info()[0], len(addresses)
            return int(lib.smap_remap(at[0], paths.words, paths.count, *under, made, fault))

        return SourceMap._made(lambda made, fault: SourceMap._read_all(maps, lambda at: call(made, fault, at)))

    # ---- writing ----

    def _written(self, call: Callable[..., int], *arguments: Any) -> str:
        return written(lambda *out: self._read(lambda at: call(at, *arguments, *out)))

    def _written_within(self, call: Callable[..., int], within: Callable[..., int], limit: Optional[int]) -> str:
        return self._written(call) if limit is None else self._written(within, limit_of(limit))

    def to_json(self, *, limit: Optional[int] = None) -> str:
        """The JSON text. Raises SourceMapError of LINE_ORDER or TOO_LARGE, the latter also if it has more than `limit` bytes: a
        100-byte map from others may have gigabytes of lines: with a limit, it raises before writing.

        >>> SourceMap.from_tokens([], sources=["a.ts"]).to_json(limit=1_000_000)
        '{"version":3,"names":[],"sources":["a.ts"],"mappings":""}'
        """
        return self._written_within(lib.smap_to_json_string, lib.smap_to_json_string_within, limit)

    def to_data_url(self, *, limit: Optional[int] = None) -> str:
        """The JSON text as a data URL, of at most `limit` bytes. Raises SourceMapError of LINE_ORDER or TOO_LARGE.

        >>> SourceMap.from_tokens([]).to_data_url()[:50]
        'data:application/json;charset=utf-8;base64,eyJ2ZXJ'
        """
        return self._written_within(lib.smap_to_data_url, lib.smap_to_data_url_within, limit)

    def get_mappings(self, *, limit: Optional[int] = None) -> str:
        """The mappings text alone, of at most `limit` bytes. Raises SourceMapError of LINE_ORDER or TOO_LARGE.

        >>> SourceMap.from_tokens([Token(0, 4, 2, 0, 0, None)], sources=["a.ts"]).get_mappings()
        'IAEA'
        """
        return self._written_within(lib.smap_get_mappings, lib.smap_get_mappings_within, limit)

    def compile(self, text_length: int = 0, stamp: Buffer = bytes(32)) -> bytes:
        """The bytes of the compiled map, which `CompiledMap` opens. They represent the map, with exactly one content for each source,
        known or not. `text_length` is the number of bytes of the map's text, and the stamp 32 bytes that are stored, such as the
        SHA-256 of that text: with both, a file X.map.smc beside X.map is as `sourcemap compile` writes it, and `sourcemap resolve` reads
        it.

        Raises SourceMapError of UNSORTED or TOO_LARGE.

        >>> data = SourceMap.from_tokens([Token(0, 4, 2, 0, 0, None)], sources=["a.ts"]).compile()
        >>> CompiledMap(data).trace(0, 4).source
        'a.ts'

        Contents are left out if they are set to none before. A map of the same sources, with contents and no tokens, has them apart:

        >>> map = SourceMap.from_tokens([Token(0, 4, 2, 0, 0, None)], sources=["a.ts"], source_contents=["let a"])
        >>> apart = SourceMap.from_tokens([], sources=map.sources, source_contents=map.source_contents).compile()
        >>> map.set_source_contents([])
        >>> CompiledMap(map.compile()).get_source_content(0), CompiledMap(apart).get_source_content(0)
        (None, 'let a')
        """
        length, given = long_number(text_length), stamp_of(stamp)
        return written_bytes(lambda *out: self._read(lambda at: lib.smap_compile(at, length, given, *out))) or b""

    def visualize(self, code: Text) -> str:
        """The text of a code beside its sources, token by token.

        >>> map = SourceMap.from_tokens([Token(0, 0, 0, 4, 0, None)], sources=["a.ts"], source_contents=["let a"])
        >>> print(map.visualize("a"))
        - a.ts
        (0:4) "a" --> (0:0) "a"
        <BLANKLINE>
        """
        data = bytes_of(code, "code")
        return self._written(lib.smap_visualize, data, len(data))

    def visualizer_url(self, code: Text) -> str:
        """A link to a page that shows a code beside its sources. Raises SourceMapError of LINE_ORDER or TOO_LARGE.

        >>> SourceMap.from_tokens([]).visualizer_url("a").partition("#")[0]
        'https://evanw.github.io/source-map-visualization/'
        """
        data = bytes_of(code, "code")
        return self._written(lib.smap_visualizer_url, data, len(data))


def map_in(map: SourceMap, name: str) -> SourceMap:
    """A map that is one: the name is of the parameter."""
    if not isinstance(map, SourceMap):
        raise TypeError(f"{name}: a SourceMap is needed, not {type(map).__name__}")
    return map


def _part(part: tuple[SourceMap, int, int]) -> tuple[SourceMap, tuple[int, int]]:
    map, line, column = part
    return map_in(map, "map"), (line, column)


def _input(pair: tuple[Text, SourceMap]) -> tuple[bytes, SourceMap]:
    path, map = pair
    return bytes_of(path, "path"), map_in(map, "map")


def _mends_of(mends: ctypes.c_void_p) -> list[Mend]:
    """What a handle lists as mended."""
    count = ctypes.c_size_t()
    check_code(lib.smap_get_mends(mends, None, 0, byref(count)))
    out = (_library.Mend * count.value)()
    check_code(lib.smap_get_mends(mends, ctypes.addressof(out), count.value, byref(count)))
    return [Mend(named(MendKind, it.kind), None if it.section == NOT_TOLD else it.section, it.number) for it in out]
