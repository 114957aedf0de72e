"""Compiled maps: their answers are those of the map that was compiled, in buffers of each kind, in files, and where bytes are damaged."""

import copy
import ctypes
import gc
import mmap
import os
import pickle
import random
import struct
import subprocess
import sys
import tempfile
import textwrap
import threading
import unittest
from array import array
from multiprocessing import shared_memory
from pathlib import Path
from unittest import mock

from support import BACK, MAP, NO_ID, TEXT, TOKENS, TOP, Case, lookups, read

import oxc_sourcemap
from oxc_sourcemap import (
    Bias,
    Code,
    CompiledMap,
    Kind,
    Original,
    SourceMap,
    SourceMapError,
    Token,
    _compiled,
    _library,
)

STAMP = bytes(range(32))
DATA = read().compile(700, STAMP)

try:
    import numpy
except ImportError:
    numpy = None


def random_map(chosen: random.Random) -> SourceMap:
    """Up to 200 tokens, sorted, some without a source or a name; numbers are small, or up to the largest."""
    most, lines = chosen.choice([3, 40, NO_ID]), chosen.randrange(1, 9)

    def token():
        ids = chosen.choice([None, 0, 1]), chosen.choice([None, 0, 1])
        return Token(chosen.randrange(lines), *(chosen.randrange(most) for _ in range(3)), *ids)

    tokens = lookups.sorted_tokens([token() for _ in range(chosen.randrange(200))])
    return SourceMap.from_tokens(tokens, names=["p", "ñ"], sources=["a", "ü"], source_contents=[None, "x"], ignore_list=[1])


def positions_of(map: SourceMap) -> list[tuple[int, int]]:
    """The positions of tokens, and those around them."""
    around = [(it.dst_line, it.dst_col + by) for it in map for by in (-1, 0, 1) if 0 <= it.dst_col + by <= NO_ID]
    return [*around, (0, 0), (9, 0), (NO_ID, NO_ID), (1, NO_ID)]


def damaged(*changes: tuple[int, int]) -> bytes:
    """The bytes with another one at each of these places."""
    data = bytearray(DATA)
    for at, byte in changes:
        data[at] = byte
    return bytes(data)


def descriptors() -> int:
    return len(os.listdir("/proc/self/fd"))


def script(text: str, *arguments: str) -> subprocess.Popen:
    """A process of a script, whose output is read."""
    env = {**os.environ, "PYTHONPATH": str(Path(oxc_sourcemap.__file__).parents[1])}
    command = [sys.executable, "-W", "error", "-c", textwrap.dedent(text), *arguments]
    return subprocess.Popen(command, stdout=subprocess.PIPE, stderr=subprocess.STDOUT, env=env, text=True)


class CompiledCase(Case):
    def says_the_same(self, map: SourceMap, compiled: CompiledMap) -> None:
        positions = positions_of(map)
        flat = array("I", [number for position in positions for number in position])
        for bias in Bias:
            wanted, out = map.trace_all(positions, bias), array("I", [7]) * len(positions)
            self.assertEqual([compiled.trace(*it, bias) for it in positions], wanted)
            compiled.find_all_into(positions, out, bias)
            for given in (positions, iter(positions), flat):
                self.assertEqual(compiled.trace_all(given, bias), wanted)
            self.assertEqual((compiled.find_all(flat, bias), out), (map.find_all(flat, bias),) * 2)
        self.assertEqual([compiled.get_token(index) for index in range(len(map) + 2)], [*map, None, None])
        for name in ("file", "source_root", "debug_id", "names", "sources"):
            self.assertEqual(getattr(compiled, name), getattr(map, name), name)
        ids, ignored = range(len(map.sources) + 2), map.ignore_list
        self.assertEqual(compiled.source_contents, [map.get_source_content(id) for id in ids[:-2]])
        for call in ("get_name", "get_source", "get_source_content"):
            self.assertEqual([getattr(compiled, call)(id) for id in ids], [getattr(map, call)(id) for id in ids], call)
        self.assertEqual([compiled.is_ignored(id) for id in ids], [id in (ignored or []) for id in ids])
        counts = map.counts()
        self.assertEqual(compiled.counts(), (counts.tokens, counts.sources, counts.names, None if ignored is None else len(ignored)))
        self.assertEqual((len(compiled), bool(compiled)), (len(map), True))

    def in_file(self, data: bytes = DATA) -> str:
        """A file with these bytes."""
        folder = tempfile.TemporaryDirectory()
        self.addCleanup(folder.cleanup)
        path = os.path.join(folder.name, "a.smap")
        Path(path).write_bytes(data)
        return path


class Answers(CompiledCase):
    def test_as_the_map(self):
        chosen = random.Random(7)
        for map in (read(), SourceMap.from_tokens([]), *(random_map(chosen) for _ in range(40))):
            with map, CompiledMap(map.compile()) as compiled:
                self.says_the_same(map, compiled)

    def test_as_real_maps(self):
        count = 0
        for path in (TOP / "tests/real-maps").glob("*/*.map"):
            try:
                map = SourceMap.read_found(path.read_bytes()).map
            except SourceMapError:
                continue
            with map, CompiledMap(map.compile()) as compiled:
                self.says_the_same(map, compiled)
            count += 1
        self.assertGreater(count, 9)

    def test_rows(self):
        with CompiledMap(DATA) as map:
            self.assertEqual(map.trace(0, 4), Original("a.ts", 0, 9, "hi", 1, TOKENS[1]))
            self.assertEqual(map.trace(0, 9), Original(None, None, None, None, 2, TOKENS[2]))
            self.assertEqual(map.trace(1, 0, Bias.CLAMPED), Original("b.ts", 1, 0, "größe", 3, TOKENS[3]))
            self.assertEqual((map.trace(1, 0), map.trace(0, 4, Bias.AFTER).token_index, map.trace(7, 0)), (None, 2, None))
            self.assertEqual((map.names, map.sources, map.source_contents), (MAP["names"], MAP["sources"], MAP["sourcesContent"]))
            self.assertEqual((map.text_length, map.stamp, map.counts()), (700, STAMP, (4, 2, 2, 1)))
            self.assertEqual(repr(map), "<CompiledMap: 4 tokens, 2 sources, 2 names>")

    def test_bias_is_before_by_default(self):
        with CompiledMap(SourceMap.from_tokens([Token(0, 4, 0, 0, None, None)]).compile()) as map:
            out = array("I", [7])
            map.find_all_into([(0, 0)], out)
            self.assertEqual((map.trace(0, 0), map.trace_all([(0, 0)]), list(map.find_all([(0, 0)])), list(out)), (None, [None], [NO_ID], [NO_ID]))
            map.find_all_into([(0, 0)], out, Bias.CLAMPED)
            self.assertEqual(list(out), [0])

    def test_the_quick_way(self):
        with CompiledMap(DATA) as map:
            # (by this, the thread may read)
            self.assertEqual(map.file, "out.js")
            for position in positions_of(read()):
                for bias in Bias:
                    self.assertEqual(_compiled.trace_compiled(map._leases, *position, bias), map._traced(*position, bias))
            self.assertEqual(_compiled.trace_compiled(map._leases, 0, 0, 3), Code.BAD_OPTION)
            self.assertEqual(_compiled.trace_compiled({}, 0, 0, 0), Code.NULL_HANDLE)

    def test_what_is_not_there(self):
        with CompiledMap(SourceMap.from_tokens([]).compile()) as map:
            self.assertEqual((map.file, map.source_root, map.debug_id, map.names, map.source_contents), (None, None, None, [], []))
            self.assertEqual((map.text_length, map.stamp, map.counts()), (0, bytes(32), (0, 0, 0, None)))
            self.assertEqual((map.trace_all([]), list(map.find_all([])), map.is_ignored(0)), ([], [], False))
        text = '{"version":3,"file":"","sourceRoot":"","debugId":"","sources":[""],"sourcesContent":[""],"ignoreList":[],"mappings":""}'
        with CompiledMap(read(text).compile()) as map:
            self.assertEqual((map.file, map.source_root, map.debug_id, map.sources), ("", "", "", [""]))
            self.assertEqual((map.source_contents, map.counts().ignored), ([""], 0))

    def test_decompiled(self):
        with CompiledMap(DATA) as compiled:
            map = compiled.decompile()
        self.assertEqual((type(map), map.to_json()), (SourceMap, TEXT))
        def refuses(at, made, fault):
            fault._obj.code = Code.TOO_LARGE
            return Code.TOO_LARGE

        with CompiledMap(DATA) as compiled, mock.patch.object(_library.lib, "smap_decompile", refuses):
            self.fails(Code.TOO_LARGE, compiled.decompile)
        map.set_source_contents(["A", None, "past the last source"])
        self.assertEqual(CompiledMap(map.compile()).decompile().source_contents, ["A", None])

    def test_compiling(self):
        with read() as map, SourceMap.from_tokens(BACK) as back:
            self.assertEqual((map.compile(stamp=bytearray(STAMP), text_length=700), type(DATA)), (DATA, bytes))
            self.assertEqual(CompiledMap(map.compile(2**64 - 1)).text_length, 2**64 - 1)
            self.fails(Code.UNSORTED, back.compile)
            for length in (-1, 2**64):
                self.assertRaises(OverflowError, map.compile, length)
            for stamp in (b"", bytes(31), bytes(33)):
                self.assertRaisesRegex(ValueError, f"a stamp has 32 bytes, not {len(stamp)}", map.compile, 0, stamp)
            for stamp in ("a" * 32, None, 32):
                self.assertRaisesRegex(TypeError, "stamp: ", map.compile, 0, stamp)
            self.assertRaises(TypeError, map.compile, 0.5)
        self.is_closed(map.compile)

    def test_numbers(self):
        with CompiledMap(DATA) as map:
            for numbers in ((-1, 0), (0, -1), (1 << 32, 0), (0, 1 << 32), (0, 0, -1), (0, 0, 1 << 32)):
                self.assertRaises(OverflowError, map.trace, *numbers)
            for call in (map.get_name, map.get_source, map.get_source_content, map.get_token, map.is_ignored):
                for number in (-1, 1 << 32):
                    self.assertRaises(OverflowError, call, number)
                self.assertRaises(TypeError, call, 0.5)
            self.assertRaises(TypeError, map.trace, "0", 0)
            for call in (lambda: map.trace(0, 0, 3), lambda: map.trace_all([], 3), lambda: map.find_all([], 3)):
                self.fails(Code.BAD_OPTION, call)
            self.fails(Code.LENGTHS, map.find_all_into, [(0, 0)], array("I", [0, 0]))
            self.assertRaises(ValueError, map.trace_all, [(0, 0, 0)])
            self.assertRaises(TypeError, map.find_all_into, [(0, 0)], bytes(4))

    def test_copies(self):
        with CompiledMap(DATA) as map:
            for call in (pickle.dumps, copy.copy, copy.deepcopy):
                self.assertRaises(TypeError, call, map)


class Hostile(CompiledCase):
    def test_other_bytes(self):
        for data, code, detail, message in (
            (b"", Code.NOT_COMPILED, 0, "not a compiled source map"),
            (TEXT.encode(), Code.NOT_COMPILED, 0, "not a compiled source map"),
            (damaged((0, 0)), Code.NOT_COMPILED, 0, "not a compiled source map"),
            (damaged((4, 7)), Code.COMPILED_VERSION, 7, "unsupported version of a compiled source map: 7"),
            (DATA + b"\0", Code.COMPILED_LENGTH, 0, "a compiled source map has another length than it says"),
            (damaged((67, 255)), Code.COMPILED_SIZES, 0, "the sizes in a compiled source map do not add up"),
        ):
            error = self.fails(code, CompiledMap, data, detail=detail)
            self.assertEqual((str(error), error.name, error.field), (message, f"SMAP_{code.name}", None))

    def test_cut_bytes(self):
        for length in range(len(DATA)):
            self.fails(Code.NOT_COMPILED if length < 8 else Code.COMPILED_LENGTH, CompiledMap, DATA[:length])

    def test_damaged_bytes(self):
        opened, positions = 0, positions_of(read())
        for at in range(len(DATA)):
            for flip in (1, 128, 255):
                try:
                    map = CompiledMap(damaged((at, DATA[at] ^ flip)))
                except SourceMapError:
                    continue
                for bias in Bias:
                    self.assertEqual(map.trace_all(positions, bias), [map.trace(*it, bias) for it in positions])
                    self.assertEqual(len(map.find_all(positions, bias)), len(positions))
                tokens = [map.get_token(index) for index in (0, 3, len(map), NO_ID)]
                said = tokens, map.names, map.sources, map.source_contents, map.file, map.source_root, map.debug_id, map.decompile()
                opened += len(said) == 8
        self.assertGreater(opened, len(DATA))

    def test_texts_that_overlap(self):
        data = bytearray(SourceMap.from_tokens([], names=[f"{id:04}" * 25 for id in range(40)]).compile())
        self.assertEqual(CompiledMap(bytes(data)).names[39], "0039" * 25)
        # Behind the header and where the first line begins: each other name has all bytes of the texts.
        struct.pack_into("<40I", data, 92, *(4000 * (id % 2) for id in range(40)))
        map = CompiledMap(data)
        self.assertEqual(len(map.get_name(38)), 4000)
        with self.assertRaisesRegex(ValueError, "its texts overlap"):
            map.names

    def test_texts_that_are_not_utf8(self):
        def with_text(old: bytes, new: bytes) -> CompiledMap:
            self.assertEqual((DATA.count(old), len(new)), (1, len(old)))
            return CompiledMap(DATA.replace(old, new))

        map = with_text(b"a.ts", b"\xff.ts")
        self.assertEqual((map.sources, map.get_source(0)), ([None, "b.ts"], None))
        without = Original(None, None, None, None, 1, TOKENS[1])
        self.assertEqual((map.trace(0, 4), map.trace(0, 4).kind), (without, Kind.UNMAPPED))
        self.assertEqual(map.trace_all([(0, 4), (1, 1), (7, 7), (0, 9)]), [without, Original("b.ts", 1, 0, "größe", 3, TOKENS[3]), None, Original(*[None] * 4, 2, TOKENS[2])])
        map = with_text("größe".encode(), b"gr\xff\xff\xdf\xdfe")
        self.assertEqual((map.names, map.get_name(1)), (["hi", None], None))
        self.assertEqual([map.trace(1, 1), *map.trace_all([(1, 1)])], [Original("b.ts", 1, 0, None, 3, TOKENS[3])] * 2)
        self.assertIsNone(map.decompile())
        self.assertIsNotNone(CompiledMap(DATA).decompile())
        # The first line begins behind the second, or the last one ends before it begins.
        self.assertEqual([CompiledMap(damaged(change)).decompile() for change in ((88, len(TOKENS)), (96, 2))], [None, None])
        for old, new, name in ((b"out.js", b"out\xe9js", "file"), (b"src/", b"src\x80", "source_root"), (b"d-1", b"d-\xc3", "debug_id")):
            self.assertIsNone(getattr(with_text(old, new), name))
        self.assertEqual(with_text(b"let hi;", b"let \xed\xa0\x80").source_contents, [None, None])


class Buffers(CompiledCase):
    def test_each_kind(self):
        odd = memoryview(b"x" + DATA + b"yz")[1:-2]
        buffers = [DATA, bytearray(DATA), memoryview(DATA), odd, array("B", DATA), (ctypes.c_char * len(DATA)).from_buffer_copy(DATA),
                   memoryview(bytearray(DATA)).toreadonly()]  # fmt: skip
        if numpy:
            buffers += [numpy.frombuffer(DATA, "u1"), numpy.frombuffer(DATA, "u1").copy()]
        map = read()
        for buffer in buffers:
            with CompiledMap(buffer) as compiled:
                self.says_the_same(map, compiled)
        # Also of numbers, and with several dimensions.
        all = [SourceMap.from_tokens([], sources=["a" * length]).compile() for length in range(4)]
        data = next(it for it in all if len(it) % 4 == 0)
        for buffer in (array("I", data), memoryview(data).cast("B", [2, len(data) // 2])):
            self.assertEqual(CompiledMap(buffer).sources, ["a" * all.index(data)])

    def test_other_kinds(self):
        for wrong in (None, TEXT, 7, [1], object()):
            self.assertRaisesRegex(TypeError, "buffer: ", CompiledMap, wrong)
        self.assertRaises(TypeError, CompiledMap)
        wide = bytearray(2 * len(DATA))
        wide[::2] = DATA
        self.assertRaisesRegex(ValueError, "not contiguous", CompiledMap, memoryview(wide)[::2])
        wide.clear()

    def test_held_until_closed(self):
        ends = [lambda it: it.pop().close(), lambda it: it.clear(), lambda it: it[0].__exit__()]
        for end in ends:
            data = bytearray(DATA)
            maps = [CompiledMap(data)]
            self.assertRaises(BufferError, data.clear)
            self.assertEqual(maps[0].sources, MAP["sources"])
            end(maps)
            data.clear()
            data.extend(b"x" * 9999)
            self.assertEqual([it.closed for it in maps], [True] * len(maps))

    def test_nobody_else_refers_to_it(self):
        map = CompiledMap(memoryview(bytearray(b"x" + DATA))[1:])
        gc.collect()
        other = [bytearray(len(DATA) + 1) for _ in range(100)]
        self.assertEqual((map.sources, len(other)), (MAP["sources"], 100))
        view = memoryview(bytearray(DATA))
        map = CompiledMap(view)
        view.release()
        self.assertEqual(map.sources, MAP["sources"])

    def test_refused_buffers_are_free(self):
        for data in (bytearray(b"{}"), bytearray(DATA[:-1])):
            # (assertRaises clears the frames of a traceback)
            try:
                CompiledMap(data)
            except SourceMapError as error:
                kept = error
            data.clear()
            self.assertIs(type(kept), SourceMapError)

    def test_in_cycles(self):
        class Own(bytearray):
            pass

        data = Own(DATA)
        data.map = CompiledMap(data)
        seen = []
        data.map_is_freed = type("Finalized", (), {"__del__": lambda self: seen.append(True)})()
        del data
        gc.collect()
        self.assertEqual(seen, [True])

    def test_mmap(self):
        with open(self.in_file(), "rb") as file:
            mapped = mmap.mmap(file.fileno(), 0, access=mmap.ACCESS_READ)
        map = CompiledMap(mapped)
        self.assertRaises(BufferError, mapped.close)
        self.says_the_same(read(), map)
        map.close()
        mapped.close()

    def test_shared_memory(self):
        shared = shared_memory.SharedMemory(create=True, size=len(DATA))
        try:
            shared.buf[: len(DATA)] = DATA
            reads = """
                import sys
                from multiprocessing import resource_tracker, shared_memory
                from oxc_sourcemap import CompiledMap
                resource_tracker.register = lambda *_: None
                shared = shared_memory.SharedMemory(sys.argv[1])
                with CompiledMap(shared.buf[: int(sys.argv[2])]) as map:
                    print(map.trace(0, 4)[:4], map.trace(7, 7))
                shared.close()
            """
            with CompiledMap(shared.buf[: len(DATA)]) as map:
                with script(reads, shared.name, str(len(DATA))) as process:
                    self.assertEqual(process.communicate(timeout=60)[0].strip(), "('a.ts', 0, 9, 'hi') None")
                self.says_the_same(read(), map)
        finally:
            shared.close()
            shared.unlink()


class Files(CompiledCase):
    def test_opened(self):
        path = self.in_file()
        for given in (path, Path(path)):
            with CompiledMap.open_file(given) as map:
                self.says_the_same(read(), map)
                self.assertEqual((map.text_length, map.stamp), (700, STAMP))

    def test_refused(self):
        path, before, kept = self.in_file(b""), descriptors(), []
        self.assertRaises(FileNotFoundError, CompiledMap.open_file, path + "x")
        self.assertRaises(IsADirectoryError, CompiledMap.open_file, os.path.dirname(path))
        self.assertRaises(ValueError, CompiledMap.open_file, "a\0b")
        os.mkfifo(path + ".pipe")
        with self.assertRaisesRegex(OSError, "Not a plain file"):
            CompiledMap.open_file(path + ".pipe")
        with open(path, "rb") as file:
            self.assertRaises(TypeError, CompiledMap.open_file, file.fileno())
            file.read(1)
        for data, code in ((b"", Code.NOT_COMPILED), (TEXT.encode(), Code.NOT_COMPILED), (DATA[:-1], Code.COMPILED_LENGTH)):
            Path(path).write_bytes(data)
            try:
                CompiledMap.open_file(path)
            except SourceMapError as error:
                kept.append(error)
            self.assertEqual(kept[-1].code, code)
        self.assertEqual((len(kept), descriptors()), (3, before))

    def test_no_descriptor_is_left(self):
        path, before = self.in_file(), descriptors()
        CompiledMap.open_file(path).close()
        with CompiledMap.open_file(path) as map:
            pass
        del map
        CompiledMap.open_file(path)
        self.assertEqual(descriptors(), before)

    def test_another_one_is_renamed_over_it(self):
        path = self.in_file()
        with CompiledMap.open_file(path) as map:
            Path(path + ".new").write_bytes(SourceMap.from_tokens([], sources=["new.ts"]).compile())
            os.replace(path + ".new", path)
            self.says_the_same(read(), map)
            with CompiledMap.open_file(path) as other:
                self.assertEqual(other.sources, ["new.ts"])
            os.remove(path)
            self.says_the_same(read(), map)

    def test_several_processes(self):
        path = self.in_file()
        reads = """
            import sys
            from oxc_sourcemap import CompiledMap
            with CompiledMap.open_file(sys.argv[1]) as map:
                input()
                print(map.trace(0, 4)[:4], map.names, len(map))
        """
        env = {**os.environ, "PYTHONPATH": str(Path(oxc_sourcemap.__file__).parents[1])}
        command = [sys.executable, "-c", textwrap.dedent(reads), path]
        all = [subprocess.Popen(command, stdin=subprocess.PIPE, stdout=subprocess.PIPE, env=env, text=True) for _ in range(3)]
        with CompiledMap.open_file(path) as map:
            said = [process.communicate("\n", timeout=60)[0].strip() for process in all]
            self.assertEqual(said, ["('a.ts', 0, 9, 'hi') ['hi', 'größe'] 4"] * 3)
            self.says_the_same(read(), map)

    def test_a_process_that_forks(self):
        forks = """
            import os, sys
            from oxc_sourcemap import CompiledMap
            map = CompiledMap.open_file(sys.argv[1])
            wanted = map.trace(0, 4), map.sources, map.decompile().to_json()
            for closes in False, True:
                child = os.fork()
                if child == 0:
                    same = wanted == (map.trace(0, 4), map.sources, map.decompile().to_json())
                    if closes:
                        map.close()
                    os._exit(0 if same and map.closed == closes else 1)
                assert os.waitpid(child, 0)[1] == 0
                assert wanted == (map.trace(0, 4), map.sources, map.decompile().to_json())
            print(wanted[0][:4])
        """
        with script(forks, self.in_file()) as process:
            self.assertEqual(process.communicate(timeout=60)[0].strip(), "('a.ts', 0, 9, 'hi')")

    def test_open_at_the_end_of_a_process(self):
        leaves = """
            import sys, threading
            from oxc_sourcemap import CompiledMap, SourceMap
            class Session:
                def __init__(self, map):
                    self.map, self.me = map, self
                def __del__(self):
                    self.map.closed or self.map.trace(0, 4)
            map = CompiledMap.open_file(sys.argv[1])
            sys.kept = CompiledMap(SourceMap.from_tokens([]).compile()), Session(CompiledMap.open_file(sys.argv[1]))
            Session(CompiledMap.open_file(sys.argv[1]))
            threading.Thread(target=lambda: [map.trace(0, 4) for _ in range(20_000)], daemon=True).start()
            print(map.trace(0, 4).name)
        """
        with script(leaves, self.in_file()) as process:
            self.assertEqual((process.communicate(timeout=60)[0].strip(), process.returncode), ("hi", 0))


class Closing(CompiledCase):
    def test_a_map_that_is_closed(self):
        map = CompiledMap(DATA)
        self.assertFalse(map.closed)
        map.close()
        map.close()
        self.assertEqual((map.closed, repr(map), bool(map)), (True, "<CompiledMap: closed>", True))
        for name in ("file", "source_root", "debug_id", "names", "sources", "source_contents", "text_length", "stamp"):
            self.is_closed(getattr, map, name)
        for call in (map.counts, map.decompile, map.__len__):
            self.is_closed(call)
        for call in (map.get_name, map.get_source, map.get_source_content, map.get_token, map.is_ignored):
            self.is_closed(call, 0)
        self.is_closed(map.trace, 0, 0)
        self.is_closed(map.trace_all, [])
        self.is_closed(map.find_all, [])
        self.is_closed(map.find_all_into, [], array("I"))

    def test_eight_readers(self):
        map = random_map(random.Random(3))
        positions, compiled = positions_of(map), CompiledMap(map.compile())
        wanted, sources = map.trace_all(positions), map.sources

        def reader():
            for turn in range(60):
                self.assertEqual(compiled.trace_all(positions), wanted)
                self.assertEqual((compiled.trace(*positions[turn]), compiled.sources), (wanted[turn], sources))

        self.together(*[reader] * 8)

    def test_closed_under_readers(self):
        for _ in range(20):
            data, ended = bytearray(DATA), []
            map = CompiledMap(data)

            def reader():
                while True:
                    try:
                        self.assertEqual((map.trace(0, 4).source, map.trace_all([(1, 1)])[0].name), ("a.ts", "größe"))
                    except ValueError as error:
                        ended.append(str(error))
                        return

            self.together(*[reader] * 4, map.close, map.close)
            self.assertEqual(ended, ["The map is closed"] * 4)
            data.clear()

    def test_a_close_waits_for_readers(self):
        data, reads, reads_on, closed = bytearray(DATA), threading.Event(), threading.Event(), threading.Event()
        map = CompiledMap(data)
        threading.Thread(target=map._read, args=[lambda at: (reads.set(), reads_on.wait(60))], daemon=True).start()
        reads.wait(60)
        threading.Thread(target=lambda: (map.close(), closed.set()), daemon=True).start()
        self.assertFalse(closed.wait(0.2))
        self.assertRaises(BufferError, data.clear)
        reads_on.set()
        self.assertTrue(closed.wait(10))
        data.clear()

    def test_a_close_that_is_interrupted(self):
        def interrupts(address):
            free(address)
            raise KeyboardInterrupt

        data, free = bytearray(DATA), _library.lib.smap_free_compiled
        map = CompiledMap(data)
        with mock.patch.object(_library.lib, "smap_free_compiled", interrupts):
            self.assertRaises(KeyboardInterrupt, map.close)
        self.assertTrue(map.closed)
        map.close()
        data.clear()

    def test_what_interrupts_a_call(self):
        map = CompiledMap(DATA)
        self.assertEqual(map._read(lambda at: map.file), "out.js")
        self.assertRaises(RuntimeError, map._read, lambda at: map.close())
        self.assertEqual((map.closed, map.sources), (False, MAP["sources"]))
        self.together(map.close, seconds=10)
        self.assertTrue(map.closed)

    def test_finalizers_of_a_cycle(self):
        class Session:
            def __init__(self, map):
                self.map, self.me = map, self

            def __del__(self):
                for call in ("counts", "close", "counts"):
                    try:
                        getattr(self.map, call)()
                        said.append(call)
                    except ValueError as error:
                        said.append(str(error))

        said, data = [], bytearray(DATA)
        for _ in range(100):
            Session(CompiledMap(data))
            gc.collect()
        data.clear()
        self.assertEqual((len(said), said[-1]), (300, "The map is closed"))

    def test_a_map_that_comes_back_from_the_collector(self):
        class Session:
            def __init__(self, map):
                self.map, self.me = map, self

            def __del__(self):
                kept.append(self.map)

        kept, data = [], bytearray(DATA)
        Session(CompiledMap(data))
        gc.collect()
        self.assertTrue(kept[0].closed)
        data.clear()


if __name__ == "__main__":
    unittest.main()
