"""The resolver of stack traces: frames, stores, compiled maps, what is held, limits, threads. Expected places are those of hand-worked
maps, and of the stored runs of the program `sourcemap`."""

from __future__ import annotations

import gc
import json
import os
import random
import subprocess
import sys
import tempfile
import threading
import time
import unittest
from pathlib import Path
from unittest import mock

from support import TOP, Case

from oxc_sourcemap import CompiledMap, SourceMap, resolver
from oxc_sourcemap._stores import replace_file
from oxc_sourcemap._tables import Bounds, MissingError, Table
from oxc_sourcemap.resolver import BESIDE, Folder, Frame, Limits, Reason, Resolved, Resolver, TooLargeError, frames_in

# By hand: generated 0:0 is a.ts 0:0, 0:13 is a.ts 1:2 with the name run, 1:0 is b.ts 4:0, and 1:4 is unmapped.
VALUE = {"version": 3, "sourceRoot": "src", "sources": ["a.ts", "b.ts"], "names": ["run"], "mappings": "AAAA,aACEA;ACGF,I"}
MAP = json.dumps(VALUE).encode()
CODE = b"function f() {throw 1}\nf();\n//# sourceMappingURL=app.js.map\n"
# As long as MAP; 0:0 is c.ts 0:0.
OTHER = json.dumps({**VALUE, "sources": ["c.ts", "d.ts"]}).encode()
H = "http://h/"
OLD = 1_000_000_000


def write(folder: str | Path, files: dict[str, bytes], time: int = OLD) -> None:
    """Files, written at a time, in seconds."""
    for name, data in files.items():
        path = Path(folder, name)
        path.parent.mkdir(parents=True, exist_ok=True)
        path.write_bytes(data)
        os.utime(path, (time, time))


class Counting(dict):
    """A store that counts what it is asked for."""

    def __init__(self, files: dict[str, bytes]) -> None:
        super().__init__(files)
        self.asked: list[str] = []

    def get(self, name: str) -> bytes | None:
        self.asked.append(name)
        return super().get(name)


class InFolder(Case):
    def setUp(self) -> None:
        room = tempfile.TemporaryDirectory()
        self.addCleanup(room.cleanup)
        self.room = Path(room.name)
        self.folder = self.room / "dist"
        write(self.folder, {"app.js": CODE, "app.js.map": MAP})

    def reason(self, found: Resolved) -> str:
        assert found.reason is not None, found
        return f"{found.reason.value}: {found.detail}"


class Frames(Case):
    def test_forms_that_the_program_has(self):
        rows = json.loads((TOP / "tests/sourcemap/frames.json").read_text(encoding="utf-8"))
        # (colour codes, strings, React's and escaped URLs that climb are the program's alone, as is that it looks for folders)
        alone = ("\x1b", '"', "'", "rsc:", "about:", "..", "%2e", "other/", "my%20", "quote")
        rows = [row for row in rows if "words" not in row and not any(it in row["line"] for it in alone)]
        self.assertGreater(len(rows), 90)
        codes = ("app.js", "(group)/app.js", "node_modules/@scope/app.js", "@vite/app.js", "index.android.bundle")
        store = {f"{name}.map": json.dumps({**VALUE, "names": [], "mappings": "AAAA,aACE;ACGF,I"}).encode() for name in codes}
        hosts = ("http://localhost:8080", "https://example.com", "http://h", "https://h", "chrome-extension://abcdef", "moz-extension://abcdef")
        bases = dict.fromkeys([*hosts, "/srv/build/dist", "/Users/me/dist", "C:\\build\\dist", ""], "")
        found = Resolver(store, bases)
        for row in rows:
            # (that a position is past the end of the code is found by the program alone)
            if "past the end" not in row.get("why", ""):
                self.assertEqual(found.resolve_text(row["line"]), row["wanted"], row["engine"])

    def test_lines_with_other_brackets_and_words(self):
        # (what `sourcemap resolve` makes of them)
        rows = {
            "loaded (app.js:1:14)": "loaded (app.js:1:14)",
            "what (app.js:1:14)": "what (app.js:1:14)",
            "Started at noon:30:15": "Started at noon:30:15",
            "    at f (g( (app.js:1:14)": "    at f (g( (src/a.ts:2:3)",
            "    at f (g( ((group)/app.js:1:14)": "    at f (g( (src/a.ts:2:3)",
            "x at f (a (b) c (app.js:1:14)": "x at f (a (b) c (src/a.ts:2:3)",
            "at app.js:1:14, app.js:2:1": "at src/a.ts:2:3, app.js:2:1",
            "at f (app.js:1:14) app.js:2:1)": "at f (src/a.ts:2:3) app.js:2:1)",
        }
        found = Resolver({"app.js.map": MAP, "(group)/app.js.map": MAP})
        self.assertEqual({line: found.resolve_text(line) for line in rows}, rows)
        self.assertEqual([*frames_in("loaded (app.js:1:14)"), *frames_in("Started at noon:30:15")], [])

    def test_frames_lie_apart(self):
        chosen, few = random.Random(1), ("at ", "(", ")", " ", "a.js:1:1")
        for parts in [few] * 20_000 + [(*few, "f", ":2:3", "@", "h://", "\n", "❯ ", ",", "{")] * 20_000:
            text, last = "".join(chosen.choices(parts, k=10)), 0
            for frame in frames_in(text):
                self.assertLessEqual(last, frame.start, text)
                self.assertEqual(text[frame.start : frame.end], f"{frame.url}:{frame.line}:{frame.column}")
                last = frame.end

    def test_bytes_that_stay(self):
        found = Resolver({"app.js.map": MAP}, H)
        trace = b"\xff\xfe\r\n    at \xc3\xbc (http://h/app.js:1:14)\r\nf@http://h/app.js:2:1\r\n\0\n"
        self.assertEqual(found.resolve_text(trace), b"\xff\xfe\r\n    at \xc3\xbc (src/a.ts:2:3)\r\nf@src/b.ts:5:1\r\n\0\n")

    def test_sources_that_would_forge_a_trace(self):
        map = {"version": 3, "sources": ['a"\n\u202e\x9b.ts'], "names": [], "mappings": "AAAA"}
        text = Resolver({"app.js.map": json.dumps(map).encode()}).resolve_text("f@app.js:1:1")
        self.assertEqual(text, 'f@"a\\"\\n\\u202e\\u009b.ts":1:1')

    def test_time_is_linear(self):
        bad = (":1:1", "(:1:1)", "at (", "at a:1:1 ", ") at x(", "@", " " * 5 + ":1:1", "f@:/", "((((:1:1", "{ :1:1", "at x (a.js:1:1) ", "❯ a:1:1 ")
        for part in bad:
            start = time.process_time()
            text = part * (400_000 // len(part))
            list(frames_in(text))
            list(frames_in(text + "\n" + " " * 400_000 + ":1:1{" + " " * 400_000 + "x"))
            self.assertLess(time.process_time() - start, 8, part)

    def test_columns_and_lines_count_from_1(self):
        found = Resolver({"app.js.map": MAP}, H)
        places = [found.resolve_frame(H + "app.js", 1, column).place for column in (1, 13, 14)]
        self.assertEqual(places, ["src/a.ts:1:1", "src/a.ts:1:1", "src/a.ts:2:3"])
        self.assertEqual(found.resolve_frame(H + "app.js", 1, 14)[1:5], ("src/a.ts", 1, 2, "run"))
        reasons = [found.resolve_frame(H + "app.js", *it).reason for it in ((0, 1), (1, 0), (2**32, 1), (3, 1), (2, 5))]
        self.assertEqual(reasons, [Reason.POSITION] * 3 + [Reason.NOTHING, Reason.UNMAPPED])


class Finding(InFolder):
    def test_urls(self):
        found = Resolver(self.room, {H: "", H + "v2/": "dist", "/srv/app": "dist", "C:\\app": "dist"})
        for url in ("http://h/dist/app.js", "http://H/v2//./app.js?x=1:2#y", "file:///srv/app/app.js", "/srv/app/app.js", "C:/app/app.js", H + "v2/%61pp.js"):
            self.assertEqual(found.resolve_frame(url, 2, 1).place, "src/b.ts:5:1", url)
        self.assertEqual(Resolver({"abc/" * 300 + "a.js.map": MAP}).resolve_frame("abc/" * 300 + "a.js", 1, 1).reason, Reason.REFUSED)
        for url in ("http://g/dist/app.js", "https://h/dist/app.js", "/srv/ap/app.js", "/srv/apps/app.js", "dist/app.js", "http://h:80/dist/app.js"):
            self.assertEqual(found.resolve_frame(url, 2, 1).reason, Reason.OUTSIDE, url)
        self.assertEqual(self.reason(found.resolve_frame(H + "v2/b.js", 1, 1)), "not there: there is no dist/b.js, and no dist/b.js.map")

    def test_what_leads_out_is_refused(self):
        write(self.room, {"distant.js.map": MAP, "secret/a.js.map": MAP})
        links = {"out.js.map": "../distant.js.map", "gone": "../secret", "loop.js.map": "loop.js.map", "in.js.map": "app.js.map", "self": "."}
        for name, target in links.items():
            os.symlink(target, self.folder / name)
        os.mkfifo(self.folder / "pipe.js.map")
        found = Resolver(self.folder, H, cache=BESIDE)
        climbing = ("../distant.js", "%2e%2e/distant.js", "..%2fdistant.js", "x/../../distant.js", "a%00.js", "a%0a.js", "a%ff.js", "a\\b.js", "out.js", "gone/a.js")
        for name in (*climbing, "\udcff.js", "a" * 256 + ".js", "abc/" * 300 + "a.js"):
            self.assertEqual(found.resolve_frame(H + name, 1, 1).reason, Reason.REFUSED, name)
        self.assertEqual(found.resolve_frame(H + "loop.js", 1, 1).reason, Reason.STORE)
        self.assertEqual(found.resolve_frame(H + "pipe.js", 1, 1).reason, Reason.NOT_THERE)
        self.assertEqual([found.resolve_frame(H + it, 1, 1).place for it in ("in.js", "self/in.js")], ["src/a.ts:1:1"] * 2)
        self.assertEqual(sorted(os.listdir(self.room)), ["dist", "distant.js.map", "secret"])
        self.assertEqual(os.listdir(self.room / "secret"), ["a.js.map"])
        with self.assertRaisesRegex(ValueError, "part '..'"):
            Folder(self.folder).get("../distant.js.map")

    def test_comments(self):
        inner = {"a/c.js": b"//# sourceMappingURL=", "maps/c.map": MAP, "a/c.js.map": OTHER}

        def place(url: bytes, first: bool = False) -> str | None:
            found = Resolver({**inner, "a/c.js": inner["a/c.js"] + url}, {H + "x": ""}, beside_first=first).resolve_frame(H + "x/a/c.js", 1, 1)
            return found.place or found.reason

        data = b"data:application/json," + b"%7B" + MAP[1:].replace(b" ", b"%20").replace(b'"', b"%22")
        for url in (b"../maps/c.map", b"http://h/x/maps/c.map", b"/x/maps/c.map", b"//h/x/maps/c.map?v=1", b"./..//maps/%63.map", data):
            self.assertEqual(place(url), "src/a.ts:1:1", url)
        for url in (b"../maps/d.map", b"http://g/x/maps/c.map", b"/maps/c.map", b"http://[", b"\xff"):
            self.assertEqual(place(url), "src/c.ts:1:1", url)
        self.assertEqual(place(b"../../maps/c.map"), Reason.REFUSED)
        self.assertEqual(place(b"data:application/json,{"), Reason.BAD_MAP)
        self.assertEqual(place(b"../maps/c.map", first=True), "src/c.ts:1:1")

    def test_why_not(self):
        store = {"a.js": b"", "b.js.map": b'{"version":3,"sources":[],"mappings":"A;A,AA"}', "c.js": b" " * 99, "d.js.map": b" " * 200}
        found = Resolver(store, limits=Limits(code_bytes=98, map_bytes=199))
        reasons = {
            "a.js": "no map: a.js names no map that is there, and there is no a.js.map",
            "b.js": "bad map: b.js.map: Mapping segment had an unsupported size of 2, at line 1, segment 1 (byte 4)",
            "c.js": "too large: c.js has 99 bytes, and the limit is 98",
            "d.js": "too large: d.js.map has 200 bytes, and the limit is 199",
            "e.js": "not there: there is no e.js, and no e.js.map",
        }
        self.assertEqual({name: self.reason(found.resolve_frame(name, 1, 1)) for name in reasons}, reasons)
        stats = found.stats()
        counts = [stats[f"not_resolved_{it}"] for it in ("no_map", "bad_map", "too_large", "not_there")]
        self.assertEqual((counts, stats["missing_held"], stats["misses"]), ([1, 1, 2, 1], 5, 5))
        write(self.folder, {"d.js.map": b" " * 200})
        folder = Resolver(self.folder, limits=Limits(map_bytes=199))
        self.assertEqual(self.reason(folder.resolve_frame("d.js", 1, 1)), reasons["d.js"])

    def test_debug_ids(self):
        one, two = "85314830-023f-4cf1-a267-535f4e37bb17", "00000000-0000-4000-8000-000000000000"
        named = json.dumps({**VALUE, "debugId": one.upper()}).encode()
        found = Resolver({f"ids/{one}.map": named, "b.js.map": named, "c.js.map": OTHER}, H, debug_id_name="ids/{}.map")
        self.assertEqual(found.resolve_frame("https://cdn/x.js", 1, 1, one.replace("-", "")).place, "src/a.ts:1:1")
        self.assertEqual(found.resolve_frame("https://cdn/x.js", 1, 1, two).reason, Reason.OUTSIDE)
        self.assertEqual(found.resolve_text("f@http://h/b.js:1:1", {H + "b.js": one}), "f@src/a.ts:1:1")
        self.assertEqual(found.resolve_frame(H + "b.js", 1, 1, two).reason, Reason.OTHER_BUILD)
        self.assertEqual(found.resolve_frame(H + "b.js", 1, 1).place, "src/a.ts:1:1")
        self.assertEqual(found.resolve_frame(H + "c.js", 1, 1, two).place, "src/c.ts:1:1")
        self.assertEqual(found.resolve_frame(H + "c.js", 1, 1, "../x").reason, Reason.REFUSED)

    def test_a_name_outside_is_not_that_of_a_code(self):
        found = Resolver({"app.js.map": MAP}, H)
        self.assertEqual([found.resolve_frame(it, 1, 1).reason for it in ("app.js", H + "app.js", "app.js")], [Reason.OUTSIDE, None, Reason.OUTSIDE])


class Compiled(InFolder):
    def compiled(self, map: bytes, of: bytes | None = None) -> bytes:
        """The compiled map of one text, which says that it is of another one."""
        import hashlib

        text = map if of is None else of
        return SourceMap.from_json(map).compile(len(text), hashlib.sha256(text).digest())

    def place(self, **named: object) -> tuple[str | None, dict[str, int]]:
        """What a new resolver says of 0:0, and its counts that are not 0."""
        found = Resolver(self.folder, H, **named)
        place = found.resolve_frame(H + "app.js", 1, 1).place
        return place, {name[9:]: count for name, count in found.stats().items() if name.startswith("compiled_") and count}

    def test_made_once_beside_the_map(self):
        self.assertEqual(self.place(cache=BESIDE), ("src/a.ts:1:1", {"made": 1}))
        path = self.folder / "app.js.map.smc"
        self.assertEqual(path.read_bytes(), self.compiled(MAP))
        self.assertEqual(path.stat().st_mode, (self.folder / "app.js.map").stat().st_mode)
        self.assertEqual(self.place(cache=BESIDE), ("src/a.ts:1:1", {"used": 1}))
        self.assertEqual(self.place(), ("src/a.ts:1:1", {"used": 1}))
        self.assertEqual(sorted(os.listdir(self.folder)), ["app.js", "app.js.map", "app.js.map.smc"])

    def test_which_is_taken(self):
        a, c = "src/a.ts:1:1", "src/c.ts:1:1"
        longer = MAP + b" "
        rows = [
            # (of a map of this text, written so many seconds after the map: taken by its time, or its hash)
            (self.compiled(OTHER), 0, {}, (c, {"used": 1})),
            (self.compiled(OTHER, MAP), 9, {}, (c, {"used": 1})),
            (self.compiled(OTHER, MAP), -9, {}, (c, {"used": 1})),
            (self.compiled(OTHER), 9, {}, (c, {"used": 1})),
            (self.compiled(OTHER), -9, {}, (a, {"stale": 1, "made": 1})),
            (self.compiled(OTHER), 9, {"always_hashes": True}, (a, {"stale": 1, "made": 1})),
            (self.compiled(OTHER, MAP), 9, {"always_hashes": True}, (c, {"used": 1})),
            (self.compiled(OTHER, longer), 9, {}, (a, {"stale": 1, "made": 1})),
            (self.compiled(OTHER, MAP)[:-1], 9, {}, (a, {"damaged": 1, "made": 1})),
            (b"", 9, {}, (a, {"damaged": 1, "made": 1})),
        ]
        for data, later, named, wanted in rows:
            write(self.folder, {"app.js.map.smc": data}, OLD + later)
            self.assertEqual(self.place(**named), wanted, (later, named))

    def test_one_that_is_told_by_its_hash_gets_the_time_of_its_map(self):
        path = self.folder / "app.js.map.smc"
        for named, time in (({}, OLD - 9), ({"cache": BESIDE}, OLD)):
            write(self.folder, {"app.js.map.smc": self.compiled(MAP)}, OLD - 9)
            self.assertEqual(self.place(**named), ("src/a.ts:1:1", {"used": 1}))
            self.assertEqual(path.stat().st_mtime, time)

    def test_a_map_that_is_too_large_is_not_taken_as_compiled(self):
        self.place(cache=BESIDE)
        self.assertIsNone(self.place(limits=Limits(map_bytes=len(MAP) - 1))[0])
        self.assertEqual(self.place(limits=Limits(map_bytes=len(MAP)))[0], "src/a.ts:1:1")

    def test_cache_folder(self):
        cache = self.room / "cache"
        self.assertEqual(self.place(cache=cache), ("src/a.ts:1:1", {"made": 1}))
        self.assertEqual(self.place(cache=cache), ("src/a.ts:1:1", {"used": 1}))
        (name,) = os.listdir(cache)
        # A map of as many bytes in its place, which is older, as a copy that keeps times leaves it.
        write(self.folder, {"app.js.map": OTHER}, OLD - 9)
        self.assertEqual(self.place(cache=cache), ("src/c.ts:1:1", {"stale": 1, "made": 1}))
        self.assertEqual(os.listdir(cache), [name])
        self.assertEqual(self.place(cache=cache), ("src/c.ts:1:1", {"used": 1}))
        self.assertEqual(sorted(os.listdir(self.folder)), ["app.js", "app.js.map"])
        other = self.room / "other"
        write(other, {"app.js.map": MAP}, OLD - 9)
        self.assertEqual(Resolver(other, cache=cache).resolve_frame("app.js", 1, 1).place, "src/a.ts:1:1")
        self.assertEqual(len(os.listdir(cache)), 2)

    def test_a_map_that_was_written_just_now_is_told_by_its_hash(self):
        now = int(time.time())
        write(self.folder, {"app.js.map": MAP}, now)
        self.place(cache=BESIDE)
        write(self.folder, {"app.js.map": OTHER}, now)
        self.assertEqual(self.place(cache=BESIDE)[0], "src/c.ts:1:1")

    def test_a_map_that_is_written_while_it_is_read_is_not_kept(self):
        class Changing(Folder):
            def open(self, name: str) -> object:
                opened = super().open(name)
                os.utime(os.path.join(self.path, name), (OLD + 1, OLD + 1))
                return opened

        found = Resolver(Changing(self.folder), H, cache=BESIDE, beside_first=True)
        self.assertEqual(found.resolve_frame(H + "app.js", 1, 1).place, "src/a.ts:1:1")
        self.assertEqual(sorted(os.listdir(self.folder)), ["app.js", "app.js.map"])

    def test_one_that_another_process_replaces_meanwhile(self):
        path, opens = self.folder / "app.js.map.smc", CompiledMap.open_file
        write(self.folder, {"app.js.map.smc": self.compiled(OTHER)}, OLD - 9)

        def replaced(at: str) -> CompiledMap:
            map = opens(at)
            replace_file(str(path), self.compiled(OTHER, MAP), 0o644, OLD * 10**9)
            return map

        with mock.patch.object(CompiledMap, "open_file", replaced):
            self.assertEqual(self.place(), ("src/a.ts:1:1", {"stale": 1, "made": 1}))

        def put(at: str) -> CompiledMap:
            replace_file(str(path), self.compiled(OTHER), 0o644, OLD * 10**9)
            return opens(at)

        path.unlink()
        with mock.patch.object(CompiledMap, "open_file", put):
            self.assertEqual(self.place(cache=BESIDE), ("src/a.ts:1:1", {"made": 1}))

    def test_folders_that_take_no_files(self):
        if os.geteuid() == 0:
            (self.room / "cache").mkdir()
            found = Resolver(self.folder, H, cache=self.room / "cache")
            (self.room / "cache").rmdir()
        else:
            os.chmod(self.folder, 0o555)
            self.addCleanup(os.chmod, self.folder, 0o755)
            found = Resolver(self.folder, H, cache=BESIDE)
        self.assertEqual(found.resolve_frame(H + "app.js", 1, 1).place, "src/a.ts:1:1")
        self.assertEqual((found.stats()["compiled_made"], found.stats()["compiled_unwritten"]), (1, 1))

    def test_a_link_out_is_neither_read_nor_written(self):
        write(self.room, {"x.smc": self.compiled(OTHER, MAP)}, OLD + 9)
        os.symlink("../x.smc", self.folder / "app.js.map.smc")
        self.assertEqual(self.place(), ("src/a.ts:1:1", {"made": 1}))
        self.assertEqual(self.place(cache=BESIDE), ("src/a.ts:1:1", {"made": 1}))
        self.assertEqual((self.room / "x.smc").read_bytes(), self.compiled(OTHER, MAP))
        self.assertFalse((self.folder / "app.js.map.smc").is_symlink())

    def test_maps_that_are_links(self):
        write(self.folder, {"sub/b.js.map": MAP})
        os.symlink("sub/b.js.map", self.folder / "b.js.map")
        for made, used in ((1, 0), (0, 1)):
            found = Resolver(self.folder, H, cache=BESIDE)
            self.assertEqual(found.resolve_frame(H + "b.js", 1, 1).place, "src/a.ts:1:1")
            self.assertEqual([found.stats()[it] for it in ("compiled_made", "compiled_used")], [made, used])
        self.assertEqual(os.listdir(self.folder / "sub"), ["b.js.map"])

    def test_caches_need_a_folder(self):
        with self.assertRaisesRegex(TypeError, "of a folder alone"):
            Resolver({}, cache=BESIDE)


class Block:
    def __init__(self, size: int) -> None:
        self.size = size


class Tables(Case):
    def table(self, size: int = 100, entries: int = 9, missing: int = 2) -> Table:
        self.now, self.loaded = 0.0, []
        return Table(Bounds(size, entries, missing, 60.0), lambda: self.now)

    def get(self, table: Table, key: str, size: int | str = 40) -> object:
        def load() -> Block:
            self.loaded.append(key)
            if isinstance(size, str):
                raise MissingError("gone", size, holds=size != "fault")
            return Block(size)

        try:
            return table.get(key, load, 1)
        except MissingError as error:
            return error.detail

    def loads(self, table: Table, *keys: str) -> str:
        self.loaded.clear()
        for key in keys:
            self.get(table, key)
        return "".join(self.loaded)

    def test_what_was_asked_for_longest_ago_goes_first(self):
        table = self.table()
        self.assertEqual(self.loads(table, "a", "b", "a", "c"), "abc")
        self.assertEqual(table.counts(), {"hits": 1, "misses": 3, "waits": 0, "missing_hits": 0, "expired": 0, "evictions": 1, "bytes_held": 80, "held": 2, "missing_held": 0})
        self.assertEqual(self.loads(table, "a", "c"), "")
        self.assertEqual(self.loads(table, "b", "c", "a"), "ba")
        self.get(table, "huge", 101)
        self.assertEqual((table.counts()["bytes_held"], self.loads(table, "a", "c", "huge")), (80, "huge"))

    def test_entries_are_bounded(self):
        table = self.table(1000, 3)
        self.assertEqual(self.loads(table, "a", "b", "c", "d", "b", "c", "d", "a"), "abcda")

    def test_what_is_missing_is_held_and_bounded(self):
        table = self.table()
        found = [self.get(table, key, f"no {key}") for key in "abacab"]
        self.assertEqual((found, "".join(self.loaded)), ([f"no {it}" for it in "abacab"], "abcb"))
        self.assertEqual((table.counts()["missing_hits"], table.counts()["missing_held"]), (2, 2))
        self.assertEqual([self.get(table, "f", "fault"), self.get(table, "f", 1).size], ["fault", 1])

    def test_what_is_held_expires(self):
        table = self.table()
        self.get(table, "a"), self.get(table, "b", "no")
        self.now = 59.9
        self.assertEqual(self.loads(table, "a"), "")
        self.assertEqual(self.get(table, "b", "no"), "no")
        self.now = 60.0
        self.assertEqual(self.loads(table, "a", "b"), "ab")
        self.assertEqual((table.counts()["expired"], table.counts()["bytes_held"]), (2, 80))
        table.clear()
        self.assertEqual((self.loads(table, "a"), table.counts()["bytes_held"]), ("a", 40))

    def test_what_is_let_go_is_freed_outside_of_the_lock(self):
        table, is_locked = self.table(), []

        class Watched(Block):
            def __del__(self) -> None:
                is_locked.append(table._lock.locked())

        for key in "abcd":
            table.get(key, lambda: Watched(40), 1)
        self.now = 60.0
        table.get("d", lambda: Watched(40), 1)
        table.clear()
        self.assertEqual(is_locked, [False] * 5)

    def test_threads_that_ask_for_one_load_it_once(self):
        table, inside, go = self.table(), threading.Event(), threading.Event()
        found: list[object] = []

        def load() -> Block:
            self.loaded.append("a")
            inside.set()
            self.assertTrue(go.wait(30))
            return Block(1)

        def other() -> None:
            self.assertTrue(inside.wait(30))
            with self.assertRaises(TimeoutError):
                table.get("a", load, 0.01)
            # (the lock is not held meanwhile)
            self.get(table, "b")
            threading.Timer(0.1, go.set).start()
            found.append(table.get("a", load, 30))

        self.together(lambda: found.append(table.get("a", load, 30)), other, other)
        self.assertEqual((sorted(self.loaded), len(set(map(id, found)))), (["a", "b"], 1))

    def test_a_fault_of_the_one_that_loads_is_told_to_all(self):
        table, inside = self.table(), threading.Event()

        def load() -> Block:
            inside.set()
            time.sleep(0.1)
            raise MemoryError

        def first() -> None:
            with self.assertRaises(MemoryError):
                table.get("a", load, 30)

        def other() -> None:
            self.assertTrue(inside.wait(30))
            with self.assertRaisesRegex(MissingError, "MemoryError"):
                table.get("a", load, 30)

        self.together(first, other)
        self.assertEqual(self.get(table, "a").size, 40)

    def test_many_threads(self):
        table = self.table(2000, 50)

        def run(seed: int) -> None:
            for k in range(4000):
                key = (k * seed) % 101
                self.assertEqual(table.get(key, lambda: Block(key), 30).size, key)

        self.together(*(lambda seed=seed: run(seed) for seed in (3, 7, 11, 13)))
        counts = table.counts()
        self.assertEqual(sum(counts[it] for it in ("hits", "misses", "waits")), 16_000)
        self.assertEqual(counts["bytes_held"], sum(value.size for value, _ in table._held.values()))
        self.assertLessEqual(counts["bytes_held"], 2000)


class Bounded(InFolder):
    def test_maps_held(self):
        names = [f"{k}.js" for k in range(6)]
        store = Counting({f"{name}.map": MAP for name in names})
        found = Resolver(store, limits=Limits(held_maps=3, held_missing=2), beside_first=True)
        for name in [*names, "5.js", "4.js", "3.js", "0.js"]:
            self.assertEqual(found.resolve_frame(name, 1, 1).place, "src/a.ts:1:1")
        self.assertEqual(store.asked, [f"{it}.map" for it in [*names, "0.js"]])
        stats = found.stats()
        self.assertEqual([stats[it] for it in ("hits", "misses", "evictions", "held", "frames", "resolved")], [3, 7, 4, 3, 10, 10])
        self.assertEqual(stats["bytes_held"], 3 * (2048 + len(SourceMap.from_json(MAP).compile())))
        found.clear()
        self.assertEqual(found.stats()["bytes_held"], 0)

    def test_what_is_new_is_seen_once_time_is_over(self):
        now = [0.0]
        found = Resolver(self.folder, H, limits=Limits(held_seconds=5), clock=lambda: now[0])

        def places() -> list[str | None]:
            return [found.resolve_frame(H + it, 1, 1).place for it in ("app.js", "b.js")]

        self.assertEqual(places(), ["src/a.ts:1:1", None])
        write(self.folder, {"app.js.map": OTHER, "b.js.map": MAP})
        self.assertEqual(places(), ["src/a.ts:1:1", None])
        now[0] = 5.0
        self.assertEqual(places(), ["src/c.ts:1:1", "src/a.ts:1:1"])

    def test_what_cannot_be_a_resolver(self):
        file = os.path.join(self.folder, "file")
        open(file, "w").close()
        self.assertRaises(FileNotFoundError, Resolver, os.path.join(self.folder, "none"), H)
        self.assertRaises(NotADirectoryError, Resolver, file, H)
        self.assertRaisesRegex(TypeError, "base is 5", Resolver, {}, 5)
        self.assertRaisesRegex(TypeError, "limits is {}", Resolver, {}, H, limits={})
        self.assertRaisesRegex(ValueError, "the limit frames is -1", Limits, frames=-1)
        self.assertRaisesRegex(ValueError, "the limit seconds is nan", Limits, seconds=float("nan"))
        self.assertRaisesRegex(TypeError, "the limit frames is None", Limits, frames=None)
        self.assertRaisesRegex(TypeError, "the trace is None", Resolver({}).resolve, None)

    def test_bytes_of_a_trace(self):
        found = Resolver({}, limits=Limits(trace_bytes=8))
        self.assertEqual(found.resolve_text("üüüü"), "üüüü")
        for trace, length in (("üüüüx", 9), (b"123456789", 9)):
            with self.assertRaisesRegex(TooLargeError, f"the trace has {length} bytes, and the limit is 8") as caught:
                found.resolve_text(trace)
            self.assertEqual((caught.exception.length, caught.exception.limit), (9, 8))
        self.assertEqual((found.stats()["traces"], found.stats()["traces_refused"]), (1, 2))

    def test_frames_of_a_trace(self):
        found = Resolver({"app.js.map": MAP}, limits=Limits(frames=2))
        self.assertEqual(found.resolve_text("f@app.js:1:1\n" * 4), "f@src/a.ts:1:1\n" * 2 + "f@app.js:1:1\n" * 2)
        stats = found.stats()
        self.assertEqual([stats[it] for it in ("frames", "resolved", "not_resolved_frames", "misses")], [4, 2, 2, 1])

    def test_time_of_a_trace(self):
        now = [0.0]

        class Slow(dict):
            def get(self, name: str) -> bytes | None:
                now[0] += 3
                return super().get(name)

        found = Resolver(Slow({"a.js.map": MAP, "b.js.map": MAP}), limits=Limits(seconds=5), beside_first=True, clock=lambda: now[0])
        reasons = [it.reason for it in found.resolve("f@a.js:1:1\nf@b.js:1:1\nf@c.js:1:1\nf@a.js:1:1")]
        self.assertEqual(reasons, [None, None, Reason.TIME, Reason.TIME])

    def test_a_store_that_fails_is_asked_again(self):
        class Failing(dict):
            fails = True

            def get(self, name: str) -> bytes | None:
                if self.fails:
                    raise OSError(5, "it failed")
                return super().get(name)

        store = Failing({"app.js.map": MAP})
        found = Resolver(store)
        self.assertEqual(self.reason(found.resolve_frame("app.js", 1, 1)), "store: OSError: [Errno 5] it failed")
        store.fails = False
        self.assertEqual(found.resolve_frame("app.js", 1, 1).place, "src/a.ts:1:1")

    def test_what_is_let_go_is_freed_at_once(self):
        for k in range(20):
            write(self.folder, {f"{k}.js.map": MAP})
        found = Resolver(self.folder, cache=BESIDE, limits=Limits(held_maps=2))
        trace = "f@no.js:1:1\n" + "".join(f"f@{k}.js:1:1\n" for k in range(20)) + "f@none.js:1:1\n"
        gc.collect()
        gc.disable()
        self.addCleanup(gc.enable)
        others = {id(it) for it in gc.get_objects() if isinstance(it, CompiledMap)}
        for _ in range(3):
            self.assertEqual(found.resolve_text(trace).count("src/a.ts"), 20)
        self.assertEqual(sum(isinstance(it, CompiledMap) and id(it) not in others for it in gc.get_objects()), 2)

    def test_a_trace_of_many_codes_uses_few_descriptors(self):
        most = 0

        class Watched(Folder):
            def open(self, name: str) -> object:
                nonlocal most
                most = max(most, len(os.listdir("/proc/self/fd")))
                return super().open(name)

        for k in range(300):
            write(self.folder, {f"{k}.js.map": MAP})
        found = Resolver(Watched(self.folder), cache=BESIDE, limits=Limits(held_maps=2), beside_first=True)
        before = len(os.listdir("/proc/self/fd"))
        self.assertEqual(found.resolve_text("".join(f"f@{k}.js:1:1\n" for k in range(300))).count("src/a.ts"), 300)
        self.assertLess(most - before, 80)

    def test_threads_share_a_resolver(self):
        names = [f"{k}.js" for k in range(8)]
        store = Counting({f"{name}.map": MAP for name in names})
        found = Resolver(store, beside_first=True)
        trace = "".join(f"f@{name}:1:14\ng@{name}:2:1\n" for name in names)
        wanted = "f@src/a.ts:2:3\ng@src/b.ts:5:1\n" * 8

        def run() -> None:
            for _ in range(50):
                self.assertEqual(found.resolve_text(trace), wanted)

        self.together(*[run] * 6)
        self.assertEqual(sorted(store.asked), sorted(f"{it}.map" for it in names))
        stats = found.stats()
        self.assertEqual((stats["frames"], stats["resolved"], stats["traces"]), (4800, 4800, 300))
        # (each trace asks once for each code)
        self.assertEqual((stats["hits"] + stats["misses"] + stats["waits"], stats["misses"]), (2400, 8))

    def test_time_of_what_another_thread_reads(self):
        inside, go = threading.Event(), threading.Event()

        class Blocked(dict):
            def get(self, name: str) -> bytes | None:
                inside.set()
                go.wait(60)
                return super().get(name)

        found = Resolver(Blocked({"app.js.map": MAP}), limits=Limits(seconds=0.2), beside_first=True)

        def other() -> None:
            self.assertTrue(inside.wait(30))
            start = time.monotonic()
            self.assertEqual(found.resolve_frame("app.js", 1, 1).reason, Reason.TIME)
            self.assertLess(time.monotonic() - start, 10)
            go.set()

        self.together(lambda: found.resolve_frame("app.js", 1, 1), other, seconds=30)
        self.assertEqual(found.resolve_frame("app.js", 1, 1).place, "src/a.ts:1:1")


class Contexts(Case):
    def test_lines(self):
        lines = resolver.Lines("a\nb\r\nc\rd\u2028e\u2029\n")
        self.assertEqual([lines.line(k) for k in range(len(lines))], ["a", "b", "c", "d", "e", "", ""])
        self.assertEqual(lines.around(1, 2), (0, 1, ["a", "b", "c", "d"]))
        self.assertEqual(lines.around(6, 1), (5, 6, ["", ""]))
        for number in (-1, 7):
            with self.assertRaisesRegex(IndexError, f"there is no line {number}: there are 7"):
                lines.line(number)

    def test_of_a_frame(self):
        value = {**VALUE, "sourcesContent": ["one\ntwo\nthree", None]}
        store = Counting({"app.js.map": json.dumps(value).encode()})
        found = Resolver(store)
        frame = found.resolve_frame("app.js", 1, 14)
        self.assertEqual(found.context(frame, 1), (0, 1, ["one", "two", "three"]))
        self.assertEqual(found.context(frame, 0), (1, 1, ["two"]))
        self.assertIsNone(found.context(found.resolve_frame("app.js", 2, 1)))
        self.assertIsNone(found.context(found.resolve_frame("no.js", 1, 1)))
        self.assertIsNone(found.context(frame._replace(line=3)))
        self.assertEqual(found.stats()["context_bytes_held"], 4 * 13 + 16 * 3)
        # Another map in its place.
        store["app.js.map"] = json.dumps({**value, "sources": ["c.ts", "b.ts"]}).encode()
        found.clear()
        self.assertIsNone(found.context(frame, 1))
        with self.assertRaisesRegex(ValueError, "below 0"):
            found.context(frame, -1)


class Described(InFolder):
    def test_the_example_of_the_document(self):
        text = (TOP / "docs/resolving-at-scale.md").read_text(encoding="utf-8")
        code = text.split("```python\n")[1].split("```")[0]
        env = {**os.environ, "PYTHONPATH": str(Path(resolver.__file__).parents[1])}
        said = subprocess.run([sys.executable, "-c", code], cwd=self.room, env=env, stdout=subprocess.PIPE, text=True, check=True).stdout
        self.assertEqual(said, "    at t (src/a.ts:2:3)\nsrc/a.ts 1 2 run None\n")

    def test_all_is_described(self):
        for name in resolver.__all__:
            value = getattr(resolver, name)
            if isinstance(value, type):
                self.assertTrue(value.__doc__, name)
                for key, it in vars(value).items():
                    self.assertTrue(key.startswith("_") or not callable(it) or ">>>" in (it.__doc__ or ""), (name, key))


class Soaked(Case):
    def test_some_seconds(self):
        env = {**os.environ, "PYTHONPATH": str(Path(resolver.__file__).parents[1])}
        ran = subprocess.run([sys.executable, str(TOP / "bindings/python/soak.py"), "0.05"], capture_output=True, text=True, env=env)
        self.assertEqual(ran.returncode, 0, ran.stdout + ran.stderr)


if __name__ == "__main__":
    unittest.main()
