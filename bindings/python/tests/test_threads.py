"""Threads that share maps."""

import threading
import time
import unittest
from array import array
from unittest import mock

from support import TOKENS, Case, read

from oxc_sourcemap import SourceMap, SourceMapBuilder, SourceMapError, Token

LINES = 2000


def large() -> SourceMap:
    numbers = array("I")
    for line in range(LINES):
        for column in range(20):
            numbers.extend((line, 4 * column, line, column, (line + column) % 7, column % 3))
    return SourceMap.from_tokens(numbers, names=["n0", "n1", "n2"], sources=[f"s{i}" for i in range(7)], source_contents=["x" * 100] * 7)


class Threads(Case):
    def test_eight_readers(self):
        map = large()
        positions = array("I", [number for line in range(0, LINES, 3) for number in (line, 41)])
        json = map.to_json()

        def reader(seed):
            for turn in range(300):
                line = (turn * 37 + seed) % LINES
                found = map.trace(line, 41)
                self.assertEqual((found.source, found.line, found.column, found.name), (f"s{(line + 10) % 7}", line, 10, "n1"))
                self.assertEqual(map.get_source(seed % 7), f"s{seed % 7}")
                self.assertEqual(map.get_token(20 * line + 3).dst_col, 12)
                if turn % 30 == 0:
                    self.assertEqual(list(map.find_all(positions)), [20 * line + 10 for line in range(0, LINES, 3)])
                    self.assertEqual(map.trace_all(positions[:20])[9].source, f"s{(27 + 10) % 7}")
                    self.assertEqual((len(map.sources), map.names), (7, ["n0", "n1", "n2"]))
                    self.assertIsNone(map.first_difference(map))
                if turn % 100 == 0:
                    with map.clone() as copy:
                        self.assertEqual(copy.to_json(), json)

        self.together(*[lambda seed=seed: reader(seed) for seed in range(8)])
        self.assertEqual(map.to_json(), json)

    def test_readers_and_changes(self):
        map, done = large(), threading.Event()

        def reader():
            while not done.is_set():
                self.assertIn(map.file, (None, "a" * 10_000, "b" * 10_000))
                self.assertEqual(map.trace(7, 41).source[-2:], "s3")
                self.assertEqual([source[-2:] for source in map.sources], [f"s{i}" for i in range(7)])
                self.assertEqual(map.trace_all([(7, 41), (8, 41)])[1].source[-2:], "s4")

        def changer(text):
            try:
                for turn in range(60):
                    map.set_file(text * 10_000)
                    map.set_sources([f"{text * (turn * 100)}s{i}" for i in range(7)])
                    map.sort()
            finally:
                done.set()

        self.together(*[reader] * 6, lambda: changer("a"), lambda: changer("b"))
        self.assertEqual(len(map), 20 * LINES)

    def test_closed_under_readers(self):
        for _ in range(20):
            map, ended = large(), []

            def reader():
                while True:
                    try:
                        self.assertEqual(map.trace(7, 41).source, "s3")
                        self.assertEqual(len(map.token_array()), 120 * LINES)
                    except ValueError as error:
                        ended.append(str(error))
                        return

            self.together(*[reader] * 4, map.close, map.close)
            self.assertEqual(ended, ["The map is closed"] * 4)

    def test_a_builder(self):
        builder, ids = SourceMapBuilder(), []

        def adder(thread):
            for turn in range(200):
                ids.append((f"{turn}", builder.add_name(f"{turn}")))
                builder.add_token(Token(turn, thread, 0, 0, None, None))

        self.together(*[lambda thread=thread: adder(thread) for thread in range(4)])
        with builder.finish() as map:
            self.assertEqual(len(set(ids)), 200)
            self.assertTrue(all(map.get_name(id) == name for name, id in ids))
            self.assertEqual(sorted(token[:2] for token in map), [(turn, thread) for turn in range(200) for thread in range(4)])

    def test_errors_that_are_kept_keep_no_map(self):
        # A change waits for those that read, and not for the traceback of an error that one of them raised.
        map, other, kept = read(), read(), []
        for call in (
            lambda: map.trace(0, 0, 7), lambda: map.trace("a", 0), lambda: map.trace(-1, 0), lambda: map.trace_all([], 7),
            lambda: map.find_all([], 7), lambda: map.generated(0, 0, 0), lambda: map.all_generated(0, 0, 0), lambda: map.get_name(-1),
            lambda: map.compose(other), lambda: map.first_difference(None), lambda: SourceMap.join([(map, 0, 0), (None, 0, 0)]),
            lambda: map.visualize(b"\xff"), lambda: map._read(lambda at: 1 // 0), lambda: SourceMap._read_all([map], lambda at: 1 // 0),
            lambda: map._exclusively(lambda at: 1 // 0), lambda: map.set_file(b"\xff"),
        ):  # fmt: skip
            # (assertRaises clears the frames of a traceback)
            try:
                call()
            except Exception as error:
                kept.append(error)
            self.together(lambda: map.set_file("b.js"), seconds=10)
        self.assertEqual((map.file, len(kept)), ("b.js", 16))

    def test_a_change_that_is_interrupted(self):
        class Interrupted:
            def wait(self, seconds):
                raise KeyboardInterrupt

            def set(self):
                pass

        reads, reads_on, changed, kept = threading.Event(), threading.Event(), threading.Event(), []
        map = read()
        threading.Thread(target=map._read, args=[lambda at: (reads.set(), reads_on.wait(60))], daemon=True).start()
        reads.wait(60)
        with mock.patch.object(threading, "Event", Interrupted):
            try:
                map.set_file("b.js")
            except KeyboardInterrupt as error:
                kept.append(error)
        self.assertEqual((map.file, len(kept)), ("out.js", 1))
        # The next change waits for the same reader.
        threading.Thread(target=lambda: (map.set_file("c.js"), changed.set()), daemon=True).start()
        self.assertFalse(changed.wait(0.2))
        reads_on.set()
        self.assertTrue(changed.wait(10))
        self.assertEqual(map.file, "c.js")

    def test_calls_that_interrupt_others(self):
        # What the handler of a signal, or a finalizer, does in the midst of a call: reading is fine, and what would wait raises.
        map, builder = read(), SourceMapBuilder()

        def all_calls():
            self.assertEqual(map._read(lambda at: map.file), "out.js")
            for change in map.close, lambda: map.set_file("b.js"):
                self.assertRaises(RuntimeError, map._read, lambda at: change())
                self.assertRaises(RuntimeError, SourceMap._read_all, [map, map], lambda at: change())
                self.assertRaises(RuntimeError, map._exclusively, lambda at: change())
            for reading in lambda: map.file, lambda: map.trace(0, 0), lambda: map.compose(map):
                self.assertRaises(RuntimeError, map._exclusively, lambda at: reading())
            for call in lambda: builder.add_name("a"), builder.close, builder.finish:
                self.assertRaises(RuntimeError, builder._coded, lambda at: call())

        self.together(all_calls, seconds=10)
        self.assertEqual((map.file, map.closed, builder.closed), ("out.js", False, False))
        self.together(lambda: (map.set_file("b.js"), map.close(), builder.close()), seconds=10)
        self.assertTrue(map.closed and builder.closed)

    def test_a_change_waits_for_another_thread(self):
        # (also if this thread has made the change before: what the other has taken is the lock alone)
        map, builder = read(), SourceMapBuilder()
        map.set_file("b.js")
        builder.add_name("a")
        for lock, change in (
            (map._lock, lambda: map.set_file("c.js")), (map._lock, map.close),
            (builder._lock, lambda: builder.set_file("c.js")), (builder._lock, builder.close),
        ):  # fmt: skip
            taken, ends = threading.Event(), threading.Event()
            threading.Thread(target=lambda: (lock.acquire(), taken.set(), time.sleep(0.1), ends.set(), lock.release())).start()
            taken.wait(60)
            change()
            self.assertTrue(ends.is_set())
        self.assertTrue(map.closed and builder.closed)

    def test_what_an_interrupted_change_left(self):
        class Silent(threading.Event):
            def set(self):
                pass

        map, reads, reads_on = read(), threading.Event(), threading.Event()
        map._leases.clear()
        self.assertEqual(map.file, "out.js")
        threading.Thread(target=map._read, args=[lambda at: (reads.set(), reads_on.wait(60))], daemon=True).start()
        reads.wait(60)
        threading.Timer(0.1, reads_on.set).start()
        with mock.patch.object(threading, "Event", Silent):
            map.set_file("b.js")
        self.assertEqual(map.file, "b.js")

    def test_changes_that_fail(self):
        with read() as map:
            for _ in range(3):
                self.assertRaises(SourceMapError, map.set_file, b"\xff")
                self.assertEqual((map.file, map.tokens()), ("out.js", TOKENS))


if __name__ == "__main__":
    unittest.main()
