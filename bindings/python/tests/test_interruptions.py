"""Calls that interrupt a call of their own thread, as __index__, finalizers and handlers of signals do: reading works, what would wait
for that call raises RuntimeError, and nothing waits for itself. Scripts run in processes of their own, which are ended if they do."""

import os
import subprocess
import sys
import textwrap
import threading
import time
import unittest
from pathlib import Path
from unittest import mock

from support import Case, read

import oxc_sourcemap
from oxc_sourcemap import SourceMap, SourceMapBuilder, SourceMapJoin, _handle, _lookups

HEAD = """
import gc, random, signal, sys, threading, time
from oxc_sourcemap import SourceMap, SourceMapBuilder, SourceMapJoin, _lookups
TEXT = '{"version":3,"sources":["a.ts"],"names":["f"],"mappings":"AAEA,IAAIA"}'
FOUND = ("a.ts", 2, 4, "f")
"""


def ran(script: str, seconds: float = 60) -> str:
    """What a script prints, which has to end in this time with status 0."""
    env = {**os.environ, "PYTHONPATH": str(Path(oxc_sourcemap.__file__).parents[1])}
    command = [sys.executable, "-c", HEAD + textwrap.dedent(script)]
    return subprocess.run(command, stdout=subprocess.PIPE, check=True, env=env, timeout=seconds, text=True).stdout.strip()


class Line:
    """A number that does something when it is read."""

    def __init__(self, call):
        self.call = call

    def __index__(self):
        self.call()
        return 0


class Interruptions(Case):
    def changes(self, map):
        return (
            map.close, map.sort, map.simplify, map.index_sources, map.apply_source_root, lambda: map.set_file("b.js"),
            lambda: map.set_sources(["a"]), lambda: map.set_ignore_list([0]),
        )  # fmt: skip

    def test_a_number_that_changes_the_map(self):
        map = read()

        def all_changes():
            for change in self.changes(map):
                # (also before this thread has read the map since it was changed)
                for _ in range(2):
                    with self.assertRaisesRegex(RuntimeError, "is being read by a call that this one interrupts"):
                        map.trace(Line(change), 4)
                self.assertEqual(map.trace(0, 4)[:4], ("a.ts", 0, 9, "hi"))
                map.set_file("out.js")

        self.together(all_changes, seconds=20)
        self.assertEqual((map.file, map.closed, map.sources), ("out.js", False, ["a.ts", "b.ts"]))

    def test_a_number_that_reads_the_map(self):
        map, said = read(), []

        def reads():
            self.assertRaises(RuntimeError, map.close)
            said.append((map.trace(0, 0)[:3], map.file, map.first_difference(map), len(SourceMap.join([(map, 0, 0)]))))

        self.together(lambda: self.assertEqual(map.trace(Line(reads), 4)[:4], ("a.ts", 0, 9, "hi")), seconds=20)
        self.assertEqual(said, [(("a.ts", 0, 0), "out.js", None, 4)])

    def test_what_interrupts_a_call_for_which_another_thread_waits(self):
        map = read()

        def interrupts():
            changing.start()
            while map._leases:
                time.sleep(0.001)
            for change in self.changes(map):
                self.assertRaises(RuntimeError, change)
            self.assertEqual((map.file, map.trace(0, 4).name, map.first_difference(map)), ("out.js", "hi", None))
            self.assertEqual(SourceMap.join([(map, 0, 0)]).sources, map.sources)
            ended.append(True)

        for reading in (lambda: map._read(lambda at: interrupts()), lambda: map.trace(Line(interrupts), 0),
                        lambda: SourceMap._read_all([map, map], lambda at: interrupts())):  # fmt: skip
            ended, changing = [], threading.Thread(target=lambda: map.set_file("c.js"), daemon=True)
            self.together(reading, seconds=20)
            changing.join(20)
            self.assertEqual((ended, changing.is_alive(), map.file), ([True], False, "c.js"))
            map.set_file("out.js")

    def test_a_join_holds_no_map_while_it_waits(self):
        map, join, adding = read(), SourceMapJoin(), threading.Event()

        def finishes(at):
            # What interrupts this, as a finalizer may, changes the map that the other thread is about to add.
            adding.set()
            time.sleep(0.2)
            map.set_file("b.js")
            return 0

        def adds():
            adding.wait(60)
            join.add(map, 7)

        self.together(lambda: join._coded(finishes), adds, seconds=20)
        self.assertEqual((map.file, len(join.finish())), ("b.js", 4))

    def test_a_join_is_not_held_while_it_waits_for_a_map(self):
        map, join, changed, added = read(), SourceMapJoin(), threading.Event(), []
        changing = threading.Thread(target=lambda: map._exclusively(lambda at: changed.wait(60)), daemon=True)
        adding = threading.Thread(target=lambda: (join.add(map, 0), added.append(map._is_changed)), daemon=True)
        for thread in changing, adding:
            thread.start()
            time.sleep(0.1)
        self.together(lambda: self.assertEqual(len(join.finish()), 0), seconds=20)
        changed.set()
        for thread in changing, adding:
            thread.join(20)
        self.assertEqual((added, len(join.finish())), ([False], 4))

    def test_a_finalizer_in_a_lookup(self):
        # From CPython 3.12 on the collector does not run in the midst of a call in C.
        said = ran(
            """
            class Session:
                def __init__(self, map):
                    self.map, self.me = map, self
                def __del__(self):
                    try:
                        self.map.close()
                    except RuntimeError as error:
                        refused.append((self.map, str(error)))
            refused, inside = [], sys.version_info < (3, 12) or _lookups.trace.__module__ == "oxc_sourcemap._plain"
            for turn in range(1_000_000 if inside else 2_000):
                map = SourceMap.from_json(TEXT)
                map.trace(0, 0)
                Session(map)
                try:
                    kept = [map.trace(0, column) for column in range(300)]
                except ValueError as error:
                    assert str(error) == "The map is closed"
                if refused:
                    break
            for map, said in refused:
                assert said == "The map is being read by a call that this one interrupts"
                assert map.trace(0, 5)[:4] == FOUND
                map.set_file("b.js")
                map.close()
            print(len(refused) if inside else 1)
            """
        )
        self.assertEqual(said, "1")

    def test_a_finalizer_with_a_collector_that_runs_always(self):
        said = ran(
            """
            class Session:
                def __init__(self, map):
                    self.map, self.me = map, self
                def __del__(self):
                    try:
                        self.map.set_file("b.js")
                        self.map.close()
                    except RuntimeError:
                        pass
            for threshold in 1, 2, 3, 5, 7, 11:
                map = SourceMap.from_json(TEXT)
                Session(map)
                gc.set_threshold(threshold)
                for call in [lambda: map.trace(0, 5), lambda: map.file, lambda: map.trace_all([(0, 5)]), lambda: map.sort()] * 9:
                    try:
                        call()
                    except ValueError as error:
                        assert str(error) == "The map is closed"
            print("ended")
            """
        )
        self.assertEqual(said, "ended")

    def test_finalizers_of_a_cycle(self):
        # What such a finalizer uses may be freed already.
        said = ran(
            """
            class Session:
                def __init__(self, *all):
                    self.all, self.me = all, self
                def __del__(self):
                    for it in self.all:
                        for call in "to_json", "finish", "close", "to_json", "finish":
                            try:
                                getattr(it, call, lambda: None)()
                            except ValueError as error:
                                said.append(str(error))
            said = []
            for _ in range(100):
                session = Session(SourceMap.from_json(TEXT), SourceMapBuilder(), SourceMapJoin())
                session.all[0].trace(0, 5)
                del session
                gc.collect()
            print(len(said), *sorted(set(said)), sep=", ")
            """
        )
        self.assertEqual(said, "600, The SourceMapBuilder is closed, The SourceMapJoin is closed, The map is closed")

    def test_handlers_of_signals(self):
        # After a storm of them, of which some raise, no lock and no lease is left. (An error of a handler that comes while another one
        # ends a `with` may leave its lock, before CPython 3.11.)
        said = ran(
            """
            class Stop(Exception):
                pass
            def tried(call):
                try:
                    return call()
                except RuntimeError as error:
                    assert "that this one interrupts" in str(error), error
            map, builder, join, chosen = SourceMap.from_json(TEXT), SourceMapBuilder(), SourceMapJoin(), random.Random(1)
            calls = [
                lambda: map.trace(0, 5), lambda: map.file, lambda: map.first_difference(map), lambda: map.set_file("b.js"), map.sort,
                lambda: builder.add_name("a"), builder.finish, lambda: join.add(map, 0), join.finish,
            ]
            sys.unraisablehook = lambda it: None
            def handler(number, frame):
                global depth, stops
                depth += 1
                signal.setitimer(signal.ITIMER_REAL, 0.0002 if depth < 3 else 0)
                tried(chosen.choice(calls))
                depth -= 1
                signal.setitimer(signal.ITIMER_REAL, 0.0002)
                if stops and raises and chosen.random() < 0.3:
                    stops = False
                    raise Stop
            signal.signal(signal.SIGALRM, handler)
            ends, stopped, raises = time.monotonic() + 2, 0, sys.version_info >= (3, 11)
            while time.monotonic() < ends:
                try:
                    depth, stops = 0, True
                    signal.setitimer(signal.ITIMER_REAL, 0.0002)
                    for _ in range(100):
                        tried(chosen.choice(calls))
                    stops = False
                except Stop:
                    stopped += 1
            signal.signal(signal.SIGALRM, signal.SIG_IGN)
            signal.setitimer(signal.ITIMER_REAL, 0)
            def ends_well():
                map.set_file("c.js")
                builder.finish(), join.finish()
                done.append(map.trace(0, 5)[:4] == FOUND and map.file == "c.js")
                map.close(), builder.close(), join.close()
            done, thread = [], threading.Thread(target=ends_well)
            thread.start()
            thread.join()
            print(done, map.closed and builder.closed and join.closed, not raises or stopped > 9)
            """
        )
        self.assertEqual(said, "[True] True True")

    def test_what_interrupts_the_taking_of_a_lock(self):
        all = map, builder, join = read(), SourceMapBuilder(), SourceMapJoin()

        def interrupted():
            for it in all:
                with it._lock:
                    for call in (map.sort, map.is_sorted) if it is map else (it.finish,):
                        call()
                    it.close()

        self.together(interrupted, seconds=20)
        self.assertTrue(map.closed and builder.closed and join.closed)


class Leases(Case):
    def test_threads_that_have_ended_leave_few(self):
        map = read()
        with mock.patch.object(_handle, "get_ident") as thread:

            def reading(at):
                for thread.return_value in range(1000):
                    map.file
                self.assertLessEqual(max(len(map._leases), len(map._held)), _handle.MANY)
                thread.return_value = -1
                self.assertRaises(RuntimeError, map.close)

            thread.return_value = -1
            map._read(reading)
            map.close()
        self.assertTrue(map.closed)

    def test_errors_of_a_closed_map_keep_no_lease(self):
        map, kept = read(), []
        map.close()
        for call in (lambda: map.trace(0, 0), lambda: map.file, lambda: map.first_difference(map), map.sort):
            try:
                call()
            except ValueError as error:
                kept.append(error)
            map.close()
        self.assertEqual([str(it) for it in kept], ["The map is closed"] * 4)


if __name__ == "__main__":
    unittest.main()
