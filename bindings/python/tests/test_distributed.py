"""The resolver on several workers: by a client of the tests' own, and, where dask.distributed is installed, by that, one of whose workers is
ended meanwhile."""

from __future__ import annotations

import importlib.util
import json
import os
import random
import signal
import tempfile
import threading
import unittest
import warnings
from pathlib import Path
from unittest import mock

from support import Case
from test_resolver import MAP, write

import oxc_sourcemap
from oxc_sourcemap.distributed import Frame, Settings, resolve_frames
from oxc_sourcemap.resolver import Reason

# Generated line L, column 0 of code K is line L, column 3 of K.ts: by hand, and clamped to the last line.
CODES, LINES = 40, 50


def map_of(k: int) -> bytes:
    mappings = "AAAG" + ";AACA" * (LINES - 1)
    return json.dumps({"version": 3, "sources": [f"{k}.ts"], "names": [], "mappings": mappings}).encode()


class Client:
    """A client that runs each part when its answer is asked for, the last one first."""

    def __init__(self) -> None:
        self.parts: list[list[tuple[str, int, int]]] = []

    def submit(self, call, settings, frames, *, pure: bool, retries: int):
        assert (pure, retries) == (False, 3)
        self.parts.append(frames)
        return lambda: call(settings, frames)

    def gather(self, futures):
        return [it() for it in reversed(futures)][::-1]


class Distributed(Case):
    def setUp(self) -> None:
        room = tempfile.TemporaryDirectory()
        self.addCleanup(room.cleanup)
        self.folder = room.name
        write(self.folder, {f"{k}.js.map": map_of(k) for k in range(CODES)})
        self.settings = Settings(self.folder, "http://h/", writes_beside=True, beside_first=True)

    def frames(self, count: int) -> list[Frame]:
        chosen = random.Random(1)
        return [Frame(f"http://h/{chosen.randrange(CODES)}.js", chosen.randrange(1, LINES + 1), 1 + n % 9) for n in range(count)]

    def are_right(self, frames: list[Frame], found: list) -> None:
        places = [f"{frame.url[9:-3]}.ts:{frame.line}:4" for frame in frames]
        self.assertEqual([it.frame for it in found], frames)
        self.assertEqual([it.place for it in found], places)

    def test_frames_keep_their_order(self):
        frames, client = self.frames(5000), Client()
        self.are_right(frames, list(resolve_frames(client, iter(frames), self.settings, window=900, part=100)))
        self.assertEqual(sum(map(len, client.parts)), 5000)
        self.assertLessEqual(max(map(len, client.parts)), 100)
        # (a part of 100 of 900 frames of 40 codes, in the order of these, has few of them)
        self.assertLessEqual(max(len({url for url, _, _ in part}) for part in client.parts), 12)

    def test_what_is_read_at_once_is_bounded(self):
        read = 0

        def frames():
            nonlocal read
            for frame in self.frames(1000):
                read += 1
                yield frame

        found = resolve_frames(Client(), frames(), self.settings, window=100, part=50)
        next(found)
        self.assertEqual(read, 300)
        self.assertEqual(len(list(found)), 999)
        with self.assertRaisesRegex(ValueError, "at least one frame"):
            next(resolve_frames(Client(), [], self.settings, part=0))

    def test_settings(self):
        write(self.folder, {"sub/app.js.map": MAP})
        settings = Settings(self.folder, (("http://h/x/", "sub"),), cache=os.path.join(self.folder, "cache"), beside_first=True)
        found = list(resolve_frames(Client(), [Frame("http://h/x/app.js", 1, 14), Frame("http://g/app.js", 1, 1)], settings))
        self.assertEqual([found[0].place, found[0].name, found[1].reason], ["src/a.ts:2:3", "run", Reason.OUTSIDE])
        self.assertEqual(len(os.listdir(os.path.join(self.folder, "cache"))), 1)

    @unittest.skipUnless(importlib.util.find_spec("distributed"), "dask.distributed is not installed")
    def test_a_worker_is_ended(self):
        with warnings.catch_warnings():
            # (those of the engine)
            warnings.simplefilter("ignore")
            self.end_one_of_three(self.frames(int(os.environ.get("FRAMES", 60_000))))

    def end_one_of_three(self, frames: list[Frame]) -> None:
        from distributed import Client as Real
        from distributed import LocalCluster

        paths = [str(Path(oxc_sourcemap.__file__).parents[1]), os.environ.get("PYTHONPATH", "")]
        with mock.patch.dict(os.environ, PYTHONPATH=os.pathsep.join(filter(None, paths))):
            with LocalCluster(n_workers=3, threads_per_worker=1, dashboard_address=None) as cluster, Real(cluster) as client:
                one = next(iter(client.run(os.getpid).values()))
                threading.Timer(0.3, os.kill, (one, signal.SIGKILL)).start()
                found = list(resolve_frames(client, frames, self.settings, window=20_000, part=500))
                self.are_right(frames, found)
                self.assertNotIn(one, client.run(os.getpid).values())


if __name__ == "__main__":
    unittest.main()
