"""soak.py MINUTES [SEED]: a resolver under random maps, sizes, threads and faults, for so long (0.05 in the tests).

Threads resolve traces of random frames, while another one puts new maps in place of old ones, takes maps away, damages and dates compiled
maps, and the store fails now and then. Each map names its number and version as its source, so that each answer can be told to be right,
and no older than the resolver may hold it. It ends with status 1 if a frame is lost or wrong, if what is held passes its limits, or if
memory or descriptors grow.
"""

from __future__ import annotations

import errno
import json
import os
import random
import re
import sys
import tempfile
import threading
import time
from pathlib import Path
from typing import Optional

sys.path.append(str(Path(__file__).resolve().parent / "src"))

from oxc_sourcemap._stores import Opened, replace_file
from oxc_sourcemap.resolver import BESIDE, Folder, Limits, Reason, Resolved, Resolver, TooLargeError

MAPS, THREADS, LINES, HELD = 60, 6, 40, 0.2
# For how long a version may be answered with once another one is in its place: as long as it is held, and a thread waits for its turn.
SLACK = HELD + 4
LIMITS = Limits(trace_bytes=20_000, frames=200, seconds=5, held_bytes=400_000, held_maps=25, held_missing=10, held_seconds=HELD, held_context_bytes=200_000)  # fmt: skip


class Faulty(Folder):
    """A folder that fails now and then."""

    def open(self, name: str) -> Optional[Opened]:
        if random.random() < 0.02:
            raise OSError(errno.EIO, "a fault of the soak")
        return super().open(name)


class Soak:
    def __init__(self, folder: str, seed: int) -> None:
        self.folder, self.chosen = Path(folder), random.Random(seed)
        self.resolver = Resolver(Faulty(folder), "http://h/", cache=BESIDE, limits=LIMITS)
        self.replaced: list[dict[int, float]] = [{} for _ in range(MAPS)]
        self.current = [0] * MAPS
        self.faults: list[str] = []
        self.traces = self.frames = self.resolved = 0
        self.lock, self.ends = threading.Lock(), threading.Event()

    # ---- what is written ----

    def put(self, k: int) -> None:
        """A new version of a map: generated line L, column 2 C is line L + C of its source, column C. All versions have as many bytes."""
        version = self.current[k] + 1
        text = "x\n" * (50 * (k % 9))
        lines = [("AAAA" if n == 0 else "AAvCxC") + ",EACC" * LINES for n in range(LINES)]
        value = {"version": 3, "sources": [f"{k}-{version:09}.ts"], "names": [], "sourcesContent": [text], "mappings": ";".join(lines)}
        path = str(self.folder / f"{k}.js.map")
        replace_file(path, json.dumps(value).encode(), 0o644, time.time_ns())
        with self.lock:
            self.replaced[k][self.current[k]] = time.monotonic()
            self.current[k] = version

    def change(self) -> None:
        k, kind = self.chosen.randrange(MAPS), self.chosen.random()
        path = self.folder / f"{k}.js.map"
        compiled = self.folder / f"{k}.js.map.smc"
        if kind < 0.6:
            self.put(k)
        elif kind < 0.7:
            with self.lock:
                self.replaced[k][self.current[k]] = time.monotonic()
            path.unlink(missing_ok=True)
        elif compiled.exists():
            # (a whole one never gets a later time, by which it would count as that of the map that is there now)
            before = os.stat(compiled).st_mtime_ns
            data = compiled.read_bytes()
            if kind < 0.85:
                replace_file(str(compiled), data[: self.chosen.randrange(len(data))], 0o644, time.time_ns())
            else:
                replace_file(str(compiled), data, 0o644, self.chosen.choice((0, before)))

    def write(self) -> None:
        while not self.ends.wait(0.05):
            self.change()

    # ---- what is asked ----

    def is_right(self, found: Resolved, k: int, start: float) -> bool:
        """Whether an answer is that of a version that was there, or may still be held."""
        if found.reason is not None:
            return found.reason in (Reason.STORE, Reason.NOT_THERE, Reason.TIME)
        said = re.fullmatch(r"(\d+)-(\d+)\.ts", found.source or "")
        if not said or int(said[1]) != k:
            return False
        with self.lock:
            gone = self.replaced[k].get(int(said[2]))
            is_known = int(said[2]) <= self.current[k] + 1
        column = min((found.frame.column - 1) // 2, LINES)
        is_there = (found.line, found.column) == (found.frame.line - 1 + column, column)
        return is_known and is_there and (gone is None or gone > start - SLACK)

    def trace(self, chosen: random.Random) -> None:
        count = chosen.choice((1, 5, 30, 250, 2000))
        frames = [(chosen.randrange(MAPS), chosen.randrange(LINES), chosen.randrange(3 * LINES)) for _ in range(count)]
        text = "Error: x\n" + "".join(f"    at f (http://h/{k}.js:{line + 1}:{column + 1})\n" for k, line, column in frames)
        start = time.monotonic()
        try:
            found = self.resolver.resolve(text)
        except TooLargeError:
            if len(text) <= LIMITS.trace_bytes:
                self.faults.append("a trace within the limit is refused")
            return
        if len(found) != count:
            self.faults.append(f"{count} frames, {len(found)} answers")
        wrong = [it for it, (k, _, _) in zip(found[: LIMITS.frames], frames) if not self.is_right(it, k, start)]
        wrong += [it for it in found[LIMITS.frames :] if it.reason is not Reason.FRAMES]
        self.faults += [f"wrong: {it}" for it in wrong]
        self.resolver.context(chosen.choice(found), 2)
        with self.lock:
            self.traces, self.frames = self.traces + 1, self.frames + count
            self.resolved += sum(it.reason is None for it in found)

    def ask(self, seed: int) -> None:
        chosen = random.Random(seed)
        try:
            while not self.ends.is_set():
                self.trace(chosen)
        except BaseException as error:
            self.faults.append(f"a thread ended: {error!r}")
            raise

    # ---- what is held ----

    def check(self) -> None:
        stats = self.resolver.stats()
        if stats["bytes_held"] > LIMITS.held_bytes or stats["held"] > LIMITS.held_maps or stats["missing_held"] > LIMITS.held_missing:
            self.faults.append(f"more is held than the limits: {stats}")
        if stats["context_bytes_held"] > LIMITS.held_context_bytes:
            self.faults.append(f"more contents are held than the limit: {stats}")

    def run(self, seconds: float) -> int:
        for k in range(MAPS):
            self.put(k)
        threads = [threading.Thread(target=self.ask, args=(seed,)) for seed in range(THREADS)] + [threading.Thread(target=self.write)]
        for thread in threads:
            thread.start()
        begin, used, checks = time.monotonic(), [], 0
        while time.monotonic() < begin + seconds and not self.faults:
            time.sleep(min(seconds / 8, 1))
            self.check()
            used.append((resident(), len(os.listdir("/proc/self/fd"))))
        self.ends.set()
        for thread in threads:
            thread.join()
        return self.told(used)

    def told(self, used: list[tuple[int, int]]) -> int:
        """Prints what was done, and the first faults; the status."""
        stats = self.resolver.stats()
        if (stats["frames"], stats["resolved"], stats["traces"]) != (self.frames, self.resolved, self.traces):
            self.faults.append(f"other counts: {stats}, not {self.frames}, {self.resolved}, {self.traces}")
        if stats["frames"] != stats["resolved"] + sum(count for name, count in stats.items() if name.startswith("not_resolved_")):
            self.faults.append(f"reasons do not sum up: {stats}")
        early, late = used[len(used) // 4], used[-1]
        # (each trace has 64 maps in use at most)
        if late[0] > early[0] * 1.3 + 20_000 or max(it for _, it in used) > LIMITS.held_maps + 64 * THREADS + 100:
            self.faults.append(f"memory (kB) or descriptors grow: {early}, then {late}")
        print(f"{self.traces} traces, {self.frames} frames, {self.resolved} resolved; {early[0]} then {late[0]} kB, {early[1]} then {late[1]} descriptors")
        print({name: count for name, count in stats.items() if count})
        print(f"{len(self.faults)} faults", *self.faults[:5], sep="\n")
        return 1 if self.faults else 0


def resident() -> int:
    """The memory of this process, in kB."""
    return int(re.search(r"VmRSS:\s+(\d+)", Path("/proc/self/status").read_text())[1])  # type: ignore[index]


def main() -> int:
    with tempfile.TemporaryDirectory() as folder:
        return Soak(folder, int(sys.argv[2]) if len(sys.argv) > 2 else 1).run(60 * float(sys.argv[1]))


if __name__ == "__main__":
    sys.exit(main())
