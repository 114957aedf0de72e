"""bench_resolver.py [COUNT]: what the resolver takes, in time of the processor: frames a second of traces whose maps are held, by one thread
and by four; the first answer of a map that is not held, from its compiled form; and COUNT (10,000) maps in one folder. bench/resolver.js in
bindings/node has the same jobs beside trace-mapping."""

from __future__ import annotations

import json
import random
import resource
import sys
import tempfile
import threading
import time
from pathlib import Path
from statistics import median

sys.path.append(str(Path(__file__).resolve().parent / "src"))

from oxc_sourcemap import Token, encode_mappings
from oxc_sourcemap.resolver import BESIDE, Resolver
from oxc_sourcemap._stores import replace_file

COUNT = int(sys.argv[1]) if len(sys.argv) > 1 else 10_000
H = "https://example.com/"
chosen = random.Random(7)


def value_of(lines: int, content: str = "") -> dict:
    """A map of 50 tokens a line, at columns 0, 7, 14 .."""
    tokens = [Token(line, 7 * at, (line * 50 + at) // 8, at, line % 20, at if at % 4 == 0 else None) for line in range(lines) for at in range(50)]
    names, sources = [f"name{k}" for k in range(500)], [f"src/module{k}.ts" for k in range(20)]
    return {"version": 3, "sources": sources, "names": names, "mappings": encode_mappings(tokens), "sourcesContent": [content] * 20}


def write(room: str, name: str, value: dict) -> None:
    """A map that was written a while ago: of one that is newer than two seconds the hash is compared."""
    replace_file(f"{room}/{name}.map", json.dumps({**value, "file": name}).encode(), 0o644, 10**18)


def trace_of(names: list[str], lines: int, count: int) -> str:
    frames = (f"    at f{k} ({H}{chosen.choice(names)}:{chosen.randrange(lines) + 1}:{7 * chosen.randrange(50) + 1})\n" for k in range(count))
    return "Error: x\n" + "".join(frames)


def frames(room: str) -> None:
    names = ["a.js", "b.js", "c.js"]
    for name in names:
        write(room, name, value_of(2000))
    found = Resolver(room, H, cache=BESIDE, beside_first=True)
    traces = [trace_of(names, 2000, 30) for _ in range(200)]

    def run() -> None:
        for it in traces:
            found.resolve_text(it)

    run()
    for count in (1, 4):
        times = []
        for _ in range(5):
            threads, start = [threading.Thread(target=run) for _ in range(count)], time.process_time()
            for it in threads:
                it.start()
            for it in threads:
                it.join()
            times.append(time.process_time() - start)
        print(f"frames a second of processor time, {count} threads: {6000 * count / min(times):.0f}")


def first(room: str) -> None:
    for lines, content in ((400, ""), (4000, ""), (12_000, "const value = call(first, second);\n" * 4500)):
        write(room, "first.js", value_of(lines, content))
        trace = trace_of(["first.js"], lines, 1)
        Resolver(room, H, cache=BESIDE, beside_first=True).resolve_text(trace)
        times = []
        for _ in range(15):
            start = time.process_time()
            Resolver(room, H, beside_first=True).resolve_text(trace)
            times.append(time.process_time() - start)
        size, own = (Path(room, f"first.js.map{end}").stat().st_size / 1e6 for end in ("", ".smc"))
        print(f"first answer, {size:.1f} MB, compiled {own:.1f} MB: {1000 * median(times):.2f} ms")


def many(room: str) -> None:
    value, names = value_of(200), [f"{k}.js" for k in range(COUNT)]
    for name in names:
        write(room, name, value)
    found = Resolver(room, H, cache=BESIDE, beside_first=True)
    for what in ("compiled and answered", "answered, of which few are held"):
        start = time.process_time()
        for name in names:
            found.resolve_text(trace_of([name] if what[0] == "c" else names, 200, 1))
        print(f"{COUNT} maps {what}: {1000 * (time.process_time() - start) / COUNT:.2f} ms each")
    stats = found.stats()
    print(f"  {stats['resolved']} of {stats['frames']} resolved, {stats['compiled_made']} compiled, {stats['compiled_used']} opened, {stats['held']} held")
    print(f"  resident at most {resource.getrusage(resource.RUSAGE_SELF).ru_maxrss // 1024} MB")


with tempfile.TemporaryDirectory() as folder:
    frames(folder)
    first(folder)
    many(folder)
