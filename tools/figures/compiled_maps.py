#!/usr/bin/env python3
"""Compares compiled maps with the texts of the maps, and with SQLite, by Python, and prints a table.

    tools/figures/compiled_maps.py [--copies N] MAP..

For each map: its bytes, those of the compiled map and of a database with a table of tokens and an index of their positions; how
long it takes from a file in the page cache, and from one that is not there, to the first answer, with its source and name; and a
lookup of 10,000 in a map that is open. All three answer alike. With --copies, four processes then open N copies of the first map, each
with a stamp of its own, and ask each once: what memory they have that is not shared. It needs the library in target/ (./build c).
"""

import argparse
import gc
import hashlib
import multiprocessing
import os
import random
import resource
import sqlite3
import sys
import tempfile
import time
from itertools import zip_longest
from pathlib import Path

TOP = Path(__file__).resolve().parents[2]
os.environ.setdefault("OXC_SOURCEMAP_LIB", str(TOP / "target/liboxc_sourcemap.so"))
sys.path.insert(0, str(TOP / "bindings/python/src"))
from oxc_sourcemap import Bias, CompiledMap, SourceMap

ROUNDS = 15
ASK = """select t.src_line, t.src_col, s.path, n.name from token t left join source s on s.id = t.source left join name n on n.id = t.name
where t.line = ? and t.col = (select max(col) from token where line = ?1 and col <= ?2) order by case when t.col = ?2 then t.id else -t.id end limit 1"""


def database(path, map):
    """A database of a map, as a user would make it."""
    with sqlite3.connect(path) as base:
        base.executescript(
            "create table source (id integer primary key, path text, content text); create table name (id integer primary key, name text);"
            "create table token (id integer primary key, line integer, col integer, src_line integer, src_col integer, source integer, name integer)"
        )
        base.executemany("insert into source values (?, ?, ?)", [(k, it, content) for k, (it, content) in enumerate(zip_longest(map.sources, map.source_contents))])
        base.executemany("insert into name values (?, ?)", enumerate(map.names))
        rows = ((it.dst_line, it.dst_col, it.src_line, it.src_col, it.source_id, it.name_id) for it in map)
        base.executemany("insert into token values (null, ?, ?, ?, ?, ?, ?)", rows)
        base.execute("create index place on token (line, col)")
    base.close()


def by_text(path):
    map = SourceMap.from_json(Path(path).read_bytes())
    return lambda line, column: seen(map.trace(line, column, Bias.BEFORE))


def by_bytes(path):
    map = CompiledMap.open_file(path)
    return lambda line, column: seen(map.trace(line, column, Bias.BEFORE))


def by_database(path):
    base = sqlite3.connect(path)
    return lambda line, column: base.execute(ASK, (line, column)).fetchone()


def seen(found):
    return found and (found.token.src_line, found.token.src_col, found.source, found.name)


def forget(path):
    """Takes a file out of the page cache."""
    with open(path, "rb") as file:
        os.fsync(file.fileno())
        os.posix_fadvise(file.fileno(), 0, 0, os.POSIX_FADV_DONTNEED)


def first(opened, path, at, is_cold):
    """The milliseconds from a file to its first answer, the least of some rounds."""
    took = []
    for _ in range(ROUNDS):
        if is_cold:
            forget(path)
        start = time.perf_counter()
        opened(path)(*at)
        took.append(time.perf_counter() - start)
    return min(took) * 1e3


def lookup(ask, places):
    """The microseconds of a lookup, the least of some rounds."""
    took = []
    for _ in range(3):
        start = time.perf_counter()
        for at in places:
            ask(*at)
        took.append(time.perf_counter() - start)
    return min(took) / len(places) * 1e6


def row(path, folder):
    map = SourceMap.from_json(path.read_bytes())
    bytes_, base = Path(folder, "map.smc"), Path(folder, "map.db")
    bytes_.write_bytes(map.compile())
    base.unlink(missing_ok=True)
    database(base, map)
    chosen = random.Random(1)
    tokens = [map.get_token(chosen.randrange(len(map))) for _ in range(10_000)]
    places = [(it.dst_line, it.dst_col + chosen.randrange(2)) for it in tokens]
    forms = ((by_text, path), (by_bytes, bytes_), (by_database, base))
    asked = [opened(file) for opened, file in forms]
    for at in places[:2000]:
        text, *others = (ask(*at) for ask in asked)
        if any(it != text for it in others):
            sys.exit(f"{path}: at {at} {text}, {others}")
    each = " / ".join(f"{lookup(ask, places):.1f}" for ask in asked)
    # (no page of a file that is mapped leaves the page cache)
    asked.clear()
    gc.collect()
    size = path.stat().st_size
    sizes = " / ".join(f"{file.stat().st_size / size:.2f}" for _, file in forms[1:])
    times = [" / ".join(f"{first(opened, file, places[0], is_cold):.3g}" for opened, file in forms) for is_cold in (False, True)]
    print(f"|{path.name}|{len(map)}|{size}|{sizes}|{times[0]}|{times[1]}|{each}|", flush=True)


def private():
    """The bytes of this process that it shares with no other."""
    lines = Path("/proc/self/smaps_rollup").read_text().split("\n")
    return sum(int(it.split()[1]) for it in lines if it.startswith("Private_")) * 1024


def ask_all(folder, at, ready, out):
    before, start = private(), time.perf_counter()
    maps = [CompiledMap.open_file(it) for it in sorted(Path(folder).iterdir())]
    answers = {seen(it.trace(*at, Bias.BEFORE)) for it in maps}
    took = time.perf_counter() - start
    ready.wait()
    out.put((private() - before, took, len(answers)))


def copies(path, count, folder):
    data = SourceMap.from_json(path.read_bytes())
    token = data.get_token(len(data) // 2)
    for k in range(count):
        Path(folder, f"{k:05}.smc").write_bytes(data.compile(stamp=hashlib.sha256(b"%d" % k).digest()))
    resource.setrlimit(resource.RLIMIT_NOFILE, (count + 100, count + 100))
    ready, out = multiprocessing.Barrier(4), multiprocessing.Queue()
    all_ = [multiprocessing.Process(target=ask_all, args=(folder, (token.dst_line, token.dst_col), ready, out)) for _ in range(4)]
    for it in all_:
        it.start()
    told = [out.get() for _ in all_]
    if any(answers != 1 for *_, answers in told):
        sys.exit(f"{path}: its copies do not answer alike")
    size = sum(it.stat().st_size for it in Path(folder).iterdir())
    private_ = sum(it[0] for it in told) / 1e6
    print(f"{count} copies of {path.name}, {size / 1e9:.1f} GB: four processes open and ask all in {max(it[1] for it in told):.1f} s, with {private_:.0f} MB of their own")


def main():
    words = argparse.ArgumentParser(description=__doc__, formatter_class=argparse.RawDescriptionHelpFormatter)
    words.add_argument("maps", nargs="+", type=Path, metavar="MAP")
    words.add_argument("--copies", type=int, default=0, metavar="N")
    asked = words.parse_args()
    print("|map|tokens|bytes of the text|compiled / SQLite|first answer, ms: text / compiled / SQLite|not in the page cache|a lookup, us|")
    print("|---|---:|---:|---|---|---|---|")
    with tempfile.TemporaryDirectory() as folder:
        for path in asked.maps:
            row(path, folder)
    if asked.copies:
        with tempfile.TemporaryDirectory() as folder:
            copies(asked.maps[0], asked.copies, folder)


if __name__ == "__main__":
    main()
