#!/usr/bin/env python3
"""bindings/c/sqlite/bench.py SQLITE3 EXTENSION   times 100,000 lookups in one query, by the program of SQLite: in a map as JSON, in what it is
compiled to, and in a table of its tokens. The map is made at random, always the same: 200,000 tokens on 2,000 lines, of 50 sources,
half of them with one of 5,000 names. All ways have to answer the same. Times are those of the processor."""

import json
import random
import re
import subprocess
import sys
from pathlib import Path

sys.path.insert(0, str(Path(__file__).resolve().parents[3] / "tests/reference"))
import peer

NAMES, SOURCES, LINES, ON_LINE, LOOKUPS = 5000, 50, 2000, 100, 100_000
BY_TOKENS = """(SELECT json_object('source', s.path, 'line', t.src_line, 'column', t.src_col, 'name', n.name)
    FROM tokens t JOIN sources s ON s.id = t.source LEFT JOIN names n ON n.id = t.name
    WHERE t.line = f.line AND t.col <= f.col ORDER BY t.line DESC, t.col DESC LIMIT 1)"""
BY_TABLE = """(SELECT json_object('source', x.source, 'line', x.line, 'column', x."column", 'name', x.name)
    FROM smap_trace_at(:compiled, f.line, f.col) x)"""
TIMED = {
    "compiled, a parameter, smap_trace": "SELECT count(smap_trace(:compiled, line, col)) FROM frames",
    "compiled, a parameter, smap_trace_at": "SELECT count(source) FROM frames f, smap_trace_at(:compiled, f.line, f.col)",
    "JSON, a parameter, smap_trace": "SELECT count(smap_trace(:json, line, col)) FROM frames",
    "tokens, as smap_trace answers": f"SELECT count({BY_TOKENS}) FROM frames f",
    "tokens, the id of the source alone": """SELECT count((SELECT t.source FROM tokens t WHERE t.line = f.line AND t.col <= f.col
        ORDER BY t.line DESC, t.col DESC LIMIT 1)) FROM frames f""",
}
# What copies or reads the map for each row: of 100 positions.
FEW = {
    "compiled, joined, smap_trace": "SELECT count(smap_trace(compiled, line, col)) FROM maps CROSS JOIN few",
    "JSON, joined, smap_trace_at": "SELECT count(source) FROM maps m CROSS JOIN few f, smap_trace_at(m.json, f.line, f.col)",
    "JSON, joined, smap_trace": "SELECT count(smap_trace(json, line, col)) FROM maps CROSS JOIN few",
}
SCHEMA = """
CREATE TABLE maps(json TEXT, compiled BLOB);
CREATE TABLE frames(line INT, col INT);
CREATE VIEW few AS SELECT * FROM frames LIMIT 100;
CREATE TABLE tokens(line INT, col INT, source INT, src_line INT, src_col INT, name INT, PRIMARY KEY (line, col)) WITHOUT ROWID;
CREATE TABLE sources(id INTEGER PRIMARY KEY, path TEXT);
CREATE TABLE names(id INTEGER PRIMARY KEY, name TEXT);
"""


def tokens_of(chance):
    for line in range(LINES):
        for column in sorted(chance.sample(range(ON_LINE * 12), ON_LINE)):
            name = chance.randrange(NAMES) if chance.random() < 0.5 else None
            yield line, column, chance.randrange(SOURCES), chance.randrange(3000), chance.randrange(120), name


def rows(table, them):
    words = ["(" + ",".join("NULL" if it is None else repr(it) for it in row) + ")" for row in them]
    for at in range(0, len(words), 400):
        yield f"INSERT INTO {table} VALUES {','.join(words[at : at + 400])};"


def script(extension):
    chance = random.Random(7)
    tokens = list(tokens_of(chance))
    sources, names = [f"src/module{i}/index.ts" for i in range(SOURCES)], [f"someName{i}" for i in range(NAMES)]
    text = json.dumps({"version": 3, "sources": sources, "names": names, "mappings": peer.encode(tokens)}, separators=(",", ":"))
    yield f".load {extension}\n{SCHEMA}BEGIN;"
    yield f"INSERT INTO maps SELECT json, smap_compile(json) FROM (SELECT '{text}' AS json);"
    yield from rows("frames", ((chance.randrange(LINES), chance.randrange(ON_LINE * 12)) for _ in range(LOOKUPS)))
    yield from rows("tokens", tokens)
    yield from [*rows("sources", enumerate(sources)), *rows("names", enumerate(names))]
    yield "COMMIT;\n.param init\n"
    for it in ("json", "compiled"):
        yield f"INSERT INTO sqlite_parameters SELECT ':{it}', {it} FROM maps;"
    yield "SELECT sqlite_version(), length(json), length(compiled), (SELECT sum(pgsize) FROM dbstat WHERE name = 'tokens') FROM maps;"
    yield f"""SELECT count(*), count(c), sum(c IS NOT j OR c IS NOT t OR c IS NOT a) FROM (SELECT smap_trace(:compiled, line, col) AS c,
        smap_trace(:json, line, col) AS j, {BY_TOKENS} AS t, {BY_TABLE} AS a FROM frames f);"""
    yield ".timer on"
    for sql in [*TIMED.values(), *FEW.values()]:
        yield f"{sql};\n{sql};"


def main(program, extension):
    ran = subprocess.run([program, "-batch", "-bail"], input="\n".join(script(extension)), stdout=subprocess.PIPE, text=True, check=True)
    about, same, *said = ran.stdout.splitlines()
    version, *sizes = about.split("|")
    print(f"SQLite {version}; bytes of the map as JSON, compiled, and of its tokens: {', '.join(sizes)}")
    looked_up, found, differ = same.split("|")
    print(f"{looked_up} positions, of which {found} are found; {differ} answered in different ways")
    times = [float(it) for it in re.findall(r"Run Time: real [\d.]+ user ([\d.]+)", ran.stdout)]
    for at, name in enumerate([*TIMED, *FEW]):
        print(f"{min(times[2 * at : 2 * at + 2]):8.3f} s  {name}{'; 100 lookups' if name in FEW else ''}")
    counts = [it for it in said if not it.startswith("Run Time")][: 2 * len(TIMED)]
    return 1 if differ != "0" or {*counts} != {found} else 0


if __name__ == "__main__":
    sys.exit(main(*sys.argv[1:]))
