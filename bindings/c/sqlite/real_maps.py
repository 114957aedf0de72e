#!/usr/bin/env python3
"""bindings/c/sqlite/real_maps.py SQLITE3 EXTENSION   loads the extension into the program of SQLite, looks positions up in the maps of
tests/real-maps, as JSON and compiled, by smap_trace and by smap_trace_at, and compares the answers with those of tests/reference/peer.py.
It does so again in Python's own sqlite3, if that loads extensions. The last line is 'N passed, M failed'."""

import json
import sqlite3
import subprocess
import sys
from pathlib import Path

TOP = Path(__file__).resolve().parents[3]
sys.path[:0] = [str(TOP), str(TOP / "tests/reference")]
from tools.check.trace_answers import PassedOver, answered

# The answers of all positions in order: from JSON, from what it is compiled to, and from both by the table.
ASKS = """\
SELECT json_array(json(smap_trace(json, p.line, p.col)), json(smap_trace(blob, p.line, p.col)),
    CASE WHEN s.source IS NOT NULL THEN json_object('source', s.source, 'line', s.line, 'column', s."column", 'name', s.name) END,
    CASE WHEN t.source IS NOT NULL THEN json_object('source', t.source, 'line', t.line, 'column', t."column", 'name', t.name) END)
FROM maps, positions p LEFT JOIN smap_trace_at(json, p.line, p.col) s LEFT JOIN smap_trace_at(blob, p.line, p.col) t ORDER BY p.id;
"""


def statements(text, positions):
    """The SQL that makes the tables of a map and of positions, and that asks. (A map is written as hexadecimal digits.)"""
    yield "CREATE TEMP TABLE maps AS SELECT json, smap_compile(json) AS blob FROM (SELECT CAST(x'%s' AS TEXT) AS json);" % text.hex()
    yield "CREATE TEMP TABLE positions(id INTEGER PRIMARY KEY, line INT, col INT);"
    for at in range(0, len(positions), 400):
        yield "INSERT INTO positions(line, col) VALUES " + ",".join(map(str, positions[at : at + 400])) + ";"
    yield ASKS


def by_program(program, extension, text, positions):
    script = "\n".join([f".load {extension}", *statements(text, positions)])
    ran = subprocess.run([program, "-batch", "-bail"], input=script, capture_output=True, text=True)
    if ran.returncode or ran.stderr:
        raise OSError(ran.stderr)
    return ran.stdout.splitlines()


def by_python(extension, text, positions):
    database = sqlite3.connect(":memory:")
    database.enable_load_extension(True)
    database.load_extension(extension)
    rows = [database.execute(it).fetchall() for it in statements(text, positions)][-1]
    database.close()
    return [it for (it,) in rows]


def said(row):
    """The four answers of a row, as tools/check/trace_answers.py has them."""
    for it in json.loads(row):
        if it is None:
            yield None
        else:
            yield f"{it['source']}:{it['line']}:{it['column']}" + (f" {it['name']}" if it["name"] is not None else "")


def fault_in(rows, positions, wanted):
    """The first position whose answers are not the wanted ones, or None."""
    if len(rows) != len(positions):
        return f"{len(rows)} answers, not {len(positions)}"
    for position, row, it in zip(positions, rows, wanted):
        given = list(said(row))
        if given != [None if it in ("nothing", "unmapped") else it] * 4:
            return f"at {position}: {given}, not {it}"
    return None


def main(program, extension):
    extension = str(Path(extension).resolve())
    ways = {"SQLite's program": lambda *of: by_program(program, extension, *of)}
    if hasattr(sqlite3.Connection, "enable_load_extension"):
        ways["Python's sqlite3"] = lambda *of: by_python(extension, *of)
    else:
        print("SQLite in Python: passed over, it loads no extensions")
    passed = failed = answers = 0
    for file in sorted(TOP.glob("tests/real-maps/*/*.map")):
        try:
            positions, wanted = answered(file.read_bytes())
        except PassedOver:
            continue  # (those of tests/real-maps/refused.json)
        answers += len(positions)
        for way, ask in ways.items():
            try:
                fault = fault_in(ask(file.read_bytes(), positions), positions, wanted[::2])
            except (OSError, sqlite3.Error) as why:
                fault = str(why)
            passed, failed = passed + (fault is None), failed + (fault is not None)
            if fault is not None:
                print(f"{file.relative_to(TOP)} by {way}: {fault}")
    print(f"SQLite, real maps: {answers} positions, each looked up four times")
    print(f"{passed} passed, {failed or not passed:d} failed")
    return 1 if failed or not passed else 0


if __name__ == "__main__":
    sys.exit(main(*sys.argv[1:]))
