#!/usr/bin/env python3
"""Measures the program `sourcemap` beside what others do by trace-mapping in Node (program_peers.js), each job of both in turns.

    tools/figures/program.py PROGRAM FOLDER

Needs esbuild, node, and of Debian node-typescript and node-ampproject-remapping, and `time`. FOLDER gets the files: typescript.js minified
with its map, 1,000 small codes with theirs, stack traces, and V8's coverage of typescript.js. A row has the seconds of the program and of
the peer (the least of three runs), their ratio, and the peak memory of each in MB.
"""

import json
import os
import subprocess
import sys
from pathlib import Path

from measuring import measure

HERE = Path(__file__).resolve().parent
TYPESCRIPT = "/usr/share/nodejs/typescript/lib/typescript.js"
os.environ.setdefault("NODE_PATH", "/usr/share/nodejs")
ROUNDS = 3
FUNCTION = "export function f{}(a: number, b: number): number {{\n  if (a > b) throw new Error('{}');\n  return a + b;\n}}\n"


def positions(text, count):
    """Positions of a code, from 1, spread over it."""
    lines = text.split("\n")
    for k in range(count):
        line = (k * 7919) % len(lines)
        yield line + 1, (k * 104729) % max(1, len(lines[line])) + 1


def made(folder):
    """Makes the files that are not there."""
    code = folder / "typescript.js"
    if not code.exists():
        subprocess.run(["esbuild", "--minify", "--sourcemap", "--log-level=error", TYPESCRIPT, f"--outfile={code}"], check=True)
    text = code.read_text(encoding="utf-8")
    frames = [f"    at f (/typescript.js:{line}:{column})" for line, column in positions(text, 3000)]
    (folder / "3000.txt").write_text("\n".join(frames) + "\n")
    with open(folder / "1000000.txt", "w", encoding="utf-8") as out:
        for line, column in positions(text, 1_000_000):
            out.write(f"    at f (/typescript.js:{line}:{column})\n")
    small = []
    for k in range(1000):
        name = f"small/{k}.js"
        if not (folder / name).exists():
            (folder / "small").mkdir(exist_ok=True)
            (folder / f"small/{k}.ts").write_text("".join(FUNCTION.format(j, k) for j in range(20)))
        small.append(f"    at f (/{name}:2:7)")
    if not (folder / "small/999.js").exists():
        files = [f"{folder}/small/{k}.ts" for k in range(1000)]
        subprocess.run(["esbuild", "--sourcemap", "--log-level=error", *files, f"--outdir={folder}/small"], check=True)
    (folder / "maps.txt").write_text("\n".join(small) + "\n")
    if not (folder / "coverage.json").exists():
        reports = folder / "reports"
        environment = {**os.environ, "NODE_V8_COVERAGE": str(reports)}
        subprocess.run(["node", "-e", f"require({str(code.resolve())!r})"], check=True, env=environment)
        next(reports.glob("*.json")).rename(folder / "coverage.json")


def least(words, given):
    """The least time and the greatest memory of some runs, and what one printed."""
    runs = [measure(words, given) for _ in range(ROUNDS)]
    for it in runs:
        if it.status not in (0, 1):
            sys.exit(f"{words}: {it.status}, {it.errors}")
    return min(it.seconds for it in runs), max(it.peak for it in runs), runs[0].output


def lines_equal(ours, theirs):
    """How many frames both resolve to the same line and column."""
    pairs = zip(ours.decode().splitlines(), theirs.decode().splitlines())
    return sum(a.rstrip(")").split(":")[-2:] == b.rstrip(")").split(":")[-2:] for a, b in pairs)


def main():
    program, folder = os.path.abspath(sys.argv[1]), Path(sys.argv[2])
    folder.mkdir(exist_ok=True)
    made(folder)
    os.chdir(folder)
    peer = ["node", HERE / "program_peers.js"]
    traces = {"3,000 frames": "3000.txt", "1,000 maps": "maps.txt", "1,000,000 frames": "1000000.txt"}
    resolving = ((name, [program, "resolve"], [*peer, "resolve", "."], Path(file).read_bytes()) for name, file in traces.items())
    covering = [program, "coverage", "--json", "coverage.json"], [*peer, "coverage", "typescript.js", "coverage.json"]
    jobs = [
        ("start", [program, "--version"], ["node", "-e", "0"], b""),
        *resolving,
        ("sizes of typescript.js", [program, "size", "--json", "typescript.js"], [*peer, "size", "typescript.js"], b""),
        ("coverage of typescript.js", *covering, b""),
    ]
    print(f"{'':28}{'seconds':>9}{'peer':>9}{'ratio':>7}{'MB':>7}{'peer':>7}")
    for name, ours, theirs, given in jobs:
        (seconds, peak, out), (peer_seconds, peer_peak, peer_out) = least(ours, given), least(theirs, given)
        print(f"{name:28}{seconds:9.3f}{peer_seconds:9.3f}{seconds / peer_seconds:7.2f}{peak / 1e6:7.0f}{peer_peak / 1e6:7.0f}", flush=True)
        if name in traces:
            print(f"  {lines_equal(out, peer_out)} of {len(given.splitlines())} frames are the same", flush=True)
        elif name.startswith("sizes"):
            sizes = {it["name"]: it["bytes"] for it in map(json.loads, out.splitlines()) if "name" in it}
            print(f"  bytes with a source: {sum(sizes.values())}, by the peer {sum(json.loads(peer_out).values())}", flush=True)
        elif name.startswith("coverage"):
            missed = sum(json.loads(it)["missed"] for it in out.splitlines())
            print(f"  lines missed: {missed}, by the peer {sum(int(it.split()[-1]) for it in peer_out.decode().splitlines())}", flush=True)


if __name__ == "__main__":
    main()
