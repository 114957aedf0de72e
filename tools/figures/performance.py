#!/usr/bin/env python3
"""Measures the library on the maps that make_maps.py made, and prints the tables behind docs/FIGURES.md.

    tools/figures/performance.py [--rounds N] [--beside PROGRAM].. [--whole PROGRAM].. [--smap PROGRAM] [--only TABLE].. FOLDER

--beside names a program like tools/figures/bench over another library (see tools/figures/bench/bench), --whole one whose commands are
`normalise`, and `compose` of texts separated by lines `---`, the last step's first. All sides run in turn, and the best of N
rounds counts. --only prints one of the tables (TABLES below). Needs Debian's packages `time` and, for instructions, `valgrind`.
"""

import argparse
import functools
import glob
import json
import os
import platform
import re
import subprocess
import sys
import tempfile
from concurrent.futures import ThreadPoolExecutor
from pathlib import Path

TOP = Path(__file__).resolve().parents[2]
sys.path[:0] = [str(TOP), str(TOP / "tests/reference")]
import peer

from tools.figures.measuring import built, measure

MAPS = ["esbuild-lodash", "OpenLayers", "pdf.js", "pdf.worker", "theme.css", "olm_legacy.min", "esbuild-typescript"]
PIPELINES = ["gen-mapping-5", "three-2", "typescript-2"]
BUNDLES = ["lodash", "terser"]
GOALS = {
    "parse": 0.6,
    "serialize": 0.75,
    "decode": 0.55,
    "encode": 0.7,
    "table": 0.6,
    "lookup": 1.0,
    "join": 0.9,
    "compose": 0.5,
    "remap": 1.0,
    "parse_each": 1.2,
    "join_each": 1.2,
    "index": 0.2,
    "back": 0.5,
}
STAGES = ["parse", "serialize", "decode", "encode", "table", "lookup", "join"]
COUNTED = ["esbuild-lodash", "pdf.js", "theme.css", "olm_legacy.min"]
WHOLE_GOAL, PEAK_GOAL = 0.85, 0.8
GROWTH = [1, 5, 20, 50, 100, 200]
NAMES = [10_000, 100_000, 1_000_000]


@functools.cache
def smap():
    """The program, built if no table before needed it."""
    return options.smap or built(TOP)


def write(line=""):
    lines = (re.sub(r" *[|] *", "|", it) if it.startswith("|") else it for it in line.split("\n"))
    print(*lines, sep="\n", flush=True)


def ratio(ours, theirs, goal):
    """A ratio, in bold where it is above its goal."""
    text = f"{ours / theirs:.2f}"
    return f"**{text}**" if float(text) > goal else text


def bench(paths, *words):
    """The rows that tools/figures/bench/bench prints, by map and stage."""
    beside = [word for program in options.beside for word in ("--beside", program)]
    command = [f"{TOP}/tools/figures/bench/bench", "--json", *beside, *words, *paths]
    ran = subprocess.run(command, stdout=subprocess.PIPE, check=True)
    rows = map(json.loads, ran.stdout.splitlines())
    return {(row["map"], row["stage"]): row for row in rows}


def beside(figures, goal, form="{:.1f}"):
    """A figure of ours, and behind it the ratio to the least of the other programs."""
    ours, *others = figures
    return f"{form.format(ours)} ({ratio(ours, min(others), goal)})" if others else form.format(ours)


def cell(row):
    return beside([ns / row["items"] for ns in row["best"].values()], GOALS[row["stage"]])


def write_stages(title, maps, words):
    rows = bench([f"{options.folder}/maps/{name}.map" for name in maps], *words)
    write(f"\n### {title}\n")
    write(f"| map | tokens | {' | '.join(STAGES)} |\n|---|---:|{'---|' * len(STAGES)}")
    write(f"| *goal* | | {' | '.join(str(GOALS[name]) for name in STAGES)} |")
    for name in maps:
        of_map = [rows[f"{name}.map", stage] for stage in STAGES]
        write(f"| {name} | {of_map[0]['tokens']} | {' | '.join(map(cell, of_map))} |")


def stages():
    write_stages("Stages", MAPS, ["--rounds", str(options.rounds)])


def instructions():
    write_stages("Instructions", COUNTED, ["--count"])


def pipelines():
    """Composition, and its instructions where they are soon counted: two runs, with the copies that they consume."""
    paths = [f"{options.folder}/pipelines/{name}" for name in PIPELINES]
    rows, counts = bench(paths, "--rounds", str(options.rounds)), bench(paths[:2], "--count")
    write("\n### Composition\n\n| pipeline | tokens | compose | instructions |\n|---|---:|---|---|")
    write(f"| *goal* | | {GOALS['compose']} | |")
    for name in PIPELINES:
        counted = cell(counts[name, "compose"]) if (name, "compose") in counts else ""
        write(f"| {name} | {rows[name, 'compose']['tokens']} | {cell(rows[name, 'compose'])} | {counted} |")


def remappings():
    """Remapping of bundles by the maps of their modules, and of the same tokens where all modules are one file. Beside both, as
    others have no remapping, their composition over that file."""
    rounds = ["--rounds", str(options.rounds)]
    bundles = bench([f"{options.folder}/bundles/{name}" for name in BUNDLES], *rounds)
    as_one = bench([f"{options.folder}/as-one/{name}" for name in BUNDLES], *rounds)
    write("\n### Remapping\n\n| bundle | tokens | remap | remap as one file | compose as one file |\n|---|---:|---|---|---|")
    write(f"| *goal* | | {GOALS['remap']} | {GOALS['remap']} | {GOALS['compose']} |")
    for name in BUNDLES:
        composed = as_one[name, "compose"]
        others = list(composed["best"].values())[1:]
        cells = [
            beside([ns / composed["items"] for ns in [list(row["best"].values())[0], *others]], GOALS["remap"])
            for row in (bundles[name, "remap"], as_one[name, "remap"])
        ]
        write(f"| {name} | {composed['tokens']} | {' | '.join(cells)} | {cell(composed)} |")


def million(path):
    """Writes a map of 1,000,000 tokens: pdf.js below itself, often enough."""
    value = json.load(open(f"{options.folder}/maps/pdf.js.map", encoding="utf-8"))
    tokens, lines = peer.decode(value["mappings"]), value["mappings"].count(";") + 1
    copies = -(-1_000_000 // len(tokens))
    joined, tokens = peer.join([({**value, "sourcesContent": None}, tokens, k * lines) for k in range(copies)])
    open(path, "w", encoding="utf-8").write(peer.to_text(joined, tokens[:1_000_000]))


def reverse_peer(path):
    """The nanoseconds of @jridgewell/trace-mapping: for its first lookup from an original position once it has decoded the mappings,
    which makes its index, and for 100,000 further ones."""
    environment = {"NODE_PATH": "/usr/share/nodejs", **os.environ}
    node = ["node", f"{TOP}/tools/compare/peers.js", "reverse", str(options.rounds)]
    return json.loads(subprocess.run(node, stdin=open(path), capture_output=True, check=True, env=environment).stdout)


def reverse_cells(path):
    """For the index and for lookups in it: nanoseconds with the ratio to the peer's, and instructions."""
    rows = bench([path], "--only", "index,back", "--rounds", str(options.rounds))
    counts, peers = bench([path], "--only", "index,back", "--count"), reverse_peer(path)
    for stage in ("index", "back"):
        row, counted = rows[os.path.basename(path), stage], counts[os.path.basename(path), stage]
        ours, count = (list(it["best"].values())[0] / row["items"] for it in (row, counted))
        yield row["tokens"], beside([ours, peers[stage] / row["items"]], GOALS[stage]), f"{count:.0f}"


def reverse():
    """The index by original positions and lookups in it, beside those of an npm package."""
    write(
        "\n### Reverse lookup\n\nNanoseconds for each token of the index by original positions, and for each of 100,000 lookups in it, with the ratios to "
        "`@jridgewell/trace-mapping`: to its first lookup once it has decoded the mappings, which makes its index, and to further ones.\n"
    )
    write("| map | tokens | index | instructions | lookup | instructions |\n|---|---:|---|---:|---|---:|")
    write(f"| *goal* | | {GOALS['index']} | | {GOALS['back']} | |")
    with tempfile.TemporaryDirectory() as folder:
        million(f"{folder}/million.map")
        for path in [*(f"{options.folder}/maps/{name}.map" for name in MAPS), f"{folder}/million.map"]:
            (tokens, *index), (_, *back) = reverse_cells(path)
            write(f"| {os.path.basename(path).removesuffix('.map')} | {tokens} | {' | '.join([*index, *back])} |")


def small():
    """Reading and joining the maps of many modules, for each module; and what these cost for one map of one token."""
    rows = bench([f"{options.folder}/modules"], "--rounds", str(options.rounds))
    modules = rows["modules", "parse_each"]
    write("\n### Modules\n")
    write(f"| modules | tokens of each | parse | join |\n|---:|---:|---|---|\n| *goal* | | {GOALS['parse_each']} | {GOALS['join_each']} |")
    write(f"| {modules['items']} | {modules['tokens'] / modules['items']:.0f} | {cell(modules)} | {cell(rows['modules', 'join_each'])} |")


def in_turn(sides, text):
    """The best time and the least peak of each side, and what each wrote."""
    best = {}
    for turn in range(options.rounds):
        for side in sorted(sides, reverse=turn % 2 == 1):
            ran = measure(sides[side], text)
            if ran.status:
                sys.exit(f"{sides[side]}: status {ran.status}: {ran.errors}")
            seconds, peak, _ = best.get(side, (ran.seconds, ran.peak, None))
            best[side] = min(seconds, ran.seconds), min(peak, ran.peak), ran.output
    return best


def instructions_of(command, text):
    """The instructions of a whole process, in millions."""
    words = ["valgrind", "--tool=callgrind", "--callgrind-out-file=/dev/null", *map(str, command)]
    ran = subprocess.run(words, input=text, stdout=subprocess.DEVNULL, stderr=subprocess.PIPE, check=True)
    return int(re.search(rb"Collected : (\d+)", ran.stderr)[1]) / 1e6


def processes(title, inputs, is_counted=True):
    """A row for each whole process: name, words of smap, words of the other programs, input."""
    write(f"\n### {title}\n")
    write("| input | MB | ms | peak MB | million instructions |\n|---|---:|---|---|---|")
    write(f"| *goal* | | {WHOLE_GOAL} | {PEAK_GOAL} | |")
    for name, words, other, text in inputs:
        sides = {"ours": [smap(), *words], **{program: [program, *other] for program in options.whole}}
        best, size = in_turn(sides, text), len(text) / 1e6
        seconds, peaks, outputs = ([best[side][k] for side in sides] for k in range(3))
        counts = [""]
        if is_counted:
            with ThreadPoolExecutor(os.cpu_count()) as pool:
                counts = list(pool.map(lambda side: instructions_of(sides[side], text), sides))
        if len(set(outputs)) > 1:
            name = f"{name} (outputs differ)"
        cells = [
            f"{size:.1f}",
            beside([it * 1e3 for it in seconds], WHOLE_GOAL),
            beside([it / 1e6 for it in peaks], PEAK_GOAL),
            beside(counts, WHOLE_GOAL, "{:.0f}") if is_counted else "",
        ]
        write(f"| {name} | {' | '.join(cells)} |")


def single_maps():
    for name in MAPS:
        yield name, ["normalise"], ["normalise"], open(f"{options.folder}/maps/{name}.map", "rb").read()


def composed_maps():
    for name in PIPELINES:
        files = sorted(glob.glob(f"{options.folder}/pipelines/{name}/*.map"), reverse=True)
        text = b"\n---\n".join(open(file, "rb").read().rstrip(b"\n") for file in files)
        last = len(files) - 1
        plan = [word for k in range(last) for word in ("compose", f"@{k}")] + [f"@{last}"]
        yield name, ["plan", *plan], ["compose"], text


def grown_maps():
    """pdf.js below itself, as often as it takes: names, sources and contents are repeated, too."""
    text = open(f"{options.folder}/maps/pdf.js.map", "rb").read()
    lines = json.loads(text)["mappings"].count(";") + 1
    for size in GROWTH:
        copies = max(round(size * 1e6 / len(text)), 1)
        plan = [word for k in range(copies) for word in ("@0", k * lines)]
        grown = measure([smap(), "plan", "join", copies, *plan], text).output
        yield f"{copies} times pdf.js", ["normalise"], ["normalise"], grown


def builders():
    write("\n### Names added to a builder\n")
    write("| names | ns for each |\n|---:|---:|")
    with tempfile.TemporaryDirectory() as folder:
        for count in NAMES:
            path = f"{folder}/{count}.map"
            value = {"version": 3, "sources": [], "names": [f"name{k}" for k in range(count)], "mappings": ""}
            json.dump(value, open(path, "w"), separators=(",", ":"))
            row = bench([path], "--rounds", "1")[f"{count}.map", "build"]
            write(f"| {count} | {list(row['best'].values())[0] / count:.1f} |")


def machine():
    model = [line.split(":")[1].strip() for line in open("/proc/cpuinfo") if line.startswith("model name")]
    return f"{model[0]}, {os.cpu_count()} processors, {platform.system()} {platform.release().split('-')[0]}"


TABLES = {
    "stages": stages,
    "instructions": instructions,
    "pipelines": pipelines,
    "remappings": remappings,
    "reverse": reverse,
    "small": small,
    "processes": lambda: processes("Whole processes", [*single_maps(), *composed_maps()]),
    "growth": lambda: processes("Growth", grown_maps(), is_counted=False),
    "builders": builders,
}


def main():
    global options
    parser = argparse.ArgumentParser(description=__doc__, formatter_class=argparse.RawDescriptionHelpFormatter)
    parser.add_argument("--rounds", type=int, default=5)
    parser.add_argument("--beside", action="append", default=[])
    parser.add_argument("--whole", action="append", default=[])
    parser.add_argument("--smap")
    parser.add_argument("--only", action="append", choices=TABLES)
    parser.add_argument("folder")
    options = parser.parse_args()
    write(f"{machine()}; best of {options.rounds} rounds.")
    for name in options.only or TABLES:
        TABLES[name]()


if __name__ == "__main__":
    main()
