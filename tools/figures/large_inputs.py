#!/usr/bin/env python3
"""Runs `smap` on inputs that are made to hurt, and on streams that fail, and prints a table of time, peak memory and status.

    tools/figures/large_inputs.py [--smap PROGRAM] [--only WORD] [--scale N]

A row is flagged where the peak is above 40 times the bytes of input and arguments (and above 64 MB), or the time above one
second for each 10 MB of them (and above one second). --scale divides the sizes, for a quick look. Needs Debian's package
`time`, and 8 GB of memory for the full sizes. No run gets more than 8 GB of address space.
"""

import argparse
import json
import sys
from pathlib import Path

TOP = Path(__file__).resolve().parents[2]
sys.path.insert(0, str(TOP))
from tools.figures.measuring import built, measure

ROOM = "ulimit -v 8000000;"
LINE = b"\n---\n"


def map_of(mappings, names=0, sources=0):
    value = {"version": 3, "sources": [f"s{k}.js" for k in range(sources)], "names": [f"n{k}" for k in range(names)]}
    return json.dumps({**value, "mappings": mappings}).encode()


def cases(millions):
    """Name, words of the command, input, and shell text that runs first. `millions` gives a number of millions, scaled."""
    bytes_ = millions(100)
    yield "`,` alone", ["mappings", 0, 0], b"," * bytes_, ROOM
    yield "`A` alone: one segment", ["mappings", 0, 0], b"A" * bytes_, ROOM
    yield "`g` alone: one number", ["mappings", 0, 0], b"g" * bytes_, ROOM
    yield "`A,` repeated", ["mappings", 0, 0], b"A," * (bytes_ // 2), ROOM
    yield "`;` and a segment", ["mappings", 0, 0], b";" * bytes_ + b"A", ROOM
    yield "`;` and a segment, as a map", ["normalise"], map_of(";" * bytes_ + "A"), ROOM
    yield "the same, traced at the end", ["trace", bytes_, 0], map_of(";" * bytes_ + "A"), ROOM
    deep = millions(0.1)
    yield "JSON nested deep", ["normalise"], b"[" * deep + b"]" * deep, ROOM
    unknown = map_of("")[:-1] + b',"x":' + b"[" * deep + b"]" * deep + b"}"
    yield "the same in an unknown key", ["normalise"], unknown, ROOM

    count = millions(1)
    plain, named = map_of("AAAA" + ",CAAC" * (count - 1), 0, 1), map_of("AAAAA" + ",CAACC" * (count - 1), count, 1)
    yield "1,000,000 names and sources", ["normalise"], map_of("", count, count), ROOM
    yield "1,000,000 tokens, each with its name", ["normalise"], named, ROOM
    yield "the same, composed with a map without names", ["plan", "compose", "@0", "@1"], named + LINE + plain, ROOM
    line = map_of("AAAA" + ",CAAC" * (millions(10) - 1), 0, 1)
    yield "one line of 10,000,000 segments", ["normalise"], line, ROOM
    yield "the same, looked up", ["trace", 0, millions(10) - 5], line, ROOM
    yield "the same, composed with itself", ["plan", "compose", "@0", "@0"], line, ROOM

    small = map_of("AAAAA", 1, 1)
    parts = millions(0.1) // 2
    yield "a plan of 100,000 words", ["plan", "join", parts, *["@0", 0] * parts], small, ROOM
    yield "a map of 5 MB, joined 20 times", ["plan", "join", 20, *[word for k in range(20) for word in ("@0", k)]], plain, ROOM
    yield "`compose`, 100,000 times", ["plan", *["compose"] * millions(0.1), "@0"], small, ROOM
    yield "`join 4294967295` without parts", ["plan", "join", 4294967295], small, ROOM
    count = millions(0.01)
    texts = LINE.join([small] * count)
    yield "10,000 texts, one read", ["plan", "@0"], texts, ROOM
    yield "10,000 texts, joined", ["plan", "join", count, *[word for k in range(count) for word in (f"@{k}", k)]], texts, ROOM
    yield "10,000 lines `---`", ["plan", "@0"], b"---\n" * count, ROOM

    low = ["plan", "compose", "@0", "join", 1, "@1", 4294967295]
    two = small + LINE + map_of("AAAA", 0, 1)
    yield "composed with a map whose one token is on line 4294967295", low, two, ROOM
    yield "the same with 200 MB of address space", low, two, "ulimit -v 200000;"
    yield "5 MB of map with 50 MB of address space", ["normalise"], plain, "ulimit -v 50000;"
    yield "5 MB of map with 15 MB of address space", ["normalise"], plain, "ulimit -v 15000;"

    yield "standard output closed", ["normalise"], small, "exec >&-;"
    yield "standard output `/dev/full`", ["normalise"], small, "exec >/dev/full;"
    yield "5 MB to `/dev/full`", ["normalise"], plain, "exec >/dev/full;"
    yield "standard input closed", ["normalise"], b"", "exec <&-;"
    yield "standard input a folder", ["normalise"], b"", "exec </;"
    yield "input that is not UTF-8", ["normalise"], b'{"version":3,"sources":["\xff"],"mappings":""}', ROOM
    yield "no input", ["normalise"], b"", ROOM


def main():
    parser = argparse.ArgumentParser(description=__doc__, formatter_class=argparse.RawDescriptionHelpFormatter)
    parser.add_argument("--smap")
    parser.add_argument("--only", default="")
    parser.add_argument("--scale", type=int, default=1)
    options = parser.parse_args()
    program = options.smap or built(TOP)
    print("| input | bytes | seconds | peak MB | status | says | flag |\n|---|---:|---:|---:|---:|---|---|")
    for name, words, given, before in cases(lambda count: int(count * 1_000_000) // options.scale):
        if options.only not in name:
            continue
        ran = measure([program, *words], given, before)
        size = len(given) + sum(len(str(word)) + 1 for word in words)
        flags = ["memory"] * (ran.peak > max(40 * size, 64_000_000)) + ["time"] * (ran.seconds > max(size / 10_000_000, 1))
        says = ran.errors.split("\n")[-1][:80] if ran.errors else f"{len(ran.output)} bytes"
        cells = [name, size, f"{ran.seconds:.2f}", f"{ran.peak / 1e6:.0f}", ran.status, says, ", ".join(flags)]
        print(f"| {' | '.join(map(str, cells))} |", flush=True)


if __name__ == "__main__":
    main()
