#!/usr/bin/env python3
"""Finds the smallest stack in which `smap` answers inputs that nest deeply, and prints a table of it.

    tools/figures/stack.py [--smap PROGRAM]

A stack that is too small ends the program by a signal. Sizes are searched in steps of 4 kB, up to 8 MB (`ulimit -s`).
"""

import argparse
import json
import subprocess
import sys
from pathlib import Path

TOP = Path(__file__).resolve().parents[2]
sys.path.insert(0, str(TOP))
from tools.figures.measuring import built

MAP = json.dumps({"version": 3, "sources": ["a.js"], "names": ["n"], "mappings": "AAAAA,CAAC"}).encode()


def nested(words, count, last):
    return ["plan", *words * count, "@0", *last * count]


def deep(opens, closes):
    """The map with one more key, in which it nests 127 deep."""
    return MAP[:-1] + b',"x":' + opens * 126 + b"0" + closes * 126 + b"}"


def cases():
    """Name, words of the command, and input."""
    yield "a map", ["normalise"], MAP
    yield "a map, traced", ["trace", 0, 0], MAP
    yield "one text", ["plan", "@0"], MAP
    yield "`rewrite`, 64 deep", nested(["rewrite"], 63, []), MAP
    yield "`join`, 64 deep", nested(["join", 1], 63, [0]), MAP
    yield "`joinat`, 64 deep", nested(["joinat", 1], 63, [0, 0]), MAP
    yield "`compose` on the left, 64 deep", nested(["compose"], 63, ["@0"]), MAP
    yield "`compose` on the right, 64 deep", nested(["compose", "@0"], 63, []), MAP
    lists, objects = deep(b"[", b"]"), deep(b'{"x":', b"}")
    yield "lists, 127 deep", ["normalise"], lists
    yield "objects, 127 deep", ["normalise"], objects
    yield "objects, 127 deep, in joins, 64 deep", nested(["join", 1], 63, [0]), objects
    yield "objects, 127 deep, in compositions on the left, 64 deep", nested(["compose"], 63, ["@0"]), objects
    yield "objects, 127 deep, in compositions on the right, 64 deep", nested(["compose", "@0"], 63, []), objects


def answers(program, words, given, kilobytes):
    """Whether the program answers in a stack of this size. It must not fail in another way."""
    words = ["sh", "-c", f'ulimit -c 0; ulimit -s {kilobytes}; exec "$@"', "sh", program, *map(str, words)]
    ran = subprocess.run(words, input=given, capture_output=True)
    if ran.returncode > 0 and b"smap" in ran.stderr:
        raise SystemExit(ran.stderr.decode())
    return ran.returncode == 0


def smallest(program, words, given):
    low, high = 1, 2048
    if not answers(program, words, given, 4 * high):
        return None
    while low < high:
        middle = (low + high) // 2
        low, high = (low, middle) if answers(program, words, given, 4 * middle) else (middle + 1, high)
    return 4 * low


def main():
    parser = argparse.ArgumentParser(description=__doc__, formatter_class=argparse.RawDescriptionHelpFormatter)
    parser.add_argument("--smap")
    program = parser.parse_args().smap or built(TOP)
    print("| input | stack, kB |\n|---|---:|")
    for name, words, given in cases():
        print(f"| {name} | {smallest(program, words, given) or 'above 8192'} |", flush=True)


if __name__ == "__main__":
    main()
