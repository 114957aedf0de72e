"""bench.py FILE.map: what calls take, in nanoseconds, as the median of many: one lookup, lookups in bulk for each position, and all
tokens as an array for each token."""

import random
import sys
from array import array
from pathlib import Path
from statistics import median
from time import perf_counter_ns

sys.path.append(str(Path(__file__).resolve().parent / "src"))

from oxc_sourcemap import SourceMap, _lookups


def took(call, times, count):
    """Nanoseconds for one of `count` in the median of calls."""
    ran = []
    for _ in range(times):
        start = perf_counter_ns()
        call()
        ran.append((perf_counter_ns() - start) / count)
    return median(ran)


def main():
    with open(sys.argv[1], "rb") as file, SourceMap.from_json(file.read()) as map:
        chosen, tokens = random.Random(1), map.tokens()
        positions = [token[:2] for token in chosen.choices(tokens, k=100_000)]
        flat = array("I", [number for position in positions for number in position])
        indices, numbers, trace = array("I", bytes(400_000)), map.token_array(), map.trace
        print(f"{len(tokens)} tokens, lookups by {_lookups.trace.__module__ or 'the extension in C'}")
        print(f"one lookup: {took(lambda: [trace(*it) for it in positions[:1000]], 200, 1000):.0f}")
        print(f"in bulk, as indices: {took(lambda: map.find_all_into(flat, indices), 20, 100_000):.1f}")
        print(f"in bulk, as objects: {took(lambda: map.trace_all(flat), 10, 100_000):.0f}")
        print(f"all tokens as an array: {took(map.token_array, 50, len(tokens)):.2f}")
        print(f"the same into a buffer: {took(lambda: map.tokens_into(numbers), 50, len(tokens)):.2f}")
        print(f"all tokens as objects: {took(map.tokens, 10, len(tokens)):.0f}")


main()
