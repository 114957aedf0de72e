"""What `sourcemap size` tells of real and of random codes, beside a count of each character by itself. For tools/check/sourcemap."""

import gzip
import itertools
import json
import os
import random
import tempfile
from pathlib import Path

REAL = Path(__file__).resolve().parents[2] / "tests/real-maps"
# Codes of it, by tools that are unlike each other.
CODES = ["esbuild/main.js", "esbuild-min/main.js", "terser-over-esbuild/main.js", "rollup/main.js", "coffee/steps.js", "sassc/theme.css"]
# What random codes are made of: characters of one to four bytes, one or two units, and all ends of lines.
PARTS = ["a", "b;", " ", "\u00e9", "\u20ac", "\U0001f600", "\n", "\r", "\r\n", "\u2028", "\ufeff"]
SOURCES = ["s.ts", "d/t.ts", "node_modules/@p/u/v.ts"]
FOLDERS = {"s.ts": ["./"], "d/t.ts": ["./", "d/"], SOURCES[2]: ["./", "node_modules/", "node_modules/@p/", "node_modules/@p/u/"]}
PACKAGES = {"s.ts": [None], "d/t.ts": [None], SOURCES[2]: ["@p/u"]}


def counted(ref, text, mappings, names):
    """How many bytes of a code come from each of its sources, None for none, by what the exact lookup finds at each character, but for a byte
    order mark."""
    mark, text = text[: text.startswith("\ufeff")], text.removeprefix("\ufeff")
    tokens, places = ref.tokens_by_line(mappings), iter(ref.positions(ref.units_of(text)))
    sizes = {None: 3} if mark else {}
    for character in text:
        line, column = [next(places) for _ in ref.units_of(character)][0]
        original = ref.lookup(tokens[line], column) if line < len(tokens) else None
        name = original and names[original[0]]
        sizes[name] = sizes.get(name, 0) + len(character.encode())
    return sizes


def real(ref, code):
    """Those of a real code, by paths of sources from the code's folder."""
    found = json.loads((REAL / f"{code}.map").read_bytes())
    names = [os.path.normpath(os.path.join(found.get("sourceRoot", ""), it)) for it in found["sources"]]
    return counted(ref, (REAL / code).read_bytes().decode(), found["mappings"], names)


def added(*all_sizes):
    """Sizes, added up."""
    return {name: sum(it.get(name, 0) for it in all_sizes) for name in {name for it in all_sizes for name in it}}


def grouped(sizes, groups):
    """Sizes of sources as those of the groups that each source is in; no source and no group are one."""
    return added(*({group: count} for name, count in sizes.items() for group in (groups[name] if name else ["none"])))


def told(run, check, words, folder):
    """The rows of a run, which has nothing else to say, by their names; the most bytes are told first."""
    status, out, err = run(["size", "--json", *words], folder)
    rows = [json.loads(it) for it in out.splitlines()]
    counts = [it["bytes"] for it in rows]
    check((status, err) == (0, "") and counts == sorted(counts, reverse=True), f"sizes of {words}: {status}, {out}, {err}")
    return {None if it["kind"] == "own" else it.get("name", "none"): it["bytes"] for it in rows}


def of_real(run, check, ref):
    """Each real code by itself, all together, and the difference of two."""
    wanted = {code: {os.path.join("sources", name[11:]) if name else "none": it for name, it in real(ref, code).items()} for code in CODES}
    for codes in (*([code] for code in CODES), CODES):
        found, sizes = told(run, check, codes, REAL), added(*(wanted[code] for code in codes))
        check(found == sizes, f"sizes of {codes}: {found}, not {sizes}")
        length = sum((REAL / code).stat().st_size for code in codes)
        check(sum(found.values()) == length, f"sizes of {codes}: {found}, together not {length}")
    old, new = real(ref, CODES[0]), real(ref, CODES[1])
    status, out, _ = run(["size", "--json", "--diff", *CODES[:2]], REAL)
    found = {it.get("name"): (it["old"], it["new"], it["change"]) for it in map(json.loads, out.splitlines())}
    sizes = {name: (old.get(name, 0), new.get(name, 0), new.get(name, 0) - old.get(name, 0)) for name in {**old, **new}}
    check((status, found) == (1, {name: it for name, it in sizes.items() if it[2]}), f"sizes of two builds: {found}, not {sizes}")


def random_mappings(chance, vlq):
    """Mappings of up to seven lines: tokens at one position, past the ends of lines, and without a source."""
    lines, source = [], 0
    for _ in range(chance.randrange(8)):
        segments = []
        for _ in range(chance.randrange(6)):
            segment, to = vlq(chance.choice([0, 0, 1, 1, 2, 3, 9])), chance.randrange(3)
            if chance.random() < 0.8:
                segment, source = f"{segment}{vlq(to - source)}AA", to
            segments.append(segment)
        lines.append(",".join(segments))
    return ";".join(lines)


def of_gzip(run, check, folder, sizes):
    """The bytes of the gzip file of c.js, each source's by where its part ends if they lie side by side; and files that are none of it."""
    packed, ends = Path(folder, "c.js.gz"), [0, *itertools.accumulate(sizes.get(it, 0) for it in [*SOURCES, None])]
    data = gzip.compress(Path(folder, "c.js").read_bytes())
    packed.write_bytes(data)
    ends = [it * len(data) // ends[-1] for it in ends] if ends[-1] else [0, 0, 0, 0, len(data)]
    wanted = {name: b - a for name, a, b in zip([*SOURCES, "none"], ends, ends[1:]) if b > a}
    found = told(run, check, ["--gzip", "c.js"], folder)
    check(found == wanted and sum(found.values()) == len(data), f"sizes of {len(data)} bytes by gzip of {sizes}: {found}, not {wanted}")
    for wrong in (gzip.compress(b"x" * (sum(sizes.values()) or 1)), data[:-8] + bytes([data[-8] ^ 1]) + data[-7:], b"\x1f\x8c" + data[2:], b""):
        packed.write_bytes(wrong)
        status, out, err = run(["size", "--gzip", "c.js"], folder)
        refused = (status, out) == (2, "") and "c.js.gz: is not of this code: gzip -kf makes it anew" in err
        check(refused, f"another gzip file: {status}, {out}, {err}")


def tried(run, check, ref, vlq):
    """Real codes, and random ones, also by folder and by package, and by gzip."""
    of_real(run, check, ref)
    chance = random.Random(49)
    for _ in range(100):
        text = "".join(chance.choice(PARTS) for _ in range(chance.randrange(40)))
        mappings = random_mappings(chance, vlq)
        sizes = counted(ref, text, mappings, SOURCES)
        with tempfile.TemporaryDirectory() as folder:
            Path(folder, "c.js").write_bytes(text.encode())
            Path(folder, "c.js.map").write_text(json.dumps({"version": 3, "sources": SOURCES, "names": [], "mappings": mappings}))
            for by, groups in (("source", {it: [it] for it in SOURCES}), ("folder", FOLDERS), ("package", PACKAGES)):
                found, wanted = told(run, check, ["--by", by, "c.js"], folder), grouped(sizes, groups)
                check(found == wanted, f"sizes by {by} of {text!r} with {mappings}: {found}, not {wanted}")
            of_gzip(run, check, folder, sizes)
