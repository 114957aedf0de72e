"""Makes indexed maps of bundles whose parts were minified one by one, and compares `smap` with peers on them.

The parts are modules of Debian's node-lodash, minified by Debian's esbuild or terser. The peers are peer.py, with the single
maps, the npm packages of Debian's node-source-map and node-ampproject-remapping, and Node's own `SourceMap`.
"""

import glob
import json
import os
import random
import subprocess
from collections import Counter

import peer

from tools.compare.report import check, header, peers, row, smap

LODASH = "/usr/share/nodejs/lodash-es"
EXPLAINED = {"trace-mapping": [], "node-source-map": ["section start", "own section alone"], "node": ["last token"]}


def run(command, **options):
    return subprocess.run(command, check=True, capture_output=True, **options).stdout


def part(module):
    """The code and the map that a tool wrote for a module; the source is named without its folder."""
    name = os.path.basename(module)
    code = open(f"parts/{name}", encoding="utf-8").read()
    value = json.load(open(f"parts/{name}.map"))
    return code.split("//# sourceMappingURL")[0], {**value, "sources": [os.path.basename(path) for path in value["sources"]]}


def esbuild(module, *words):
    run(["esbuild", module, "--sourcemap=external", "--log-level=error", f"--outfile=parts/{os.path.basename(module)}", *words])
    return part(module)


def terser(module):
    name = os.path.basename(module)
    run(["terser", "-c", "-m", "--module", "--source-map", f"filename={name}", "-o", f"parts/{name}", "--", module])
    return part(module)


def units(text):
    return len(text.encode("utf-16-le")) // 2


def bundle(parts, separator=""):
    """The indexed map of codes one behind the other, each at the place where it begins."""
    sections, line, column = [], 0, 0
    for code, value in parts:
        sections.append({"offset": {"line": line, "column": column}, "map": value})
        lines = (code + separator).split("\n")
        line, column = line + len(lines) - 1, units(lines[-1]) + (column if len(lines) == 1 else 0)
    return {"version": 3, "file": "bundle.js", "sections": sections}


def side_by_side(parts, separator):
    """A bundle in which no part ends in a line feed, so that the next one begins on its last line."""
    return bundle([(code.rstrip("\n"), value) for code, value in parts], separator)


def start(section):
    return section["offset"]["line"], section["offset"]["column"]


def joined_text(value, file):
    """The JSON text of the join of the sections."""
    joined, tokens = peer.read(value)
    return peer.to_text({**joined, "file": file}, tokens)


def named(map, token):
    """What a token says of the source, by names."""
    if token is None or token[2] is None:
        return None
    return [map["sources"][token[2]], token[3], token[4], None if token[5] is None else map["names"][token[5]]]


def some_positions(value, count):
    """Columns of tokens and columns beside them, columns where sections begin, and random ones."""
    chosen = random.Random(1)
    tokens = [token for _, tokens in peer.placed(value) for token in tokens]
    beside = lambda place: (place[0], max(0, place[1] + chosen.choice([-1, 0, 0, 1])))
    near = [beside(token) for token in chosen.choices(tokens, k=count * 6 // 10)]
    first = [beside(start(section)) for section in chosen.choices(value["sections"], k=count * 2 // 10)]
    rest = [(chosen.choice(tokens)[0], chosen.randrange(400)) for _ in range(count - len(near) - len(first))]
    return near + first + rest


class Sections:
    """Looks positions up in the single maps."""

    def __init__(self, value):
        self.starts = [start(section) for section in value["sections"]]
        self.maps = [section["map"] for section in value["sections"]]
        self.tables = [peer.Table(peer.decode(map["mappings"])) for map in self.maps]

    def own(self, k, line, column):
        at_line, at_column = self.starts[k]
        return line - at_line, column - at_column if line == at_line else column

    def find(self, line, column):
        """The section of a position and its token there, or, where it has none, those of the section before it on the line."""
        for k in reversed(range(len(self.starts))):
            if self.starts[k] > (line, column):
                continue
            token = self.tables[k].find(*self.own(k, line, column))
            if token is not None or self.starts[k][0] < line or self.starts[k][1] == 0:
                return k, token
        return 0, None

    def answer(self, k, token):
        return named(self.maps[k], token)

    def trace(self, k, token):
        return peer.trace_text(self.maps[k], token)

    def reason(self, name, position, k, token, answer):
        """Why a peer's answer is not that of the lookup, or None."""
        if name == "node-source-map" and position in self.starts:
            return "section start"
        if name == "node-source-map" and answer is None and k + 1 < len(self.starts) and self.starts[k + 1] <= position:
            return "own section alone"
        if name == "node" and token and token == self.tables[k].tokens[-1]:
            return "last token"
        return None


def join_plan(value):
    """The words and the input of the same join as a plan over the single maps."""
    words = ["plan", "joinat", len(value["sections"])]
    for k, section in enumerate(value["sections"]):
        words += [f"@{k}", *start(section)]
    return words, "\n---\n".join(json.dumps(section["map"], ensure_ascii=False) for section in value["sections"])


def equal_answers(name, found, positions, wanted, sections):
    """How many answers of each peer are the wanted ones, and why the others are not."""
    cells = []
    for of, answers in found["answers"].items():
        why, equal = dict.fromkeys(EXPLAINED[of], 0), 0
        for position, (k, token), answer in zip(positions, wanted, answers):
            if answer == sections.answer(k, token):
                equal += 1
                continue
            because = sections.reason(of, position, k, token, answer)
            check(because in why, f"{name}: {of} at {position}: {answer}, not {sections.answer(k, token)}")
            if because in why:
                why[because] += 1
        cells += [equal] + ["/".join(map(str, why.values()))] * bool(why)
    return cells


def count_of(tokens, *places):
    """How often each token is there, where only these places of it are looked at."""
    return Counter(tuple(token[place] for place in places) for token in tokens.elements())


def equal_mappings(name, found, tokens):
    """How many of the tokens stand in the list of all mappings of each package, and why the others do not."""
    listed = {of: Counter(map(tuple, mappings)) for of, mappings in found["mappings"].items()}
    check(listed["trace-mapping"] == tokens, f"{name}: mappings of trace-mapping")
    missing, other = tokens - listed["node-source-map"], listed["node-source-map"] - tokens
    no_name = (count_of(missing, *range(5)) & count_of(other, *range(5))).total()
    moved = (count_of(missing, 0, 2, 3, 4) & count_of(other, 0, 2, 3, 4)).total() - no_name
    check(no_name + moved == missing.total(), f"{name}: mappings of node-source-map")
    return [(listed[of] & tokens).total() for of in ("trace-mapping", "node-source-map")] + [f"{no_name}/{moved}"]


def by_esbuild(name):
    """What esbuild says of a file whose map is the indexed one."""
    open("over.js", "w").write(f"0\n//# sourceMappingURL={name}.map\n")
    said = subprocess.run(["esbuild", "over.js", "--sourcemap", "--outfile=over.out.js"], capture_output=True, text=True).stderr
    return " ".join(line for line in said.splitlines() if "WARNING" in line)


def compared(name, how, value):
    text = json.dumps(value, ensure_ascii=False)
    open(f"{name}.map", "w", encoding="utf-8").write(text)
    positions, sections = some_positions(value, options.positions), Sections(value)
    wanted = [sections.find(*position) for position in positions]
    check(smap(["normalise"], text) == joined_text(value, value["file"]), f"{name}: normalise")
    words, maps = join_plan(value)
    check(smap(words, maps) == joined_text(value, None), f"{name}: plan joinat")
    for position, found in zip(positions, wanted):
        trace = smap(["trace", *position], text)
        check(trace == sections.trace(*found), f"{name}: trace {position}: {trace}")
    answers = peers("indexed", {"map": value, "positions": positions})
    tokens = Counter(
        (line, column, *(named(map, (line, column, *rest)) or [None] * 4))
        for map, part in peer.placed(value)
        for line, column, *rest in part
    )
    none = sum(token is None for _, token in wanted)
    unmapped = sum(token is not None and token[2] is None for _, token in wanted)
    in_mid_line = sum(column > 0 for _, column in sections.starts)
    maps_row = (name, how, len(sections.starts), in_mid_line, len(text.encode()), tokens.total(), *equal_mappings(name, answers, tokens))
    traces_row = (
        name,
        len(positions),
        f"{none}/{unmapped}/{len(wanted) - none - unmapped}",
        *equal_answers(name, answers, positions, wanted, sections),
    )
    return maps_row, traces_row, f"{name}: remapping: {answers['remapped'][:80]}; esbuild: {by_esbuild(name)}"


def add_arguments(words):
    words.add_argument("--positions", type=int, default=1000)
    words.add_argument("folder")


def compare(asked):
    global options
    options = asked
    os.makedirs(f"{options.folder}/parts", exist_ok=True)
    os.chdir(options.folder)
    modules = sorted(glob.glob(f"{LODASH}/[a-z]*.js"))
    few = modules[::6]
    rows = [
        compared("lines", "esbuild `--minify`, a line each", bundle([esbuild(it, "--minify") for it in modules])),
        compared("one-line", "esbuild `--minify`, side by side", side_by_side([esbuild(it, "--minify") for it in few], "")),
        compared("terser-one-line", "terser `-c -m`, side by side", side_by_side(map(terser, few), ";")),
        compared("several-lines", "esbuild, each on the last line of the one before", side_by_side(map(esbuild, few), " ")),
    ]
    maps, traces, others = zip(*rows)
    header(
        "indexed map | made by | sections# | begin in mid-line# | bytes# | tokens# | listed: trace-mapping# | node-source-map# | it differs"
    )
    for cells in maps:
        row(*cells)
    header("indexed map | positions# | found | equal: trace-mapping# | node-source-map# | it differs | Node# | it differs")
    for cells in traces:
        row(*cells)
    print("", *others, sep="\n")
