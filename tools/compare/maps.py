"""Compares `smap` with peer.py on the maps that make_maps.py made, and traces with the npm packages of Debian's node-source-map and
node-ampproject-remapping and Node's own `SourceMap`."""

import glob
import json
import os
import random
import time

import peer

from tools.compare.report import check, header, peers, row, smap

EXPLAINED = ["equal columns", "fallback", "last token"]


def read(path):
    text = open(path, "rb").read()
    value = json.loads(text)
    return text, value, peer.decode(value["mappings"])


def segments(mappings):
    return [[segment for segment in line.split(",") if segment] for line in mappings.rstrip(";").split(";")]


def notes_on(mappings):
    """What is not canonical in a text, and what its segments have."""
    trailing = len(mappings) - len(mappings.rstrip(";"))
    short = sum(len(peer.fields_of(segment.encode())) == 1 for line in segments(mappings) for segment in line)
    notes = [f"{trailing} semicolons at the end"] * (trailing > 0) + [f"{short} segments of one field"] * (short > 0)
    return ", ".join(notes)


def normalised(how):
    header("map | tool | how | bytes# | sources# | names# | tokens# | notes on the given mappings | mappings")
    for one in how:
        text, value, tokens = read(f"maps/{one['name']}.map")
        expected = peer.to_text(value, tokens)
        output = smap(["normalise"], text)
        check(output == expected, f"{one['name']}: normalise")
        check(smap(["url"], text) == peer.to_url(expected), f"{one['name']}: url")
        written = json.loads(output)["mappings"]
        check(segments(written) == segments(value["mappings"]) or peer.decode(written) == tokens, f"{one['name']}: segments")
        same = "same bytes" if written == value["mappings"] else "same segments"
        row(
            one["name"],
            one["tool"],
            f"`{one['how']}`",
            len(text),
            len(value["sources"]),
            len(value.get("names", [])),
            len(tokens),
            notes_on(value["mappings"]),
            same,
        )


def some_positions(tokens, count):
    """Columns of tokens, the columns before them, any columns, columns past the end of a line, and lines past the last."""
    chosen = random.Random(1)
    last = tokens[-1][0] if tokens else 0
    widest = max((token[1] for token in tokens), default=0)
    positions = []
    for k in range(count):
        line, column = tokens[chosen.randrange(len(tokens))][:2] if tokens else (0, 0)
        positions.append(
            [
                (line, column),
                (line, max(column - 1, 0)),
                (chosen.randint(0, last), chosen.randint(0, widest)),
                (line, widest + 5),
                (chosen.randint(0, last), 0),
                (last + 1 + k % 3, column),
                (line, column + 1),
            ][k % 7]
        )
    return positions


def reason(table, name, line, column, answer):
    """Why a peer's answer is not that of the lookup, or None."""
    token = table.find(line, column)
    here = [other for other in table.tokens_on(line) if token and other[1] == token[1]]
    if name == "node" and token is None:
        return "fallback"
    if any(list(other[2:5]) == answer[:3] for other in here if answer):
        return "equal columns"
    if name == "node" and token == table.tokens[-1]:
        return "last token"
    return None


class Lines(peer.Table):
    def __init__(self, tokens):
        super().__init__(tokens)
        self.lines = {}
        for token in tokens:
            self.lines.setdefault(token[0], []).append(token)

    def tokens_on(self, line):
        return self.lines.get(line, [])


def traced(how):
    header("map | positions# | found | equal: trace-mapping# | node-source-map# | Node# | Node differs")
    for one in how:
        text, value, tokens = read(f"maps/{one['name']}.map")
        table, positions = Lines(tokens), some_positions(tokens, options.positions)
        found = [table.find(*position) for position in positions]
        for position, token in zip(positions, found):
            check(smap(["trace", *position], text) == peer.trace_text(value, token), f"{one['name']}: trace {position}")
        counts = [found.count(None), sum(token is not None and token[2] is None for token in found)]
        equal, why = {}, dict.fromkeys(EXPLAINED, 0)
        for name, answers in peers("traces", {"map": value, "positions": positions}).items():
            equal[name] = 0
            for position, token, answer in zip(positions, found, answers):
                mapped = token is not None and token[2] is not None
                expected = [*token[2:5], None if token[5] is None else value["names"][token[5]]] if mapped else None
                if answer == expected:
                    equal[name] += 1
                    continue
                because = reason(table, name, *position, answer)
                check(because, f"{one['name']}: {name} at {position}: {answer}, not {expected}")
                if name == "node" and because:
                    why[because] += 1
        row(
            one["name"],
            len(positions),
            f"{counts[0]}/{counts[1]}/{len(found) - sum(counts)}",
            *equal.values(),
            "/".join(str(why[it]) for it in EXPLAINED),
        )


def traced_by_steps(maps, line, column):
    """Follows a position by hand: exactly in the last step's map, clamped in those of the steps before."""
    name = None
    for k, (_, value, table) in enumerate(maps):
        token = table.find(line, column, clamped=k > 0)
        if token is None or token[2] is None:
            return "nothing" if token is None and k == 0 else "unmapped"
        _, _, source, line, column, own = token
        name = value["names"][own] if own is not None else name
    text = f"{json.dumps(value['sources'][source], ensure_ascii=False)}:{line}:{column}"
    return text if name is None else f"{text} {json.dumps(name, ensure_ascii=False)}"


def read_steps(folder):
    """The maps of a pipeline, the last step's first."""
    paths = sorted(glob.glob(f"{folder}/*.map"), reverse=True)
    return [(text, value, tokens) for text, value, tokens in map(read, paths)]


def composed(how):
    header("pipeline | steps | maps# | bytes# | sources# | tokens# | names# | positions# | found | seconds#")
    for name, steps in how.items():
        maps = read_steps(f"pipelines/{name}")
        expected_value, expected_tokens = maps[-1][1:]
        for _, value, tokens in reversed(maps[:-1]):
            expected_value, expected_tokens = peer.compose(value, tokens, expected_value, expected_tokens)
        text = b"\n---\n".join(text.rstrip(b"\n") for text, _, _ in maps)
        last = len(maps) - 1
        to_right = [word for k in range(last) for word in ("compose", f"@{k}")] + [f"@{last}"]
        to_left = ["compose"] * last + [f"@{k}" for k in range(last + 1)]
        start = time.monotonic()
        output = smap(["plan", *to_right], text)
        took = time.monotonic() - start
        check(output == peer.to_text(expected_value, expected_tokens), f"{name}: plan")
        grouped = json.loads(smap(["plan", *to_left], text))
        means = lambda value: [peer.trace_text(value, token) for token in peer.decode(value["mappings"])]
        check(means(grouped) == means(json.loads(output)), f"{name}: grouped to the left")
        positions = some_positions(maps[0][2], options.positions)
        tables = [(text, value, peer.Table(tokens)) for text, value, tokens in maps]
        answers = [traced_by_steps(tables, *position) for position in positions]
        for position, answer in zip(positions, answers):
            check(smap(["trace", *position], output.encode()) == answer, f"{name}: trace {position}")
        counts = [answers.count("nothing"), answers.count("unmapped")]
        found = f"{counts[0]}/{counts[1]}/{len(answers) - sum(counts)}"
        row(
            name,
            steps,
            len(maps),
            len(text),
            len(expected_value["sources"]),
            len(expected_tokens),
            len(expected_value["names"]),
            len(positions),
            found,
            f"{took:.2f}",
        )


def joined(lines):
    """Joins the maps of all modules, each at the line where its code begins, in one join and in groups of ten."""
    maps = [read(f"modules/{name}.map") for name in lines]
    offsets = [sum(list(lines.values())[:k]) for k in range(len(maps))]
    text = b"\n---\n".join(text.rstrip(b"\n") for text, _, _ in maps)
    expected = peer.to_text(*peer.join([(value, tokens, offset) for (_, value, tokens), offset in zip(maps, offsets)]))
    whole = [word for k, offset in enumerate(offsets) for word in (f"@{k}", offset)]
    groups = range(0, len(maps), 10)
    grouped = ["join", len(groups)]
    for first in groups:
        members = range(first, min(first + 10, len(maps)))
        inner = [word for k in members for word in (f"@{k}", offsets[k] - offsets[first])]
        grouped += ["join", len(members), *inner, offsets[first]]
    header("plan | maps# | bytes# | tokens# | seconds#")
    all_at_once = ["join", len(maps), *whole]
    for name, words in [("`join`", all_at_once), ("`rewrite join`", ["rewrite", *all_at_once]), ("`join` of groups of ten", grouped)]:
        start = time.monotonic()
        output = smap(["plan", *words], text)
        took = time.monotonic() - start
        check(output == expected, f"modules: {name}")
        row(name, len(maps), len(text), len(peer.decode(json.loads(output)["mappings"])), f"{took:.2f}")


def size(text):
    value = json.loads(text)
    return [len(text.encode()), len(peer.decode(value["mappings"])), len(value["sources"]), len(value["names"])]


def said(text, positions):
    """The traces at positions, exact and clamped, with the contents of sources."""
    value = json.loads(text)
    table, contents = peer.Table(peer.decode(value["mappings"])), dict(zip(value["sources"], peer.contents_in(value)))
    for line, column in positions:
        for token in table.find(line, column), table.find(line, column, clamped=True):
            source = token and token[2]
            yield peer.trace_text(value, token), None if source is None else contents[value["sources"][source]]


def simplified(lines):
    """Joins the maps of all modules, and simplifies the join: as the peer does, once and for all, with the same traces."""
    texts = [open(f"modules/{name}.map", "rb").read().rstrip(b"\n") for name in lines]
    offsets = [sum(list(lines.values())[:k]) for k in range(len(texts))]
    words = ["join", len(texts), *[word for k, offset in enumerate(offsets) for word in (f"@{k}", offset)]]
    text = smap(["plan", *words], b"\n---\n".join(texts))
    value = json.loads(text)
    tokens = peer.decode(value["mappings"])
    output = smap(["plan", "simplify", *words], b"\n---\n".join(texts))
    check(output == peer.to_text(*peer.simplify(value, tokens)), "the simplified join")
    check(smap(["plan", "simplify", "@0"], output.encode()) == output, "the join, simplified twice")
    chosen = random.Random(1)
    positions = [(token[0], max(0, token[1] + chosen.randrange(-1, 3))) for token in chosen.choices(tokens, k=10_000)]
    differ = sum(a != b for a, b in zip(said(text, positions), said(output, positions)))
    check(differ == 0, f"the simplified join: {differ} traces")
    header("map | bytes# | tokens# | sources# | names#")
    row("join", *size(text))
    row("simplified", *size(output))
    print(f"\n{len(positions)} positions with the same traces, exact and clamped.")


TABLES = {
    "maps": (normalised, "maps"),
    "traces": (traced, "maps"),
    "compositions": (composed, "pipelines"),
    "joins": (joined, "modules"),
    "simplified": (simplified, "modules"),
}


def add_arguments(words):
    words.add_argument("--positions", type=int, default=70)
    words.add_argument("--only", choices=TABLES)
    words.add_argument("folder")


def compare(asked):
    global options
    options = asked
    os.chdir(options.folder)
    for name, (table, of) in TABLES.items():
        if options.only in (None, name):
            table(json.load(open(f"{of}.json")))
