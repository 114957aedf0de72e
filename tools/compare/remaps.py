"""Compares remapping and source roots of `smap` with peers, on random maps and on real bundles.

A random case is a plan over small maps, some of which are not sorted and read by `sort`, one in four simplified at last, whose
output has to be that of peer.py, byte for byte. Bundles are those that make_maps.py made: of several modules, each with its map.
They are also compared with Debian's npm package @ampproject/remapping, at the column of each token and at the one before it;
--rounds times it, too.
"""

import json
import os
import random
from collections import Counter
from concurrent.futures import ThreadPoolExecutor

import peer

from tools.compare.report import check, header, peers, row, smap

# A plan takes a path as it is, so some are words of plans.
PATHS = ["a.js", "b.js", "c.js", "é 😀.js", "remap", "@0", "3", ""]
ROOTS = [None, None, "", "lib", "lib/", "/lib", "https://example.org/é", "a/b", "\\"]
ROOTED = [*PATHS, "/a.js", "//a.js", "c:", "webpack:///a.js", "a+b-c.1:d", "1a:b", "a_b:c", ":a", "a/b:c", "é:a"]
NAMES, LINES, COLUMNS = ["p", "q", "r", "é"], 3, 7


def evaluated(words, texts):
    """What `smap` prints of a plan over these texts."""
    return smap(["plan", *words], "\n---\n".join(texts))


class Case:
    """A plan over random maps: its words, their texts, and what it means by peer.py."""

    def __init__(self, number):
        self.chosen, self.texts = random.Random(number), []
        top = self.rooted if number % 5 == 0 else self.remapped
        self.words, value, tokens = top(2)
        if number % 4 == 1:
            value, tokens = peer.simplify(value, tokens)
            self.words = ["simplify", *self.words]
        self.expected = peer.to_text(value, tokens)

    def some(self, values, most):
        return [self.chosen.choice(values) for _ in range(self.chosen.randint(0, most))]

    def tokens(self, sources, names, is_sorted):
        places = [(self.chosen.randrange(LINES), self.chosen.randrange(COLUMNS)) for _ in range(self.chosen.randrange(9))]
        # What a text can hold: only columns go back.
        places.sort(key=None if is_sorted else lambda place: place[0])
        ids = [None, *range(sources), *range(sources)]
        for line, column in places:
            source = self.chosen.choice(ids)
            name = self.chosen.choice([None, *range(names)]) if source is not None else None
            yield line, column, source, self.chosen.randrange(LINES), self.chosen.randrange(COLUMNS), name

    def map(self):
        sources, names = self.some(ROOTED if self.chosen.random() < 0.2 else PATHS[:4], 3), self.some(NAMES, 3)
        value = {"version": 3, "sources": sources, "names": names}
        some = lambda *values: self.chosen.choice([None, *values])
        value |= {"file": some("out.js"), "sourceRoot": self.chosen.choice(ROOTS), "debugId": some("id")}
        value["sourcesContent"] = some(self.some(["x", "y", None], 4))
        for key in ("ignoreList", "x_google_ignoreList"):
            value[key] = some([], self.some(range(len(sources)), 3)) if sources else some([])
        is_sorted = self.chosen.random() < 0.7
        value["mappings"] = peer.encode(list(self.tokens(len(sources), len(names), is_sorted)))
        kept = {key: member for key, member in value.items() if member is not None or self.chosen.random() < 0.5}
        self.texts.append(json.dumps(kept, ensure_ascii=self.chosen.random() < 0.5))
        tokens, word = peer.decode(value["mappings"]), f"@{len(self.texts) - 1}"
        if is_sorted and self.chosen.random() < 0.9:
            return [word], value, tokens
        return ["sort", word], value, peer.sort(tokens)

    def plan(self, depth):
        """Words, a value and its tokens."""
        kinds = [self.remapped, self.rooted, self.joined, self.composed, self.rewritten]
        return self.chosen.choice(kinds)(depth) if depth and self.chosen.random() < 0.3 else self.map()

    def rewritten(self, depth):
        words, value, tokens = self.plan(depth - 1)
        return ["rewrite", *words], value, peer.decode(peer.encode(tokens))

    def rooted(self, depth):
        words, value, tokens = self.plan(depth - 1)
        return ["root", *words], peer.rooted(value), tokens

    def joined(self, depth):
        count, line, all_words, parts = self.chosen.randint(0, 3), 0, [], []
        for _ in range(count):
            words, value, tokens = self.plan(depth - 1)
            all_words += [*words, line]
            parts.append((value, tokens, line))
            line += tokens[-1][0] + self.chosen.randint(1, 2) if tokens else 0
        return ["join", count, *all_words], *peer.join(parts)

    def composed(self, depth):
        words, value, tokens = self.plan(depth - 1)
        if len(value["sources"]) > 1:
            return words, value, tokens
        under_words, under, under_tokens = self.plan(depth - 1)
        return ["compose", *words, *under_words], *peer.compose(value, tokens, under, under_tokens)

    def remapped(self, depth):
        words, value, tokens = self.plan(depth - 1)
        paths = self.some([*value["sources"] * 3, *PATHS], 4)
        inputs = [(path, self.plan(depth - 1)) for path in paths]
        words = ["remap", *words, len(inputs), *(word for path, (words, _, _) in inputs for word in [path, *words])]
        return words, *peer.remap(value, tokens, [(path, under, under_tokens) for path, (_, under, under_tokens) in inputs])


def compared(number):
    """Whether the output of `smap` in a case is that of peer.py, and how many tokens and sources that has."""
    case = Case(number)
    output = evaluated(case.words, case.texts)
    check(output == case.expected, f"case {number}: {case.words}: {output}, not {case.expected}")
    value = json.loads(case.expected)
    return Counter(
        plans=1, words=len(case.words), texts=len(case.texts), sources=len(value["sources"]), tokens=len(peer.decode(value["mappings"]))
    )


def cases():
    with ThreadPoolExecutor(os.cpu_count()) as pool:
        counts = sum(pool.map(compared, range(options.cases)), Counter())
    header("random plans# | words# | maps# | sources of results# | their tokens#")
    row(*counts.values())


class Step:
    """A map, and the steps of its sources that have maps, by their paths."""

    def __init__(self, text, inputs):
        self.text, self.inputs = text, inputs
        self.value = json.loads(text)
        self.tokens = peer.decode(self.value["mappings"])
        self.table = peer.Table(self.tokens)

    def led(self, token, name=None, clamped=False):
        """Where a token leads through the steps: a source, line, column and name; "unmapped"; or the step that has nothing on
        the line of a position, or, unless clamped, nothing at or before it."""
        if token is None or token[2] is None:
            return self if token is None else "unmapped"
        _, _, source, line, column, own = token
        path, name = self.value["sources"][source], name if own is None else self.value["names"][own]
        if path not in self.inputs:
            return path, line, column, name
        step = self.inputs[path]
        return step.led(step.table.find(line, column, clamped), name, clamped)

    def for_peer(self, inputs, below=""):
        """The text of the map with names for its sources that no peer changes; `inputs` gets those of the steps below."""
        names = [f"{below}{id}" for id in range(len(self.value["sources"]))]
        for name, path in zip(names, self.value["sources"]):
            if path in self.inputs:
                inputs[name] = self.inputs[path].for_peer(inputs, f"{name}.")
        return json.dumps({**self.value, "sources": names, "sourceRoot": None})

    def path(self, name):
        """The path of a source by its name for the peer."""
        first, _, rest = name.partition(".")
        path = self.value["sources"][int(first)]
        return self.inputs[path].path(rest) if rest else path


def remapped_by_peer(step):
    """The peer's answer, and the tokens of its map with what they point to."""
    inputs = {}
    given = {"map": step.for_peer(inputs), "inputs": inputs, "rounds": options.rounds}
    answer = peers("remap", given)
    value = json.loads(answer["remapped"])
    pointed = lambda token: (step.path(value["sources"][token[2]]), *token[3:5], name_in(value, token))
    return answer, [(*token[:2], None if token[2] is None else pointed(token)) for token in peer.decode(value["mappings"])]


def name_in(value, token):
    return None if token[5] is None else value["names"][token[5]]


def kept_by_peer(step):
    """What the peer keeps of a map: a token that it can trace, unless the one kept before it on the line points to the same
    place, by whatever name."""
    kept, last = [], (None, None)
    for token in step.tokens:
        led = step.led(token)
        place = led[:3] if isinstance(led, tuple) else led
        if last[0] != token[0]:
            last = token[0], "unmapped"
        if not isinstance(led, Step) and place != last[1]:
            kept.append((*token[:2], None if led == "unmapped" else led))
            last = token[0], place
    return kept


def reached(step, token):
    """What a token of ours points to, and how it is led there: exactly, clamped, or not, and then which step has nothing."""
    exact, clamped = step.led(token), step.led(token, clamped=True)
    how = "exact" if not isinstance(exact, Step) else clamped if isinstance(clamped, Step) else "clamped"
    return clamped if isinstance(clamped, tuple) else None, how


def why_differs(how, ours, theirs):
    """Why the peer's answer at a position is another one, or None. What a bundler adds is of no module."""
    if how == "clamped" and theirs is None:
        return "clamped: none"
    if how == "clamped" and ours is not None:
        return "clamped: another place" if theirs[0] == ours[0] else "clamped: another module"
    if isinstance(how, Step) and ours is None:
        is_of_module = not how.inputs and theirs[0] in how.value["sources"]
        return "untraced: same module" if is_of_module else "untraced: another module"
    if ours and theirs and ours[:3] == theirs[:3]:
        return "name"
    return None


EXPLAINED = [
    "clamped: none",
    "clamped: another place",
    "clamped: another module",
    "untraced: same module",
    "untraced: another module",
    "name",
]


def positions(tokens):
    """The column of each token, and the one before it."""
    return sorted({(line, column - back) for line, column, *_ in tokens for back in (0, 1) if column >= back})


def check_tokens(name, value, expected):
    """Checks that a map has these tokens, each with what it points to."""
    for token, wanted in zip(peer.decode(value["mappings"]), expected, strict=True):
        said = None if token[2] is None else (value["sources"][token[2]], *token[3:5], name_in(value, token))
        check((*token[:2], said) == wanted, f"{name}: {token}, not {wanted}")


def answers_compared(name, step, output):
    """How many tokens are led in which way, at how many positions the peer's answer is which, and its answer."""
    ours = [(*token[:2], *reached(step, token)) for token in step.tokens]
    check_tokens(name, json.loads(output), [token[:3] for token in ours])
    answer, theirs = remapped_by_peer(step)
    check(theirs == kept_by_peer(step), f"{name}: the mappings that the peer keeps")
    our_table, their_table, answers = peer.Table(ours), peer.Table(theirs), Counter()
    for line, column in positions(step.tokens):
        _, _, our, how = our_table.find(line, column) or (None, None, None, "exact")
        _, _, their = their_table.find(line, column) or (None, None, None)
        why = "equal" if our == their else why_differs(how, our, their)
        check(why, f"{name} at {line}:{column}: the peer has {their}, not {our}")
        answers[why] += 1
    return Counter("untraced" if isinstance(how, Step) else how for *_, how in ours), answers, answer


def words_of(step):
    """The texts of a step and of those below it, and the words of the plan that remaps each by those of its sources."""
    texts = []

    def words(step):
        texts.append(step.text)
        own = f"@{len(texts) - 1}"
        below = [word for path, step in step.inputs.items() for word in [path, *words(step)]]
        return ["remap", own, len(step.inputs), *below] if step.inputs else [own]

    return words(step), texts


def remapped(step):
    """The value and the tokens of a step, remapped by those of its sources, by peer.py."""
    inputs = [(path, *remapped(below)) for path, below in step.inputs.items()]
    return peer.remap(step.value, step.tokens, inputs) if inputs else (step.value, step.tokens)


def of_bundle(name, what, step):
    words, texts = words_of(step)
    output = evaluated(words, texts)
    check(output == peer.to_text(*remapped(step)), f"{name}, {what}: plan remap")
    led, answers, answer = answers_compared(f"{name}, {what}", step, output)
    times = [f"{answer[of]:.1f}" for of in ("whole", "alone")] if options.rounds else []
    row(
        name,
        what,
        len(texts) - 1,
        len(json.loads(output)["sources"]),
        len(step.tokens),
        "/".join(str(led[how]) for how in ("exact", "clamped", "untraced")),
        answers.total(),
        answers["equal"],
        "/".join(str(answers[why]) for why in EXPLAINED),
        *times,
    )


def meaning(text):
    """What a map says, whatever the order of its names."""
    value = json.loads(text)
    said = [peer.trace_text(value, token) for token in peer.decode(value["mappings"])]
    return {**value, "names": None, "mappings": said}


def composed_two_ways(name, minified, bundle):
    """A minified bundle composed with the remapped one, and remapped once it is composed with the bundle."""
    words, texts = words_of(bundle)
    own, top = f"@{len(texts)}", (minified.value, minified.tokens)
    sooner = evaluated(["compose", own, *words], [*texts, minified.text])
    later = evaluated(["remap", "compose", own, *words[1:]], [*texts, minified.text])
    check(sooner == peer.to_text(*peer.compose(*top, *remapped(bundle))), f"{name}: remapped, then composed")
    inputs = [(path, step.value, step.tokens) for path, step in bundle.inputs.items()]
    composed = peer.compose(*top, bundle.value, bundle.tokens)
    check(later == peer.to_text(*peer.remap(*composed, inputs)), f"{name}: composed, then remapped")
    check(meaning(sooner) == meaning(later), f"{name}: composed before and after")


def bundles():
    line = "bundle | maps | of modules# | sources# | tokens# | exact/clamped/untraced | positions# | equal#"
    header(f"{line} | {'/'.join(EXPLAINED)}" + (" | ms, texts# | ms, maps#" if options.rounds else ""))
    for name, modules in json.load(open("bundles.json")).items():
        read = lambda file: open(f"bundles/{name}/{file}", encoding="utf-8").read().rstrip("\n")
        text, minified = read("bundle.js.map"), read("minified/bundle.js.map")
        maps = {path: Step(read(file), {}) for path, file in modules.items()}
        bundle = Step(text, maps)
        of_bundle(name, "each module's", bundle)
        of_bundle(name, "those of two modules in three", Step(text, {path: maps[path] for k, path in enumerate(maps) if k % 3}))
        over_bundle = Step(minified, {json.loads(minified)["sources"][0]: bundle})
        of_bundle(name, "each module's, minified", over_bundle)
        composed_two_ways(name, over_bundle, bundle)


def add_arguments(words):
    words.add_argument("--cases", type=int, default=20_000)
    words.add_argument("--rounds", type=int, default=0)
    words.add_argument("--only", choices=["cases", "bundles"])
    words.add_argument("folder")


def compare(asked):
    global options
    options = asked
    os.chdir(options.folder)
    for table in (cases, bundles):
        if options.only in (None, table.__name__):
            table()
