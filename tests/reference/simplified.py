#!/usr/bin/env python3
"""Simplified maps and first differences, by the rules of docs/FORMAT.md ("Simplifying"), said of traces.

    simplified.py [--cases N] [--rows]

Without --rows it checks what is claimed of them on random maps and, for the least number of tokens, on all small ones; with it, it
prints the maps of ROWS and some random ones with their simplified ones, as JSON texts: the rows of tests/simplify.rs. A token is
(line, column, source, source line, source column, name), the last four None or ids."""
import argparse, itertools, json, random
from collections import namedtuple

Map = namedtuple("Map", "names sources contents ignored tokens")
NOTHING = "nothing"


def source(m, t):
    """The path and the content of a token's source, or None."""
    known = t[2] is not None and t[2] < len(m.sources)
    return (m.sources[t[2]], m.contents[t[2]] if t[2] < len(m.contents) else None) if known else None


def original(m, t):
    """What a token points to, by texts."""
    name = m.names[t[5]] if t[5] is not None and t[5] < len(m.names) else None
    return None if source(m, t) is None else (source(m, t), t[3], t[4], name)


def found(m, line, column):
    """The index of the token that answers at a position, or None."""
    near = [i for i, t in enumerate(m.tokens) if t[0] == line and t[1] <= column]
    best = max((m.tokens[i][1] for i in near), default=None)
    group = [i for i in near if m.tokens[i][1] == best]
    return None if not group else group[0] if best == column else group[-1]


def trace(m, line, column, clamped=False):
    i = found(m, line, column)
    if i is None and clamped:
        i = next((k for k, t in enumerate(m.tokens) if t[0] == line), None)
    return NOTHING if i is None else original(m, m.tokens[i])


def simple_tokens(m):
    """For each position whose trace is another than one column before: the token that answers there. It stays where it is, unless
    it answers only from the next column on while nothing changes at its own."""
    changes = lambda line, column: trace(m, line, column) != (trace(m, line, column - 1) if column else NOTHING)
    positions = sorted({(t[0], t[1] + k) for t in m.tokens for k in (0, 1)})
    kept = []
    for line, column in [p for p in positions if changes(*p)]:
        t = m.tokens[found(m, line, column)]
        kept.append((line, t[1] if t[1] == column or changes(line, t[1]) else column, *t[2:]))
    return kept


def once(items):
    return list(dict.fromkeys(items))


def simplified(m):
    kept = simple_tokens(m)
    names = once(original(m, t)[3] for t in kept if original(m, t) and original(m, t)[3] is not None)
    listed = [((path, m.contents[i] if i < len(m.contents) else None), i in (m.ignored or [])) for i, path in enumerate(m.sources)]
    sources = [(s, mark) for s in once(source(m, t) for t in kept if source(m, t)) for mark in (False, True) if (s, mark) in listed]

    def renumbered(t):
        if original(m, t) is None:
            return (*t[:2], None, 0, 0, None)
        name = original(m, t)[3]
        return (*t[:2], sources.index(listed[t[2]]), t[3], t[4], None if name is None else names.index(name))

    ignored = [i for i, (_, mark) in enumerate(sources) if mark]
    return Map(names, [s[0] for s, _ in sources], [s[1] for s, _ in sources], ignored or None, [renumbered(t) for t in kept])


def first_difference(a, b, line_and_column_limit=(9, 12)):
    """The first position whose traces differ, looked for one by one below a limit."""
    lines, columns = line_and_column_limit
    return next(((n, c) for n in range(lines) for c in range(columns) if trace(a, n, c) != trace(b, n, c)), None)


# What is made of two maps, as traces need it: tokens that point to texts, as original positions or None.
def pointing(m):
    return Map([], [], [], None, [(*t[:2], original(m, t)) for t in m.tokens])


def composed(a, b, path=None):
    """Each token of a, led on by the clamped trace of b; with a path only those of this source."""
    out = []
    for t in a.tokens:
        o = original(a, t)
        if o is None or path is not None and o[0][0] != path:
            out.append((*t[:2], o))
            continue
        there = trace(b, o[1], o[2], clamped=True)
        out.append((*t[:2], None if there in (NOTHING, None) else (*there[:3], there[3] if there[3] is not None else o[3])))
    return out


def led(tokens, line, column):
    near = [t for t in tokens if t[0] == line and t[1] <= column]
    best = max((t[1] for t in near), default=None)
    group = [t for t in near if t[1] == best]
    return NOTHING if not group else (group[0] if best == column else group[-1])[2]


def some_map(chosen, lines=3, columns=6, most=9):
    sources = [chosen.choice("ab") for _ in range(chosen.randint(0, 3))]
    names = [chosen.choice("pq") for _ in range(chosen.randint(0, 3))]
    contents = [chosen.choice([None, "x", "y"]) for _ in range(chosen.randint(0, 4))]
    ignored = chosen.choice([None, [], [i for i in range(len(sources)) if chosen.random() < 0.5]])
    ids = [None, *range(len(sources)), *range(len(sources) + 1)]
    tokens = [(chosen.randrange(lines), chosen.randrange(columns), chosen.choice(ids), chosen.randrange(2), chosen.randrange(2),
               chosen.choice([None, *range(len(names) + 1)])) for _ in range(chosen.randint(0, most))]
    return Map(names, sources, contents, ignored, sorted(tokens, key=lambda t: t[:2]))


def traces(m, lines=4, columns=9):
    return [trace(m, n, c, k) for n in range(lines) for c in range(columns) for k in (False, True)]


def check_one(number):
    chosen = random.Random(number)
    m, other = some_map(chosen), some_map(chosen)
    s = simplified(m)
    assert traces(m) == traces(s), (m, s)
    assert simplified(s) == s, (m, s)
    assert sorted(s.tokens, key=lambda t: t[:2]) == s.tokens and len(s.tokens) <= len(m.tokens)
    assert set(s.names) <= set(m.names) and len(set(s.names)) == len(s.names)
    used = {original(m, t)[0] for t in m.tokens if original(m, t)}
    assert set(zip(s.sources, s.contents)) <= used
    marks = lambda m, t: t[2] in (m.ignored or []) if source(m, t) else None
    for line, column in ((n, c) for n in range(3) for c in range(8)):
        i, k = found(m, line, column), found(s, line, column)
        assert i is None or source(m, m.tokens[i]) == source(s, s.tokens[k])
    assert first_difference(m, s) is None
    for path in (None, "a"):
        for one, two in ((composed(m, other, path), composed(s, other, path)), (composed(other, m, path), composed(other, s, path))):
            assert all(led(one, n, c) == led(two, n, c) for n in range(3) for c in range(8))
    lines = 1 + max([t[0] for t in m.tokens], default=0)
    join = lambda a, b: [*pointing(a).tokens, *((t[0] + lines, *t[1:]) for t in pointing(b).tokens)]
    for one, two in ((join(m, other), join(s, other)), (join(m, other), join(m, simplified(other)))):
        assert all(led(one, n, c) == led(two, n, c) for n in range(7) for c in range(8))


def check_least():
    """Over all lines of up to 4 tokens: nothing with fewer tokens has the same traces."""
    least, every = {}, []
    for count in range(5):
        for columns in itertools.combinations_with_replacement(range(6), count):
            for lines in itertools.product((None, 0, 1) if count < 4 else (0, 1), repeat=count):
                m = Map([], ["a"], [], None, [(0, c, None if k is None else 0, k or 0, 0, None) for c, k in zip(columns, lines)])
                answers = tuple(trace(m, 0, c, k) for c in range(8) for k in (False, True))
                least[answers] = min(least.get(answers, 9), count)
                if not columns or columns[-1] < 5:
                    every.append((m, answers))
    for m, answers in every:
        assert len(simplified(m).tokens) == least[answers], m
    return len(every)


# What the rows show, and their maps.
AT = lambda line, column, source=None, name=None, to=(0, 0): (line, column, source, *to, name)
ROWS = [
    ("Nothing to drop.", Map(["x"], ["a"], [], None, [AT(0, 0, 0, 0), AT(0, 4, 0), AT(1, 0)])),
    ("Tokens that point where the one before points, on two lines.",
     Map([], ["a"], [], None, [AT(0, 0, 0), AT(0, 2, 0), AT(0, 5, 0), AT(0, 6, 0, to=(1, 0)), AT(1, 0, 0, to=(1, 0)), AT(1, 3, 0, to=(1, 0))])),
    ("Unmapped tokens repeat one another, but not the start of a line.", Map([], ["a"], [], None, [AT(0, 0), AT(0, 1), AT(0, 2, 0), AT(1, 3), AT(1, 4)])),
    ("Of three at one position the middle one is never found.", Map([], ["a"], [], None, [AT(0, 3, 0), AT(0, 3, 0, to=(5, 0)), AT(0, 3, 0, to=(2, 0)), AT(0, 9, 0)])),
    ("The last of two at one position is not found either if the next column has a token.",
     Map([], ["a"], [], None, [AT(0, 3, 0), AT(0, 3, 0, to=(5, 0)), AT(0, 4, 0, to=(6, 0))])),
    ("The first of two at one position repeats: the second one moves.", Map([], ["a"], [], None, [AT(0, 0, 0), AT(0, 3, 0), AT(0, 3, 0, to=(7, 0)), AT(0, 8, 0)])),
    ("The second of two at one position points where the one before both points.", Map([], ["a"], [], None, [AT(0, 0, 0, to=(1, 1)), AT(0, 3, 0), AT(0, 3, 0, to=(1, 1))])),
    ("Equal names become one, and others go.", Map(["u", "x", "y", "x"], ["a"], [], None, [AT(0, 0, 0, 2), AT(0, 2, 0, 3), AT(0, 4, 0, 1), AT(0, 6, 0), AT(0, 8)])),
    ("Equal sources become one if their contents are equal.",
     Map([], ["b", "a", "a", "a", "c"], [None, "x", "y", "x", "z"], None, [AT(0, 0, 3), AT(0, 2, 1), AT(0, 4, 2), AT(0, 6, 0)])),
    ("An ignored source and an equal one that is not stay two, this one first.", Map([], ["b", "a", "a"], ["z", "x", "x"], [1, 0], [AT(0, 0, 1), AT(0, 2, 2, to=(3, 0)), AT(0, 4, 0)])),
    ("Equal sources, one of them ignored, trace alike.", Map([], ["a", "a"], [], [0], [AT(0, 0, 0), AT(0, 2, 1)])),
    ("No ignored source is left.", Map([], ["a", "b"], ["x"], [1], [AT(0, 0, 0)])),
    ("A source of which only a dropped token knew.", Map(["q"], ["a", "b"], [], None, [AT(0, 3, 0), AT(0, 3, 1, 0), AT(0, 3, 0, to=(2, 0)), AT(1, 0, 0)])),
    ("Names, sources and tokens at once.", Map(["u", "x", "x"], ["b", "a", "a"], ["z", "x", "x"], [1, 0], [AT(0, 0, 1, 2), AT(0, 2, 1, 1), AT(0, 2, 2, 1, to=(3, 0)), AT(0, 5)])),
    ("Nothing at all.", Map(["x"], ["a"], ["y"], [0], [])),
]


def readable(m):
    """The map without ids out of range, which no JSON text may have."""
    keeps = lambda t: t[2] is not None and t[2] < len(m.sources)
    name = lambda t: t[5] if t[5] is not None and t[5] < len(m.names) else None
    tokens = [(*t[:5], name(t)) if keeps(t) else (*t[:2], None, 0, 0, None) for t in m.tokens]
    return m._replace(tokens=tokens)


def number(n):
    """A number as base64 digits of five bits, the lowest first, its sign in the lowest bit."""
    n, digits = (-n << 1 | 1 if n < 0 else n << 1), ""
    while True:
        digits += "ABCDEFGHIJKLMNOPQRSTUVWXYZabcdefghijklmnopqrstuvwxyz0123456789+/"[n & 31 | (32 if n > 31 else 0)]
        n >>= 5
        if not n:
            return digits


def mappings(tokens):
    text, line, last = "", 0, [0] * 5
    for i, t in enumerate(tokens):
        text += ";" * (t[0] - line) if t[0] > line else "," if i else ""
        last[0] = 0 if t[0] > line else last[0]
        line = t[0]
        fields = [t[1]] if t[2] is None else [t[1], t[2], t[3], t[4]] + ([] if t[5] is None else [t[5]])
        text += "".join(number(field - last[k]) for k, field in enumerate(fields))
        last[: len(fields)] = fields
    return text


def as_json(m):
    contents = {"sourcesContent": [*m.contents, *[None] * (len(m.sources) - len(m.contents))]} if any(c is not None for c in m.contents) else {}
    ignored = {} if m.ignored is None else {"ignoreList": m.ignored}
    return json.dumps({"version": 3, "names": m.names, "sources": m.sources, **contents, **ignored, "mappings": mappings(m.tokens)}, separators=(",", ":"))


if __name__ == "__main__":
    parser = argparse.ArgumentParser()
    parser.add_argument("--cases", type=int, default=20000)
    parser.add_argument("--rows", action="store_true")
    options = parser.parse_args()
    if options.rows:
        for says, m in [*ROWS, *((f"Random map {k}.", readable(some_map(random.Random(k)))) for k in range(30))]:
            print(f'    // {says}\n    (r#"{as_json(m)}"#,\n     r#"{as_json(simplified(m))}"#),')
        raise SystemExit
    for number in range(options.cases):
        check_one(number)
    print(f"{options.cases} random maps and all of {check_least()} small ones are as claimed")
