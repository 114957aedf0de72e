"""Compares lookups both ways, sorting and positions in a text with the plain reference (tests/reference/lookups.py), and lookups with
npm packages.

`cases`: N random cases of each call on sorted maps, and as many on maps whose lines, columns and ids may be anything. `peers`: N
random positions each way in sorted maps, beside the packages. `maps`: in each map of FOLDER, which make_maps.py made, 1,000 tokens
each way, and the columns beside them.
"""

import json
import random
from bisect import bisect_left, bisect_right
from collections import Counter

import lookups as reference
import peer

from tools.compare.asking import Requests
from tools.compare.report import check, header, peers, row

MAX = 2**32 - 1
BACK = {
    "at": reference.generated_at,
    "for": reference.generated_for,
    "from": reference.generated_from,
    "all_for": reference.all_generated_for,
    "all_from": reference.all_generated_from,
}
FORWARD = {"find": reference.found_at, "near": reference.clamped_at, "after": reference.found_after}
PIECES = ["a", "é", "😀", "\n", "\r", "\r\n", "\u2028", "\u2029", "日本", "\n\r", "let x = 1;"]
# The call of ours that answers one of the peers', by the name that peers.js gives that.
CALLS = {
    "generated GREATEST": "for",
    "generated LEAST": "from",
    "all GREATEST": "all_for",
    "all LEAST": "all_from",
    "original GREATEST": "find",
    "original LEAST": "after",
}
LINE_ORDER = "Token {} lies on a line before the token in front of it"
PEERS = ["trace-mapping", "node-source-map"]
EXPLAINED = ["another line", "another source", "another of several", "order"]


def word(number):
    return "-" if number is None else str(number)


def token_text(token):
    return ":".join(map(word, token))


def in_words(tokens):
    return " ".join(word(number) for token in tokens for number in token)


def tokens_text(found):
    """How tools/compare/ask writes tokens: one or none, or a list."""
    found = [] if found is None else [found] if isinstance(found, tuple) else found
    return "".join(token_text(it) + " " for it in found)


def found_text(found):
    """How it writes a token with its index."""
    return "" if found is None else f"{token_text(found[1])} {found[0]}"


def decoded(mappings):
    """The tokens of a text, in the form of the reference."""
    return [(*token[:2], *token[3:5], token[2], token[5]) for token in peer.decode(mappings)]


def random_tokens(chosen, count, lines, columns, sources):
    """Tokens in any order, with source lines up to the greatest. Names number them, but for some, so that equal ones come, too."""
    original = lambda: (chosen.choice([*lines, lines[0], lines[-1], MAX]), chosen.choice(columns))
    return [
        (chosen.choice(lines), chosen.choice(columns), *original(), chosen.choice(sources), chosen.choice([i, i, i, None]))
        for i in range(count)
    ]


def extreme_tokens(chosen, count):
    """A table has a slice for each generated line, so these are few."""
    return random_tokens(chosen, count, (0, 1, 1, 2, 4), (0, 1, 2, 3, 4, 5, MAX - 1, MAX), (None, 0, 0, 1, 1, 7, MAX - 1))


def some_token(tokens, line):
    """A test of what a lookup answers on a line whose columns go back: nothing or a token of the line, and no index or one that is in
    range. The two may differ there."""
    here = {"", *(token_text(token) for _, token in reference.on_line(tokens, line))}
    indices = {"", *map(str, range(len(tokens)))}

    def holds(answer):
        token, _, index = answer.rpartition(" ")
        return token in here and index in indices

    return holds


def ask_of_map(requests, tokens, chosen):
    """Asks all calls about a map, mostly at the place of a token or beside it."""
    requests.about(f"tokens {in_words(tokens)}")
    near = lambda number: max(0, min(MAX, number + chosen.choice([-1, 0, 0, 0, 1])))
    line, col, source_line, source_col, source, _ = chosen.choice([*tokens, *extreme_tokens(chosen, 1)])
    place = MAX if source is None else source, source_line, near(source_col)
    for name, definition in BACK.items():
        requests.ask(f"{name} {in_words([place])}", tokens_text(definition(tokens, *place)))
    requests.ask(f"line {in_words([place[:2]])}", tokens_text(reference.line_by_column(tokens, *place[:2])))
    position, fault = (line, near(col)), reference.line_fault(tokens)
    for name, definition in FORWARD.items():
        wanted = found_text(definition(tokens, *position))
        if fault is not None:
            wanted = LINE_ORDER.format(fault)
        elif not reference.has_columns_in_order(tokens, line):
            wanted = some_token(tokens, line)
        requests.ask(f"{name} {in_words([position])}", wanted)
    requests.ask("sort", tokens_text(reference.sorted_tokens(tokens)))


def ask_of_text(requests, chosen):
    text = "".join(chosen.choice(PIECES) for _ in range(chosen.randrange(8)))
    units = reference.units_of(text)
    requests.about(f"text {json.dumps(text)}")
    said = lambda found: " ".join(map(str, found)) if isinstance(found, tuple) else str(found)
    offset = chosen.choice([*range(len(units) + 2), MAX])
    requests.ask(f"position {offset}", said(reference.position_of(units, offset)))
    lines = reference.lines_of(units)
    line = chosen.choice([*range(len(lines) + 1), MAX]) if chosen.random() < 0.3 else chosen.randrange(len(lines))
    col = chosen.choice([*range(len(lines[line] if line < len(lines) else []) + 2), MAX])
    requests.ask(f"offset {line} {col}", said(reference.offset_of(units, line, col)))


def cases():
    header("random cases | " + " | ".join(f"{name}#" for name in [*BACK, "line", *FORWARD, "sort", "position", "offset"]))
    for name, is_sorted in [("sorted maps, texts", True), ("any maps", False)]:
        chosen, requests = random.Random(int(is_sorted)), Requests()
        for _ in range(options.cases):
            tokens = extreme_tokens(chosen, chosen.randrange(13) if chosen.random() < 0.95 else chosen.randrange(200))
            order = chosen.choice([lambda t: t[0], lambda t: 0])
            ask_of_map(requests, reference.sorted_tokens(tokens) if is_sorted else sorted(tokens, key=order), chosen)
            if is_sorted:
                ask_of_text(requests, chosen)
        counts = requests.compare()
        row(name, *[counts[call] for call in [*BACK, "line", *FORWARD, "sort", "position", "offset"]])


def nearest(items, columns, col):
    """The items at the greatest column that is not past `col`, and at the least that is not before; they are sorted by columns."""
    at, past = bisect_left(columns, col), bisect_right(columns, col)
    start = bisect_left(columns, columns[at - 1]) if at else 0
    return items[start : bisect_right(columns, columns[past]) if past < len(columns) else past]


class Map:
    """A map, its tokens, and these by original line, by generated line and by generated position. The reference is asked about the
    nearest columns of a line alone."""

    def __init__(self, value, tokens):
        self.value = {key: value[key] for key in ("version", "names", "sources", "mappings")}
        self.tokens, self.back, self.forward, self.at = tokens, {}, {}, {}
        for i, token in enumerate(tokens):
            self.back.setdefault((token[4], token[2]), []).append(token)
            self.forward.setdefault(token[0], []).append((i, token))
            self.at.setdefault(token[:2], []).append(token)
        for line in self.back.values():
            line.sort(key=lambda t: t[3])
        self.back_columns = {line: [t[3] for t in items] for line, items in self.back.items()}
        self.columns = {line: [t[1] for _, t in items] for line, items in self.forward.items()}

    def looked_back(self, call, source, line, col):
        items = nearest(self.back.get((source, line), []), self.back_columns.get((source, line), []), col)
        return BACK[call](items, source, line, col)

    def looked_up(self, call, line, col):
        find = reference.near_before if call == "find" else reference.near_after
        return find(nearest(self.forward.get(line, []), self.columns.get(line, []), col), col, lambda it: it[1][1])

    def original(self, token):
        """What the peers answer of a token."""
        if token is None or token[4] is None:
            return None
        return [token[4], *token[2:4], None if token[5] is None else self.value["names"][token[5]]]

    def places(self, count, chosen):
        """Original positions and generated ones: those of so many tokens, and the columns beside them."""
        mapped = [token for token in self.tokens if token[4] is not None]
        some = lambda tokens: chosen.sample(tokens, min(count, len(tokens)))
        beside = lambda column: sorted({max(0, column - 1), column, column + 1})
        back = {(t[4], t[2], column): None for t in some(mapped) for column in beside(t[3])}
        return list(back), list({(t[0], column): None for t in some(self.tokens) for column in beside(t[1])})


def why_back(of, call, place, ours, theirs):
    """Why a peer finds other generated positions than those of our tokens, or None."""
    source, line, _ = place
    if sorted(theirs) == sorted([*t[:2]] for t in ours):
        return "order"
    tokens = [[t for t in of.at[tuple(it)] if t[4] is not None] for it in theirs]
    if tokens and ours and all(any((t[4], *t[2:4]) == (source, line, ours[0][3]) for t in here) for here in tokens):
        return "another of several"
    if call.startswith("all"):
        return "another source" if any(t[4] != source and t[2] == line for here in tokens for t in here) else None
    return "another line" if tokens and not ours and any(t[4] == source and t[2] != line for t in tokens[0]) else None


def why_forward(of, ours, theirs):
    """Why a peer finds another original position than that of our token, or None."""
    return "another of several" if ours and theirs in map(of.original, of.at[ours[:2]]) else None


def why(of, call, place, ours, theirs):
    """Why the answer of a peer is not ours: "equal" if it is, and None if it is not known why."""
    if CALLS[call] in BACK:
        ours = [ours] if isinstance(ours, tuple) else ours or []
        return "equal" if theirs == [[*t[:2]] for t in ours] else why_back(of, call, place, ours, theirs)
    token = None if ours is None else ours[1]
    return "equal" if theirs == of.original(token) else why_forward(of, token, theirs)


def compare_with_peers(name, asked):
    """A row for each call: in maps, each with places to look back from and positions, the peers' answers beside ours."""
    requests = Requests()
    answers = peers("lookups", [{"map": it.value, "back": back, "forward": forward} for it, back, forward in asked])
    positions, counts = Counter(), {(call, it): Counter() for call in CALLS for it in PEERS}
    for (of, back, forward), found in zip(asked, answers):
        requests.about(f"json {json.dumps(of.value)}")
        for call, own in CALLS.items():
            for k, place in enumerate(back if own in BACK else forward):
                ours = of.looked_back(own, *place) if own in BACK else of.looked_up(own, *place)
                requests.ask(f"{own} {in_words([place])}", tokens_text(ours) if own in BACK else found_text(ours))
                positions[call] += 1
                for it in PEERS:
                    if call in found[it]:
                        because = why(of, call, place, ours, found[it][call][k])
                        check(because, f"{name}: {it}, {call} {place}: {found[it][call][k]}, not {ours}")
                        counts[call, it][because] += 1
    requests.compare()
    for call, own in CALLS.items():
        equal = [counts[call, it]["equal"] if counts[call, it] else "-" for it in PEERS]
        row(name, f"`{own}`", positions[call], *equal, *["/".join(str(counts[call, it][because]) for because in EXPLAINED) for it in PEERS])


def table_of_peers():
    header(f"maps | call | positions# | {'# | '.join(PEERS)}# | " + " | ".join(f"{it}: {'/'.join(EXPLAINED)}" for it in PEERS))


def beside_peers():
    """Random sorted maps, whose ids are in range: three positions each way in each."""
    table_of_peers()
    chosen, asked = random.Random(2), []
    for _ in range(-(-options.cases // 3)):
        tokens = random_tokens(chosen, chosen.randrange(13), (0, 1, 2, 4), range(7), (None, 0, 0, 1, 1, 2))
        # The packages read numbers of 31 bits.
        tokens = reference.sorted_tokens((*t[:2], min(t[2], 3), *t[3:]) for t in tokens)
        names = [f"n{i}" for i in range(len(tokens))]
        value = {
            "version": 3,
            "names": names,
            "sources": ["a.js", "b.js", "c.js"],
            "mappings": peer.encode([(*t[:2], t[4], *t[2:4], t[5]) for t in tokens]),
        }
        place = lambda: (chosen.choice([0, 0, 1, 1, 2]), chosen.choice([0, 1, 2, 4, 3]), chosen.randrange(8))
        asked.append((Map(value, decoded(value["mappings"])), [place() for _ in range(3)], [place()[1:] for _ in range(3)]))
    compare_with_peers("random", asked)


def maps():
    """The maps of make_maps.py."""
    table_of_peers()
    chosen, asked = random.Random(3), []
    for one in json.load(open(f"{options.folder}/maps.json")):
        value = json.load(open(f"{options.folder}/maps/{one['name']}.map", encoding="utf-8"))
        of = Map({"names": [], **value}, decoded(value["mappings"]))
        asked.append((of, *of.places(1000, chosen)))
    compare_with_peers(f"{len(asked)} real maps", asked)


TABLES = {"cases": cases, "peers": beside_peers, "maps": maps}


def add_arguments(words):
    words.add_argument("--cases", type=int, default=20_000)
    words.add_argument("--only", choices=TABLES)
    words.add_argument("folder", nargs="?")


def compare(asked):
    global options
    options = asked
    for name, table in TABLES.items():
        if options.only in (None, name) and (options.folder or name != "maps"):
            table()
