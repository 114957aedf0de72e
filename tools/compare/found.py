"""Compares `read_found` with the plain reference (tests/reference/found.py) on random maps and indexed maps in which members are
changed."""

import base64
import copy
import json
import random
from collections import Counter
from urllib.parse import quote

import found as reference
import peer

from tools.compare.asking import Requests
from tools.compare.report import header, row

ODD: list[object] = [None, True, 0, 1, 3, 3.0, 2**32, -1, "", "3", "a.js", [], [None], [0, 7, "x"], ["b.js", None, 4], {}]
KEYS = ["version", "file", "sourceRoot", "sources", "sourcesContent", "names", "ignoreList", "x_google_ignoreList", "mappings", "debugId"]
BAD_MAPPINGS = ["A,", ";;A", "AA", "AAAAAA", "g", "ADAA", "*", "AAAA;AAAAD", "A+/////HAA", "gggggggggggggA"]


def random_mappings(chosen, sources, names, is_sorted):
    """Ids may be past their lists, and columns may go back."""
    tokens = []
    for _ in range(chosen.randrange(7)):
        source = chosen.choice([None, *range(sources + 1)])
        name = None if source is None else chosen.choice([None, *range(names + chosen.randrange(2))])
        tokens.append((chosen.randrange(3), chosen.randrange(9), source, chosen.randrange(3), chosen.randrange(3), name))
    return peer.encode(sorted(tokens, key=lambda t: t[:2] if is_sorted else t[0]))


def random_map(chosen):
    sources, names = chosen.randrange(4), chosen.randrange(3)
    value = {
        "version": 3,
        "sources": [f"s{k}.js" for k in range(sources)],
        "names": [f"n{k}" for k in range(names)],
        "mappings": random_mappings(chosen, sources, names, chosen.random() < 0.7),
    }
    if chosen.random() < 0.3:
        value["sourcesContent"] = [chosen.choice(["A", None, "", 1]) for _ in range(chosen.randrange(5))]
    if chosen.random() < 0.3:
        value[chosen.choice(["ignoreList", "x_google_ignoreList"])] = [chosen.randrange(5) for _ in range(chosen.randrange(4))]
    if chosen.random() < 0.1:
        value["file"] = "out.js"
    return value


def changed(chosen, value):
    """A value in which up to two members are others, or gone."""
    for _ in range(chosen.choice([0, 0, 1, 1, 2])):
        key = chosen.choice(KEYS)
        if chosen.random() < 0.2:
            value.pop(key, None)
        elif isinstance(value.get(key), list) and value[key] and chosen.random() < 0.6:
            value[key][chosen.randrange(len(value[key]))] = copy.deepcopy(chosen.choice(ODD))
        else:
            value[key] = copy.deepcopy(chosen.choice(BAD_MAPPINGS if key == "mappings" else ODD))
    return value


def random_value(chosen):
    """A map by itself, or an indexed map, whose sections may reach into the next ones."""
    if chosen.random() < 0.6:
        return changed(chosen, random_map(chosen))
    places = [(chosen.randrange(3), chosen.randrange(9)) for _ in range(chosen.randrange(4))]
    one = lambda: random_map(chosen) if chosen.random() < 0.7 else changed(chosen, random_map(chosen))
    sections = [
        {"offset": {"line": line, "column": column}, "map": one()}
        for line, column in (sorted(places) if chosen.random() < 0.95 else places)
    ]
    if sections and chosen.random() < 0.05:
        chosen.choice(sections)[chosen.choice(["offset", "map"])] = copy.deepcopy(chosen.choice(ODD))
    return {"version": chosen.choice([3, 3, 3, 3, 3, 3.0, "3", 2]), "file": chosen.choice([None, "out.js"]), "sections": sections}


def wrapped(chosen, text):
    """A text with something in front, or in a data URL."""
    head = chosen.choice(["application/json", "text/json", "Application/JSON;charset=utf-8", "text/plain", "application/json;x"])
    bare = base64.b64encode(text.encode()).decode()
    return chosen.choice(
        [
            lambda: "\ufeff" + text,
            lambda: ")]}'\n" + text,
            lambda: ")]}', x\r\n" + text,
            lambda: "\ufeff)]}'\n" + text,
            lambda: ")]}'" + text,
            lambda: f"data:{head}," + quote(text),
            lambda: f"data:{head}," + text,
            lambda: f"DATA:{head};base64," + bare,
            lambda: f"data:{head};base64," + bare.rstrip("="),
            lambda: f"data:{head};base64," + bare[:-1] + chosen.choice("=A*"),
            lambda: "\ufeff" + f"data:{head};base64," + bare,
            lambda: text[:-1],
            lambda: " " + text + "\n",
        ]
    )()


def kind_of(answer):
    if answer.startswith("error: "):
        return "refused"
    return "mended" if "\n" in answer else "as it is"


def add_arguments(words):
    words.add_argument("--cases", type=int, default=20_000)


def compare(asked):
    chosen, requests, kinds = random.Random(4), Requests(), Counter()
    for _ in range(asked.cases):
        text = json.dumps(random_value(chosen))
        text = wrapped(chosen, text) if chosen.random() < 0.3 else text
        wanted = reference.answer(text)
        kinds[kind_of(wanted)] += 1
        requests.about(f"text {json.dumps(text)}")
        requests.ask("found " + wanted.replace("\n", "\t"), "=")
    counts = requests.compare()
    header("random maps | equal# | as they are# | mended# | refused#")
    row("changed", counts["found"], kinds["as it is"], kinds["mended"], kinds["refused"])
