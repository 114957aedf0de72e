"""Source maps in plain Python, written after docs/FORMAT.md and apart from the library, for the scripts that compare the two.

A map is the value that json.loads gives; its tokens are tuples (line, column, source, source line, source column, name),
with None for a source or a name that is missing. Only valid maps are read.
"""

import json
import re
import base64
from bisect import bisect_left

ALPHABET = "ABCDEFGHIJKLMNOPQRSTUVWXYZabcdefghijklmnopqrstuvwxyz0123456789+/"
VALUES = {ord(letter): value for value, letter in enumerate(ALPHABET)}
# How a source begins that no source root is put before.
ABSOLUTE = re.compile(r"/|[A-Za-z][A-Za-z0-9+.-]*:")


def fields_of(segment):
    fields, number, shift = [], 0, 0
    for byte in segment:
        value = VALUES[byte]
        number += (value & 31) << shift
        shift += 5
        if value < 32:
            fields.append(-(number >> 1) if number & 1 else number >> 1)
            number = shift = 0
    return fields


def decode(mappings):
    tokens, source, source_line, source_column, name = [], 0, 0, 0, 0
    for line, text in enumerate(mappings.encode().split(b";")):
        column = 0
        for segment in filter(None, text.split(b",")):
            fields = fields_of(segment)
            column += fields[0]
            if len(fields) == 1:
                tokens.append((line, column, None, source_line, source_column, None))
                continue
            source, source_line, source_column = source + fields[1], source_line + fields[2], source_column + fields[3]
            if len(fields) == 5:
                name += fields[4]
            tokens.append((line, column, source, source_line, source_column, name if len(fields) == 5 else None))
    return tokens


def number_text(number):
    number, text = (-number << 1 | 1) if number < 0 else number << 1, ""
    while True:
        number, value = number >> 5, number & 31
        text += ALPHABET[value | 32 if number else value]
        if not number:
            return text


def encode(tokens):
    pieces, at_line, at_column, at_source, at_name = [], 0, 0, (0, 0, 0), 0
    for line, column, source, source_line, source_column, name in tokens:
        pieces.append(";" * (line - at_line) if line > at_line else "," if pieces else "")
        at_line, at_column = line, at_column if line == at_line else 0
        numbers = [column - at_column]
        at_column = column
        if source is not None:
            place = (source, source_line, source_column)
            numbers += [new - old for new, old in zip(place, at_source)]
            at_source = place
            if name is not None:
                numbers.append(name - at_name)
                at_name = name
        pieces.append("".join(map(number_text, numbers)))
    return "".join(pieces)


def ignored_in(value):
    """The ignore list of a map, or None."""
    ignored = value.get("ignoreList")
    return value.get("x_google_ignoreList") if ignored is None else ignored


def contents_in(value):
    """The content of each source of a map, or None."""
    contents = (value.get("sourcesContent") or [])[:len(value["sources"])]
    return contents + [None] * (len(value["sources"]) - len(contents))


def to_text(value, tokens):
    """The JSON text of a map that has these tokens: its known keys in order, and nothing for what is null."""
    contents = value.get("sourcesContent") or []
    members = {"version": 3, "file": value.get("file"), "sourceRoot": value.get("sourceRoot"), "names": value.get("names", []),
               "sources": value["sources"], "sourcesContent": contents if any(text is not None for text in contents) else None,
               "ignoreList": ignored_in(value), "mappings": encode(tokens), "debugId": value.get("debugId")}
    known = {key: member for key, member in members.items() if member is not None}
    return json.dumps(known, ensure_ascii=False, separators=(",", ":"))


def to_url(text):
    return "data:application/json;charset=utf-8;base64," + base64.b64encode(text.encode()).decode()


class Table:
    """Looks positions up in tokens that are sorted by line and column."""

    def __init__(self, tokens):
        self.tokens, self.keys = tokens, [token[:2] for token in tokens]

    def find(self, line, column, clamped=False):
        """The first token at the column, or the last before it; clamped, else the first token of the line."""
        at = bisect_left(self.keys, (line, column))
        if at < len(self.keys) and self.keys[at] == (line, column):
            return self.tokens[at]
        if at > 0 and self.keys[at - 1][0] == line:
            return self.tokens[at - 1]
        if clamped and at < len(self.keys) and self.keys[at][0] == line:
            return self.tokens[at]
        return None


def trace_text(value, token):
    """What `smap trace` prints of a token."""
    if token is None:
        return "nothing"
    _, _, source, line, column, name = token
    if source is None:
        return "unmapped"
    text = f"{json.dumps(value['sources'][source], ensure_ascii=False)}:{line}:{column}"
    return text if name is None else f"{text} {json.dumps(value['names'][name], ensure_ascii=False)}"


def compose(value, tokens, under, under_tokens):
    """A map composed with the map `under`, of the step before it."""
    table, names = Table(under_tokens), list(under.get("names", []))
    ids = {}
    for id, name in enumerate(names):
        ids.setdefault(name, id)
    composed = []
    for line, column, source, source_line, source_column, name in tokens:
        target = None if source is None else table.find(source_line, source_column, clamped=True)
        if target is None or target[2] is None:
            composed.append((line, column, None, 0, 0, None))
            continue
        id = target[5]
        if id is None and name is not None:
            text = value["names"][name]
            id = ids.setdefault(text, len(names))
            if id == len(names):
                names.append(text)
        composed.append((line, column, *target[2:5], id))
    from_above = {key: value.get(key) for key in ("file", "debugId")}
    from_under = {key: under.get(key) for key in ("sourceRoot", "sources", "sourcesContent", "ignoreList", "x_google_ignoreList")}
    return {**from_above, **from_under, "names": names}, composed


def join(parts):
    """Joins maps: a list of (value, tokens, line offset)."""
    joined = {"names": [], "sources": [], "sourcesContent": [], "ignoreList": None}
    tokens = []
    for value, part, offset in parts:
        names, sources = len(joined["names"]), len(joined["sources"])
        shifted = [(line + offset, column, None if source is None else source + sources, source_line, source_column,
                    None if name is None else name + names) for line, column, source, source_line, source_column, name in part]
        tokens += shifted[1:] if shifted and tokens and shifted[0] == tokens[-1] else shifted
        joined["names"] += value.get("names", [])
        joined["sources"] += value["sources"]
        joined["sourcesContent"] += contents_in(value)
        if (ignored := ignored_in(value)) is not None:
            joined["ignoreList"] = (joined["ignoreList"] or []) + [source + sources for source in ignored]
    return joined, tokens


def listed(value):
    """The sources of a map, each with its content and whether it is ignored."""
    ignored = ignored_in(value) or []
    return [(path, content, id in ignored) for id, (path, content) in enumerate(zip(value["sources"], contents_in(value)))]


def target(value, token, inputs):
    """What a token points to, led on through the input of its source if that has one: the number of a source among those that
    stand for its source, line, column, and the text of a name. None if it points nowhere."""
    _, _, source, line, column, name = token
    if source is None:
        return None
    text = None if name is None else value["names"][name]
    if value["sources"][source] not in inputs:
        return 0, line, column, text
    under, table = inputs[value["sources"][source]]
    found = table.find(line, column, clamped=True)
    if found is None or found[2] is None:
        return None
    return *found[2:5], text if found[5] is None else under["names"][found[5]]


def remap(value, tokens, inputs):
    """A map remapped by inputs: a list of (path, value, tokens)."""
    first = {path: (under, Table(under_tokens)) for path, under, under_tokens in reversed(inputs)}
    sources, starts, ids, remapped = [], [], {}, []
    for source in listed(value):
        starts.append(len(sources))
        sources += listed(first[source[0]][0]) if source[0] in first else [source]
    for token in tokens:
        found = target(value, token, first)
        if found is None:
            remapped.append((*token[:2], None, 0, 0, None))
            continue
        source, line, column, text = found
        id = None if text is None else ids.setdefault(text, len(ids))
        remapped.append((*token[:2], starts[token[2]] + source, line, column, id))
    ignored = [id for id, (_, _, is_ignored) in enumerate(sources) if is_ignored]
    return {"file": value.get("file"), "debugId": value.get("debugId"), "names": list(ids),
            "sources": [path for path, _, _ in sources], "sourcesContent": [content for _, content, _ in sources],
            "ignoreList": ignored or None}, remapped


def rooted(value):
    """A map with its source root before its sources."""
    root = value.get("sourceRoot") or ""
    before = root if root == "" or root.endswith("/") else root + "/"
    sources = [source if ABSOLUTE.match(source) else before + source for source in value["sources"]]
    return {**value, "sourceRoot": None, "sources": sources}


def simplify(value, tokens):
    """A sorted map with no more tokens, names and sources than its traces need. Of the tokens at one position the first answers at
    its column, and the last on the columns after it, if the next position leaves it one."""
    sources, positions = listed(value), {}
    for token in tokens:
        positions.setdefault(token[:2], []).append(token)

    def original(token):
        _, _, source, source_line, source_column, name = token
        text = None if name is None else value["names"][name]
        return None if source is None else (sources[source][:2], source_line, source_column, text)

    kept, at_line, said = [], None, None
    for (line, column), group in positions.items():
        answers = [group[0]] if len(group) == 1 or (line, column + 1) in positions else [group[0], group[-1]]
        stays = True
        for at, token in enumerate(answers):
            changes = line != at_line or original(token) != said
            if changes:
                kept.append((line, column if stays else column + 1, *token[2:]))
            stays, at_line, said = changes, line, original(token)
    names, needed = {}, {}
    for token in kept:
        if original(token) is not None:
            needed.setdefault(original(token)[0])
            if original(token)[3] is not None:
                names.setdefault(original(token)[3], len(names))
    new_sources = [(*source, mark) for source in needed for mark in (False, True) if (*source, mark) in set(sources)]
    ids = {source: id for id, source in enumerate(new_sources)}
    renumbered = [(*token[:2], None, 0, 0, None) if token[2] is None else
                  (*token[:2], ids[sources[token[2]]], *token[3:5], None if token[5] is None else names[value["names"][token[5]]])
                  for token in kept]
    ignored = [id for id, (_, _, is_ignored) in enumerate(new_sources) if is_ignored]
    return {**{key: value.get(key) for key in ("file", "sourceRoot", "debugId")}, "names": list(names),
            "sources": [path for path, _, _ in new_sources], "sourcesContent": [content for _, content, _ in new_sources],
            "ignoreList": ignored or None}, renumbered


def sort(tokens):
    """Tokens by generated line and column; those at one position stay in their order."""
    return sorted(tokens, key=lambda token: token[:2])


def placed(value):
    """The maps of an indexed map, each with its tokens at their place in the generated code."""
    maps = []
    for section in value["sections"]:
        line, column = section["offset"]["line"], section["offset"]["column"]
        tokens = [(at_line + line, at_column + (column if at_line == 0 else 0), *rest)
                  for at_line, at_column, *rest in decode(section["map"]["mappings"])]
        maps.append((section["map"], tokens))
    return maps


def read(value):
    """A map and its tokens. An indexed map is the join of its sections."""
    if value.get("sections") is None:
        return value, decode(value["mappings"])
    return join([(map, tokens, 0) for map, tokens in placed(value)])
