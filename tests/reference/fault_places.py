#!/usr/bin/env python3
"""Where a `mappings` text, a JSON text and a plan have their first fault, for tests/places.rs and tests/runs.json. Plain definitions
(docs/FORMAT.md): a segment is checked by what the segments before it sum up to, a section by the positions of all tokens before it.
A text that is not JSON has no place here, since that is the reader's.

fault_places.py prints the checksum of random `mappings` texts and of random indexed maps; fault_places.py WORD.. < INPUT prints the
place of the plan of these words. Of a plan, no step but the reading of texts is looked at."""
import json
import sys

ALPHABET = "ABCDEFGHIJKLMNOPQRSTUVWXYZabcdefghijklmnopqrstuvwxyz0123456789+/"
MAX = 4294967295


def digit(byte):
    return ALPHABET.index(chr(byte)) if chr(byte) in ALPHABET else 63


def numbers(segment):
    """The numbers of a segment, or None if a run is bad."""
    found, run = [], []
    for byte in segment.encode():
        run.append(digit(byte))
        if run[-1] < 32:
            if len(run) > 13 or len(run) == 13 and run[12] % 32 > 7:
                return None
            raw = sum(value % 32 * 32**k for k, value in enumerate(run))
            found.append(-(raw // 2) if raw % 2 else raw // 2)
            run = []
    return None if run else found


def is_faulty(fields, on_line, in_text, names, sources):
    """Whether a segment of these fields has a fault, after those before it on its line and in the text."""
    if fields is None or len(fields) not in (1, 4, 5):
        return True
    total = lambda rows, k: sum(row[k] for row in rows if len(row) > k) + (fields[k] if len(fields) > k else 0)
    checks = [0 <= total(on_line, 0) <= MAX]
    if len(fields) > 1:
        checks += [0 <= total(in_text, 1) < min(sources, MAX), 0 <= total(in_text, 2) <= MAX, 0 <= total(in_text, 3) <= MAX]
    if len(fields) > 4:
        checks.append(0 <= total(in_text, 4) < min(names, MAX))
    return not all(checks)


def fault_at(text, names, sources):
    """Byte, line and number of the first segment with a fault."""
    in_text, byte = [], 0
    for line, part in enumerate(text.split(";")):
        on_line = []
        for segment in part.split(","):
            if segment:
                fields = numbers(segment)
                if is_faulty(fields, on_line, in_text, names, sources):
                    return byte, line, len(on_line)
                on_line.append(fields)
                in_text.append(fields)
            byte += len(segment.encode()) + 1
    return None


def member_fault(value, key, fits, required=False):
    """The place of a member: None if it fits, or the key, or the index of its first bad entry."""
    if key not in value:
        return key if required else None
    member = value[key]
    if isinstance(fits, tuple):
        if not isinstance(member, list):
            return key
        return next((f"entry {k} of {key}" for k, entry in enumerate(member) if not fits[0](entry)), None)
    return None if fits(member) else key


def is_number(value):
    return type(value) is int and 0 <= value <= MAX


def is_text(value):
    return isinstance(value, str)


def head_fault(value):
    """The place of a fault of the value, its version or its file."""
    if not isinstance(value, dict):
        return "the value"
    if type(value.get("version")) is not int or value["version"] != 3:
        return "version"
    return member_fault(value, "file", is_text) if value.get("file") is not None else None


def lists_fault(value):
    """The place of a fault of the other members of a map by itself."""
    there = {key: member for key, member in value.items() if member is not None or key in ("mappings", "sources", "names")}
    yield member_fault(there, "mappings", is_text, True)
    yield member_fault(there, "sourceRoot", is_text)
    yield member_fault(there, "sources", (is_text,), True)
    yield member_fault(there, "sourcesContent", (lambda it: it is None or is_text(it),))
    yield member_fault(there, "names", (is_text,))
    yield member_fault(there, "debugId", is_text)
    ignored = "ignoreList" if "ignoreList" in there else "x_google_ignoreList"
    yield member_fault(there, ignored, (is_number,))
    ids = there.get(ignored, [])
    yield next((f"entry {k} of {ignored}" for k, entry in enumerate(ids) if entry >= len(there["sources"])), None)
    place = fault_at(there["mappings"], len(there.get("names", [])), len(there["sources"]))
    yield place and f"line {place[1]}, segment {place[2]} (byte {place[0]})"


def map_fault(value):
    """The place in a map by itself."""
    return head_fault(value) or next((place for place in lists_fault(value) if place), None)


def positions(value):
    """The generated positions of the tokens of a map."""
    for line, part in enumerate(value["mappings"].split(";")):
        column = 0
        for segment in filter(None, part.split(",")):
            column += numbers(segment)[0]
            yield line, column


def is_indexed(value):
    return isinstance(value, dict) and value.get("sections") is not None


def section_fault(section, k, before, reached):
    """The place of a fault of section k: after one at `before`, and tokens up to `reached`. Else where it begins and its tokens."""
    if not isinstance(section, dict):
        return f"entry {k} of sections", None, []
    offset = section.get("offset")
    if not isinstance(offset, dict) or not is_number(offset.get("line")) or not is_number(offset.get("column")):
        return f"section {k}, offset", None, []
    begins = offset["line"], offset["column"]
    if begins < before or begins < reached:
        return f"section {k}, offset", None, []
    if not isinstance(section.get("map"), dict) or is_indexed(section["map"]):
        return f"section {k}, map", None, []
    place = map_fault(section["map"])
    if place:
        return f"section {k}, {place}", None, []
    moved = [(line + begins[0], column + (0 if line else begins[1])) for line, column in positions(section["map"])]
    # Lines and columns alone can pass a limit here, and not the counts of maps so small.
    return f"section {k}, map" if any(max(it) > MAX for it in moved) else None, begins, moved


def value_place(value):
    if not is_indexed(value):
        return map_fault(value)
    place = head_fault(value)
    if place or not isinstance(value["sections"], list):
        return place or "sections"
    before = reached = (0, 0)
    for k, section in enumerate(value["sections"]):
        place, before, moved = section_fault(section, k, before, reached)
        if place:
            return place
        reached = moved[-1] if moved else reached
    return None


def plan_place(words, inputs):
    """The place in the first text of a plan that cannot be read. A word after `remap P N`, and after each part of it, is a path."""
    words = iter(words)

    def part():
        word = next(words)
        if word in ("rewrite", "root", "simplify"):
            yield from part()
        elif word == "sort":
            yield int(next(words)[1:])
        elif word in ("join", "joinat"):
            for _ in range(int(next(words))):
                yield from part()
                for _ in range(1 if word == "join" else 2):
                    next(words)
        elif word == "compose":
            yield from part()
            yield from part()
        elif word == "remap":
            yield from part()
            for _ in range(int(next(words))):
                next(words)
                yield from part()
        else:
            yield int(word[1:])

    for k in part():
        place = value_place(json.loads(inputs[k]))
        if place:
            return f"text {inputs.index(inputs[k])}, {place}"
    return None


PIECES = ["A", "C", "AAAA", "CACA", "AAAAA", "CAAAC", "KAAAD", "gBAAA", "", "", ";", ";,;", "IAAA", "CCAA", "D", "AA", "é"]


def random_texts(count):
    seed = 1
    for _ in range(count):
        text = []
        for _ in range(14):
            seed = (seed * 1103515245 + 12345) % 2**31
            text.append(PIECES[(seed >> 16) % len(PIECES)])
            text.append(",")
        yield "".join(text)


MAPS = [
    {"version": 3, "sources": ["a"], "mappings": "AAAA,C"},
    {"version": 3, "sources": ["a"], "mappings": ";C"},
    {"version": 3, "sources": ["a"], "mappings": ""},
    {"version": 3, "sources": ["a"], "mappings": "A,AA"},
    {"version": 3, "sources": ["a", 0], "mappings": "A"},
    {"version": 3, "sources": ["a"], "mappings": "A", "ignoreList": [0, 1]},
    {"version": 2},
    {"version": 3, "sections": []},
    7,
]
OFFSETS = [(0, 0), (0, 1), (0, 2), (1, 0), (1, 1), (2, 0), (3, 4294967295), (4294967295, 0), (5, 0), (6, 0), (7, 0), (8, 0)]


def random_sections(count):
    """Indexed maps of four sections, most of them sound."""
    seed = 1
    for _ in range(count):
        sections = []
        for k in range(4):
            seed = (seed * 1103515245 + 12345) % 2**31
            pick, other = (seed >> 16) % 101, (seed >> 8) % 64
            offset = OFFSETS[(other % 3 + 2 * k) % 12] if pick < 90 else OFFSETS[other % 12]
            offset = {"line": offset[0], "column": offset[1]} if pick != 99 else {"line": offset[0]}
            sections.append(7 if pick == 98 else {"offset": offset, "map": MAPS[pick % 3 if pick < 85 else pick % 9]})
        yield {"version": 3, "sections": sections}


if __name__ == "__main__":
    if sys.argv[1:]:
        inputs = "".join(line for line in sys.stdin).split("\n---\n")
        print(plan_place(sys.argv[1:], inputs))
        sys.exit()
    total = faults = 0
    for text in random_texts(5000):
        place = fault_at(text, 2, 2)
        faults += place is not None
        total = (total * 31 + (7 if place is None else place[0] * 10007 + place[1] * 101 + place[2])) % 2**32
    print(f"{faults} faults, checksum {total}")
    total = faults = 0
    for value in random_sections(3000):
        place = value_place(value)
        faults += place is not None
        for byte in (place or "none").encode():
            total = (total * 31 + byte) % 2**32
    print(f"{faults} faults of sections, checksum {total}")
