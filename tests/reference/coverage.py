#!/usr/bin/env python3
"""Which lines of the original sources ran, by V8's block coverage of a generated code and the code's map. By brute force.

    tests/reference/coverage.py [FOLDER]

FOLDER, tests/coverage if not given, has bundle.js and bundle.min.js, each with its .map and its .coverage.json.

Each UTF-16 unit of the code has a count, that of the innermost range that contains it, and an original line, that of the token
that the exact lookup finds at it. White space and the punctuation `( ) [ ] { } , : ;` count for no line: a generator puts them in
and leaves them out, without tokens of their own, and V8's ranges begin and end at them. A line ran if some unit of it ran, and
did not run if it has units and none ran. A line without units is not code.

A function with a name, and a block that V8 counts by itself, from its first unit that is no white space, is of the original to which the
first token in it on its first line points,
or else the last token before it on that line. The last token of a block is the last one that is not behind its last unit, on that line,
or the first if that points to no source. A function has the name of the map of a token near the first one, at which its name stands in the
code. Of several reports on one code a block ran, in each, as often as the innermost range around it. Blocks of one code at the same place
in the originals are distinct; those of several codes, and functions at the same place of one name, add up.

Beside that the way of v8-to-istanbul, from ends: each line ran, unless a range says otherwise. The two ends of a range are mapped;
a range with an end that is not mapped, or with ends in two sources, is dropped. The lines that lie wholly between the two take
its count.
"""
import json, os, sys

DIGITS = "ABCDEFGHIJKLMNOPQRSTUVWXYZabcdefghijklmnopqrstuvwxyz0123456789+/"
LINE_ENDS = {0x0A, 0x0D, 0x2028, 0x2029}
SPACES = LINE_ENDS | {0x09, 0x0B, 0x0C, 0x20, 0xA0, 0xFEFF}
IGNORED = SPACES | set(map(ord, "()[]{},:;"))


def units_of(text):
    data = text.encode("utf-16-le")
    return [data[i] | data[i + 1] << 8 for i in range(0, len(data), 2)]


def numbers(segment):
    value = shift = 0
    for digit in map(DIGITS.index, segment):
        value += (digit & 31) << shift
        shift += 5
        if digit < 32:
            yield -(value >> 1) if value & 1 else value >> 1
            value = shift = 0


def named_tokens(mappings):
    """For each generated line its tokens: (column, None, None), or (column, (source id, line, column), name id or None)."""
    lines, source, line, col, name = [], 0, 0, 0, 0
    for text in mappings.split(";"):
        lines.append([])
        dst = 0
        for segment in filter(None, text.split(",")):
            fields = list(numbers(segment))
            dst += fields[0]
            if len(fields) > 1:
                source, line, col = source + fields[1], line + fields[2], col + fields[3]
            if len(fields) > 4:
                name += fields[4]
            lines[-1].append((dst, (source, line, col) if len(fields) > 1 else None, name if len(fields) > 4 else None))
    return lines


def tokens_by_line(mappings):
    """For each generated line its tokens: (column, None), or (column, (source id, line, column))."""
    return [[token[:2] for token in line] for line in named_tokens(mappings)]


def lookup(tokens, col):
    """What the token at the column points to; without one, the nearest before it. Of equal columns the first at the column, else
    the last."""
    before = [token for token in tokens if token[0] <= col]
    if not before:
        return None
    best = max(token[0] for token in before)
    near = [token for token in before if token[0] == best]
    return (near[0] if best == col else near[-1])[1]


def positions(units):
    """The line and the column of each offset, and of the end."""
    line = col = 0
    found = []
    for i, unit in enumerate(units):
        found.append((line, col))
        col += 1
        if unit in LINE_ENDS and not (unit == 0x0D and units[i + 1:i + 2] == [0x0A]):
            line, col = line + 1, 0
    return found + [(line, col)]


def counts_of(units, functions):
    """The count of each unit: the innermost range is painted last. Of ranges that are equal, the last one is the inner one."""
    ranges = [each for function in functions for each in function["ranges"]]
    counts = [None] * len(units)
    for each in sorted(ranges, key=lambda each: (each["startOffset"], -each["endOffset"])):
        for i in range(each["startOffset"], min(each["endOffset"], len(units))):
            counts[i] = each["count"]
    return counts


def lines_of(units, functions, tokens):
    """For each original line with units: how many ran, and how many did not."""
    lines = {}
    for unit, count, (line, col) in zip(units, counts_of(units, functions), positions(units)):
        original = lookup(tokens[line], col) if line < len(tokens) else None
        if original is None or count is None or unit in IGNORED:
            continue
        ran, rest = lines.get(original[:2], (0, 0))
        lines[original[:2]] = (ran + 1, rest) if count else (ran, rest + 1)
    return lines


def is_of_name(unit):
    return unit > 127 or unit < 128 and (chr(unit).isalnum() or chr(unit) in "$_")


def first_in(flat, start, end):
    """The index of the first token in a block on its first line, or else of the last before it on that line."""
    own = [i for i, token in enumerate(flat) if token[0] == start[0]]
    inside = [i for i in own if start <= flat[i][:2] < end]
    before = [i for i in own if flat[i][:2] < start]
    return inside[0] if inside else before[-1] if before else None


def original_name(flat, names, units, at, first, name):
    """The name of a function: that of the map, where it stands in the code at one of the tokens near the first."""
    text = units_of(name)
    for i in [*range(first, min(first + 3, len(flat))), *range(first - 1, max(first - 4, -1), -1)]:
        line, col, _, own = flat[i]
        place = [k for k, where in enumerate(at) if where == (line, col)]
        behind = units[place[0] + len(text):][:1] if place else []
        if own is not None and place and units[place[0]:][:len(text)] == text and not any(map(is_of_name, behind)):
            return names[own] or name
    return name


def count_in(functions, start, end):
    """The count of the innermost range around a block; of equal ranges that of the last."""
    around = [it for function in functions for it in function["ranges"] if it["startOffset"] <= start and it["endOffset"] >= end]
    least = min((it["endOffset"] - it["startOffset"] for it in around), default=0)
    return [it["count"] for it in around if it["endOffset"] - it["startOffset"] == least][-1] if around else 0


def parts_of(units, reports, source_map):
    """By several reports on one code, each a list of functions: the functions, {(source id, line, column, name): count}, and the branches,
    {(source id, line, column, last line, last column, how many before it at the same place): count}."""
    at = positions(units)
    flat = [(line, *token) for line, tokens in enumerate(named_tokens(source_map["mappings"])) for token in tokens]
    called, blocks, branches = {}, set(), {}
    for function in (it for functions in reports for it in functions):
        for number, each in enumerate(function["ranges"]):
            start, end = each["startOffset"], each["endOffset"]
            if max(start, end) >= len(at):
                continue
            code = next((k for k in range(start, end) if units[k] not in SPACES), start)
            called_at, first = first_in(flat, at[start], at[end]), first_in(flat, at[code], at[end])
            if number == 0 and function.get("functionName") and called_at is not None and flat[called_at][2]:
                full = (*flat[called_at][2], original_name(flat, source_map["names"], units, at, called_at, function["functionName"]))
                called[full] = called.get(full, 0) + each["count"]
            if function.get("isBlockCoverage") and start < end and first is not None and flat[first][2]:
                last = [token for token in flat if token[0] == at[end - 1][0] and token[:2] <= at[end - 1]]
                blocks.add((start, -end, *flat[first][2], *(last and last[-1][2] or flat[first][2])[1:]))
    for start, end, *place in sorted(blocks):
        number = sum(it[:5] == tuple(place) for it in branches)
        branches[*place, number] = sum(count_in(functions, start, -end) for functions in reports)
    return called, branches


def from_ends(units, functions, tokens, contents):
    """The lines that are set to not run, and how many ranges are dropped."""
    at, counts, dropped = positions(units), {}, 0
    originals = sorted({original for line in tokens for _, original in line if original})

    def mapped(offset):
        line, col = at[offset]
        after = [original for dst, original in tokens[line] if dst >= col] if line < len(tokens) else []
        return lookup(tokens[line], col) or (after or [None])[0] if line < len(tokens) else None

    for each in (each for function in functions for each in function["ranges"]):
        start, last = mapped(each["startOffset"]), mapped(max(each["startOffset"], each["endOffset"] - 1))
        if start is None or last is None or start[0] != last[0]:
            dropped += 1
            continue
        # The end is where the next token of the original line begins, or the line's end.
        nexts = [original[2] for original in originals if original[:2] == last[:2] and original[2] > last[2]]
        end = (last[1], min(nexts, default=float("inf")))
        for n, text in enumerate(contents[start[0]].split("\n")):
            if start[1:] <= (n, 0) and end >= (n, len(units_of(text))):
                counts[start[0], n] = each["count"]
    return {line for line, count in counts.items() if not count}, dropped


def read(folder, code):
    with open(os.path.join(folder, code), encoding="utf-8", newline="") as file:
        units = units_of(file.read())
    with open(os.path.join(folder, code + ".map"), encoding="utf-8") as file:
        source_map = json.load(file)
    with open(os.path.join(folder, code + ".coverage.json"), encoding="utf-8") as file:
        functions = json.load(file)["functions"]
    return units, source_map, functions


def named(sources, lines):
    """Lines from 1, as editors count, by source."""
    by_source = {}
    for source, line in sorted(lines):
        by_source.setdefault(sources[source], []).append(line + 1)
    return by_source


def main(folder):
    found = {}
    for code in ("bundle.js", "bundle.min.js"):
        units, source_map, functions = read(folder, code)
        tokens, sources = tokens_by_line(source_map["mappings"]), source_map["sources"]
        lines = lines_of(units, functions, tokens)
        ran = {line for line, (count, _) in lines.items() if count}
        idle = set(lines) - ran
        found[code] = named(sources, ran), named(sources, idle), {(sources[s], n + 1): v for (s, n), v in lines.items()}
        zeros, dropped = from_ends(units, functions, tokens, source_map["sourcesContent"])
        print(f"{code}: {len(units)} units, {sum(map(len, tokens))} tokens, {len(lines)} lines: {len(ran)} ran, {len(idle)} did not")
        for source in sources:
            print(f"  {source}\n    ran     {named(sources, ran).get(source, [])}\n    did not {named(sources, idle).get(source, [])}")
            rows = [f"{n + 1}:{a}+{b}" for (s, n), (a, b) in sorted(lines.items()) if sources[s] == source]
            print("    units (line:ran+not)", " ".join(rows))
        wrong, missed = idle - zeros, zeros & ran
        print(f"  from ends: {dropped} of {sum(len(f['ranges']) for f in functions)} ranges dropped; {len(wrong)} lines ran though no unit did"
              f" {named(sources, wrong)}; {len(missed)} did not though some did {named(sources, missed)}")
    plain, small = found["bundle.js"][2], found["bundle.min.js"][2]
    for line in sorted(set(plain) | set(small)):
        one, two = plain.get(line), small.get(line)
        if one is None or two is None or bool(one[0]) != bool(two[0]):
            print("differs", line, "plain", one, "minified", two)
    both = [line for line in plain if line in small]
    print(f"{len(both)} lines in both, {len(plain) - len(both)} in the plain one alone, {len(small) - len(both)} in the minified one alone")


if __name__ == "__main__":
    main(sys.argv[1] if len(sys.argv) > 1 else os.path.join(os.path.dirname(os.path.abspath(__file__)), "..", "coverage"))
