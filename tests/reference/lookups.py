"""Lookups both ways, sorting, and positions in a text, in plain Python: filters after docs/FORMAT.md, with no thought of speed. For
tools/compare/run lookups.

A token is a tuple: generated line and column, source line and column, source id, name id; None for an id that is missing. A
text is a list of UTF-16 units.
"""


def near_before(items, col, column):
    """Of the items with the greatest column not past `col` the first if that is `col`, else the last; None without items."""
    best = max((column(it) for it in items if column(it) <= col), default=None)
    near = [it for it in items if column(it) == best]
    return None if not near else near[0] if best == col else near[-1]


def near_after(items, col, column):
    """Of the items with the least column not before `col` the last if that is `col`, else the first; None without items."""
    best = min((column(it) for it in items if column(it) >= col), default=None)
    near = [it for it in items if column(it) == best]
    return None if not near else near[-1] if best == col else near[0]


# Reverse lookups.

def pointing_to(tokens, source, line):
    return [t for t in tokens if t[4] is not None and (t[4], t[2]) == (source, line)]


def generated_at(tokens, source, line, col):
    return [t for t in pointing_to(tokens, source, line) if t[3] == col]


def generated_for(tokens, source, line, col):
    return near_before(pointing_to(tokens, source, line), col, lambda t: t[3])


def generated_from(tokens, source, line, col):
    return near_after(pointing_to(tokens, source, line), col, lambda t: t[3])


def beside(tokens, source, line, found):
    return [] if found is None else generated_at(tokens, source, line, found[3])


def all_generated_for(tokens, source, line, col):
    return beside(tokens, source, line, generated_for(tokens, source, line, col))


def all_generated_from(tokens, source, line, col):
    return beside(tokens, source, line, generated_from(tokens, source, line, col))


def line_by_column(tokens, source, line):
    """Python's sort keeps the order of equal ones."""
    return sorted(pointing_to(tokens, source, line), key=lambda t: t[3])


# Lookups. Each finds a pair: a token's index and the token.

def on_line(tokens, line):
    return [(i, t) for i, t in enumerate(tokens) if t[0] == line]


def found_at(tokens, line, col):
    return near_before(on_line(tokens, line), col, lambda it: it[1][1])


def clamped_at(tokens, line, col):
    return found_at(tokens, line, col) or (on_line(tokens, line) or [None])[0]


def found_after(tokens, line, col):
    return near_after(on_line(tokens, line), col, lambda it: it[1][1])


def line_fault(tokens):
    """The index of the first token on a line before that of the token before it."""
    return next((i for i in range(1, len(tokens)) if tokens[i][0] < tokens[i - 1][0]), None)


def has_columns_in_order(tokens, line):
    columns = [t[1] for _, t in on_line(tokens, line)]
    return columns == sorted(columns)


def sorted_tokens(tokens):
    return sorted(tokens, key=lambda t: t[:2])


# Positions in a text.

def units_of(text):
    data = text.encode("utf-16-le")
    return [data[i] | data[i + 1] << 8 for i in range(0, len(data), 2)]


def lines_of(units):
    """Each line with its end; what follows the last end is one more."""
    lines = [[]]
    for i, unit in enumerate(units):
        lines[-1].append(unit)
        if unit in (0x0A, 0x2028, 0x2029) or unit == 0x0D and units[i + 1:i + 2] != [0x0A]:
            lines.append([])
    return lines


def position_of(units, offset):
    if offset > len(units):
        return "PastText"
    if units[offset:offset + 1] and 0xDC00 <= units[offset] < 0xE000:
        return "InsidePair"
    lines = lines_of(units)
    starts = [sum(map(len, lines[:n])) for n in range(len(lines))]
    line = max(n for n, start in enumerate(starts) if start <= offset)
    return line, offset - starts[line]


def offset_of(units, line, col):
    """By trying each offset."""
    found = [offset for offset in range(len(units) + 1) if position_of(units, offset) == (line, col)]
    if found:
        return found[0]
    lines = lines_of(units)
    if line >= len(lines):
        return "NoLine"
    return "InsidePair" if col < len(lines[line]) else "PastLine"
