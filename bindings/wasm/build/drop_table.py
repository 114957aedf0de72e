#!/usr/bin/env python3
"""drop_table.py MODULE.wasm   takes the table of functions, which is empty and unused, and the sections of names and other custom ones
out of a module. The linker gives the table 64-bit limits, which few programs read. A module with pointers to functions is refused.
"""

import sys
from pathlib import Path

CUSTOM, TABLE, ELEMENT = 0, 4, 9


def number(data, at):
    """A number in LEB128, and where it ends."""
    value = shift = 0
    while True:
        byte = data[at]
        value |= (byte & 0x7F) << shift
        shift += 7
        at += 1
        if byte < 0x80:
            return value, at


def sections(data):
    """The kind, the contents and the bytes of each section."""
    at = 8
    while at < len(data):
        length, begin = number(data, at + 1)
        yield data[at], data[begin : begin + length], data[at : begin + length]
        at = begin + length


def is_empty(table):
    """Whether a table section is one table with no entry but that of null."""
    count, at = number(table, 0)
    flags, at = number(table, at + 1)
    least, _ = number(table, at)
    return count == 1 and table[1] == 0x70 and flags in (4, 5) and least <= 1


def without_table(data):
    """The module without them."""
    if data[:8] != b"\0asm\1\0\0\0":
        sys.exit("drop_table: this is no module")
    out = [data[:8]]
    for kind, contents, whole in sections(data):
        if kind == ELEMENT or (kind == TABLE and not is_empty(contents)):
            sys.exit("drop_table: the module has pointers to functions")
        if kind not in (CUSTOM, TABLE):
            out.append(whole)
    return b"".join(out)


if __name__ == "__main__":
    path = Path(sys.argv[1])
    path.write_bytes(without_table(path.read_bytes()))
