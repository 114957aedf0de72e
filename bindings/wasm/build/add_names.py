#!/usr/bin/env python3
"""add_names.py MODULE.wasm NAMES   adds a custom section `calls` to a module: the names in the file, for the host that runs it."""

import sys
from pathlib import Path


def number(value):
    """A number in LEB128."""
    out = []
    while value >= 0x80:
        out.append(value & 0x7F | 0x80)
        value >>= 7
    return bytes([*out, value])


def section(name, contents):
    """A custom section."""
    body = number(len(name)) + name + contents
    return b"\0" + number(len(body)) + body


if __name__ == "__main__":
    path, names = map(Path, sys.argv[1:])
    path.write_bytes(path.read_bytes() + section(b"calls", names.read_bytes()))
