#!/usr/bin/env python3
"""lower.py NAMES < IN.wat > OUT.wat   makes a module with a 32-bit memory of one with a 64-bit memory, as wasm2wat writes it.

Inside, pointers stay numbers of 64 bits: in locals, on the stack and in memory. Each address and length is cut to 32 bits where an
instruction uses it. The memory must end below 4 GiB, so that no pointer of the module is cut; one of 4 GiB or more, which nothing but
a bug of the compiler or the heap could make, would wrap and not trap.

The host gets one export for all functions, `call`: it takes the number of a function and what that takes, as numbers of 32 bits. An
instance with an export for each would take the host five times as long to make. The file NAMES gets the names, in the order of their
numbers. What is called so often that its number would cost has an export of its own too.

An instruction that is not listed here is refused, and so is a module with imports, tables, several memories or several results.
"""

import re
import sys
from pathlib import Path

WRAP = "i32.wrap_i64"
# Below 4 GiB by a page for each 16 bits of a constant offset: so a negative address traps.
MOST_PAGES = 0xFF00

TYPE = "(?:i32|i64|f32|f64|v128)"
LOAD = re.compile(rf"{TYPE}\.load(?:8|16|32|64)?(?:x\d)?(?:_[su]|_splat|_zero)?$")
STORE = re.compile(rf"({TYPE})\.store(?:8|16|32)?$")
LANE = re.compile(r"v128\.(?:load|store)(?:8|16|32|64)_lane$")
# Instructions that use no memory.
CONTROL = set("unreachable nop block loop if else end br br_if br_table return call drop select local.get local.set local.tee global.get global.set".split())
SHAPES = "i8x16|i16x8|i32x4|i64x2|f32x4|f64x2"
PLAIN = re.compile(rf"(?:i32|i64|f32|f64|v128|{SHAPES})\.[a-z][a-z0-9_]*$")
USES_MEMORY = re.compile(r"load|store|memory|atomic")
# Has an export of its own.
OFTEN = {"loader_trace", "loader_compiled_trace"}
# Local variables that hold what lies above an address on the stack. None is read before it is set.
KEEPS = {"i32": "i32", "i64": "i64", "f32": "f32", "f64": "f64", "v128": "v128", "length": "i32", "value": "i32"}


def refuse(what):
    """Ends the program."""
    sys.exit(f"lower: this is not known: {what.strip()[:200]}")


def keep(name):
    """The local variable of this name."""
    return f"$lower_{name}"


def set_and_get(name, *between):
    """Takes a value off the stack, runs what is between, and puts it back."""
    return [f"local.set {keep(name)}", *between, f"local.get {keep(name)}"]


def lowered(text):
    """The instructions in place of one, as lines."""
    word = text.split(" ", 1)[0]
    if LOAD.match(word):
        return [WRAP, text]
    if found := STORE.match(word):
        return [*set_and_get(found[1], WRAP), text]
    if LANE.match(word):
        return [*set_and_get("v128", WRAP), text]
    if word == "memory.copy":
        return [WRAP, *set_and_get("length", WRAP, *set_and_get("value", WRAP)), text]
    if word == "memory.fill":
        return [WRAP, *set_and_get("length", *set_and_get("value", WRAP)), text]
    if word == "memory.size":
        return [text, "i64.extend_i32_u"]
    if word == "memory.grow":
        return [WRAP, text, "i64.extend_i32_s"]
    if word in CONTROL or (PLAIN.match(word) and not USES_MEMORY.search(word)):
        return [text]
    return refuse(text)


class Function:
    """The lines of a function, as they come."""

    def __init__(self, head):
        self.head, self.locals, self.body = head, [], []

    def add(self, line):
        """Adds a line of the function; what closes it stands behind its last instruction."""
        text = line.strip()
        if text.startswith("(local "):
            self.locals.append(text)
            return
        ends = ""
        while text.count(")") > text.count("("):
            text, ends = text[: text.rindex(")")], ends + ")"
        more = lowered(re.sub(r"\s*\(;.*?;\)", "", text))
        more[-1] += ends
        self.body += more

    def lines(self):
        """The lines of the lowered function."""
        used = {name for line in self.body for name in re.findall(r"\$lower_(\w+)", line)}
        kept = [f"(local {keep(name)} {KEEPS[name]})" for name in KEEPS if name in used]
        return [self.head, *self.locals, *kept, *self.body]


def signature(text):
    """The types that a function takes, and those that it gives."""
    takes, gives = (" ".join(re.findall(rf"\({it} ([^)]*)\)", text)).split() for it in ("param", "result"))
    if len(gives) > 1:
        refuse(text)
    return takes, gives


def called(number, takes, gives, first):
    """The words that call a function of the module with parameters from the first on; they leave a number of 32 bits."""
    if {*takes, *gives} - {"i32", "i64"}:
        refuse(f"a function of {takes} and {gives}")
    words = []
    for at, it in enumerate(takes, first):
        words += [f"local.get {at}", *(["i64.extend_i32_u"] if it == "i64" else [])]
    results = {"i64": [WRAP], "i32": [], None: ["i32.const 0"]}
    return " ".join([*words, f"call {number}", *results[gives[0] if gives else None]])


def entry(name, number, takes, gives):
    """A function for the host that calls one of the module."""
    return f'  (func (export "{name}") (param{" i32" * len(takes)}) (result i32) {called(number, takes, gives, 0)})'


def call_of(entries):
    """The function for the host that calls one of these by its place."""
    most = max(len(takes) for _, _, takes, _ in entries)
    blocks = "block " * (len(entries) + 1)
    places = " ".join(str(it) for it in range(len(entries) + 1))
    lines = [f'  (func (export "call") (param i32{" i32" * most}) (result i32)', f"    {blocks}local.get 0 br_table {places} end"]
    lines += [f"    {called(number, takes, gives, 1)} return end" for _, number, takes, gives in entries]
    return [*lines, "    unreachable)"]


class Module:
    """A module, as its lines come."""

    def __init__(self):
        self.types, self.functions, self.entries, self.out, self.function = {}, {}, [], [], None

    def end_function(self):
        """Writes out the function that has come."""
        if self.function:
            self.out += self.function.lines()
        self.function = None

    def add_memory(self, line):
        """The memory, whose limits are numbers of pages."""
        found = re.match(r"  \(memory \(;0;\) i64 (\d+) (\d+)\)(\)?)$", line)
        if not found or int(found[2]) > MOST_PAGES:
            refuse(line)
        self.out.append(f"  (memory (;0;) {found[1]} {found[2]}){found[3]}")

    def add_export(self, line):
        """An export: of a function, one that the host can call; of the memory, as it is."""
        if found := re.match(r'  \(export "(\w+)" \(func (\d+)\)\)(\)?)$', line):
            self.entries.append((found[1], found[2], *self.functions[found[2]]))
            self.out.append(found[3])
        elif re.match(r'  \(export "memory" \(memory 0\)\)\)?$', line):
            self.out.append(line)
        else:
            refuse(line)

    def add_head(self, line):
        """A line that begins a field of the module."""
        if found := re.match(r"  \(type \(;(\d+);\) \(func(.*)\)\)$", line):
            self.types[found[1]] = signature(found[2])
            self.out.append(line)
        elif found := re.match(r"  \(func \(;(\d+);\) \(type (\d+)\)", line):
            self.functions[found[1]] = self.types[found[2]]
            self.function = Function(line)
        elif line.startswith("  (memory "):
            self.add_memory(line)
        elif line.startswith("  (export "):
            self.add_export(line)
        elif found := re.match(r'  \(data (\(;\d+;\) )?\(i64\.const (\d+)\) (".*"\)\)?)$', line):
            self.out.append(f"  (data (i32.const {found[2]}) {found[3]}")
        elif re.match(r"  \(global \(;\d+;\) \(mut i64\) \(i64\.const \d+\)\)$", line) or line == "(module":
            self.out.append(line)
        else:
            refuse(line)

    def add(self, line):
        """A line of the module."""
        if line.startswith("    ") and self.function:
            self.function.add(line)
            return
        self.end_function()
        if line.strip():
            self.add_head(line)

    def lines(self):
        """The lines of the lowered module. The entries come last, so that no function gets another number."""
        self.end_function()
        lines = [line for line in self.out if line]
        if lines[-1][-1] != ")":
            refuse(lines[-1])
        own = [entry(*it) for it in self.entries if it[0] in OFTEN]
        return [*lines[:-1], *([lines[-1][:-1]] if lines[-1] != ")" else []), *call_of(self.entries), *own, ")"]

    def names(self):
        """The names of the functions that the host calls."""
        return [name for name, *_ in self.entries]


def main():
    """Lowers standard input."""
    module = Module()
    for line in sys.stdin.read().split("\n"):
        module.add(line)
    print("\n".join(module.lines()))
    Path(sys.argv[1]).write_text("\n".join(module.names()))


if __name__ == "__main__":
    main()
