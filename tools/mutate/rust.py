"""Plants bugs in the crates of Rust, and tells which test of bindings/rust fails by each: for each call, field and constant that
oxc_sourcemap-sys declares, and those of rust.txt in the crate over it.

The bugs: a call does nothing and answers 0; a call gets two parameters of one type the wrong way round; a field changes places with
the next one; a constant is one more; by those of rust.txt, the tests in documents are run too. The test of the layouts is left out, so
that each wrong field has to be noticed by what it does.

It needs cargo, and the library where build.rs finds it: target/ of the repository, or OXC_SOURCEMAP_LIB_DIR.
"""

import os
import re
import shutil
import subprocess
import tempfile
from pathlib import Path
from queue import Queue

from tools.mutate.planting import TOP, Bug, chosen, listed, try_all

RAW = "oxc_sourcemap-sys/src/lib.rs"
CRATE = "oxc_sourcemap/src"
JOBS = int(os.environ.get("JOBS", "2"))
LONGEST = 300
# Which of its two maps is which makes no difference to this call.
SYMMETRIC = "smap_first_difference"
RESULTS = {"u32": "0", "usize": "0", "*const c_char": 'c"".as_ptr()', "": ""}


def calls(text):
    """The name, the parameters and the result of each declared call, and its declaration."""
    for found in re.finditer(r"^    pub fn (smap_\w+)\((.*?)\)(?: -> ([^;]+))?;\n", text, re.M | re.S):
        yield found[1], [it.strip() for it in found[2].split(",") if it.strip()], found[3] or "", found[0]


def instead_of_calls(text):
    """For each call a text in which it does nothing."""
    for name, takes, gives, declared in calls(text):
        arrow = f" -> {gives}" if gives else ""
        stub = f"/// # Safety\n/// None.\npub unsafe fn {name}({', '.join('_' + it for it in takes)}){arrow} {{ {RESULTS[gives]} }}\n"
        yield f"{name} does nothing", text.replace(declared, "") + stub


def swapped_parameters(text):
    """For each call and each two parameters of one type that follow each other, a text in which they are the wrong way round."""
    for name, takes, gives, declared in calls(text):
        names, types = [it.split(":")[0] for it in takes], [it.split(":")[1].strip() for it in takes]
        for at in range(len(takes) - 1):
            if types[at] != types[at + 1] or name == SYMMETRIC:
                continue
            arrow, passed = f" -> {gives}" if gives else "", names[:at] + [names[at + 1], names[at]] + names[at + 2 :]
            stub = f"/// # Safety\n/// None.\npub unsafe fn {name}({', '.join(takes)}){arrow} {{ unsafe {{ real::{name}({', '.join(passed)}) }} }}\n"
            real = f'mod real {{ use super::*; unsafe extern "C" {{ {declared} }} }}\n'
            yield f"{name} takes {names[at]} and {names[at + 1]} the wrong way round", text.replace(declared, "") + real + stub


def swapped_fields(text):
    """For each field a text in which it changes places with the next one, the last with the first."""
    for struct in re.finditer(r"pub struct (smap_\w+) \{\n((?:    pub \w+: [^\n]+,\n)+)\}", text):
        lines = struct[2].splitlines(keepends=True)
        for at in range(len(lines)):
            moved, to = list(lines), (at + 1) % len(lines)
            if len(lines) == 2 and at:
                continue
            moved[at], moved[to] = moved[to], moved[at]
            names = [re.search(r"pub (\w+)", lines[it])[1] for it in (at, to)]
            start, end = struct.span(2)
            yield f"{struct[1]}.{names[0]} is where {names[1]} is", text[:start] + "".join(moved) + text[end:]


def other_constants(text):
    """For each constant a text in which it is one more, or one less where it is the greatest."""
    for found in re.finditer(r"pub const (SMAP_\w+): (u32|u64) = ([\w:]+);", text):
        value = f"{found[3]} - 1" if "MAX" in found[3] else f"{found[3]} + 1"
        yield f"{found[1]} is {value}", text[: found.start(3)] + value + text[found.end(3) :]


def room_for(folder):
    """A copy of the crates, beside which the rest of the repository stands."""
    (folder / "bindings").mkdir()
    shutil.copytree(TOP / "bindings/rust", folder / "bindings/rust", ignore=shutil.ignore_patterns("target"))
    for name in ("bindings/c", "crates", "tests", "target"):
        (folder / name).symlink_to(TOP / name)
    return folder


def test(room, is_listed):
    """Runs the tests, and returns what they say: None if all pass, else which one fails."""
    words = ["cargo", "test", "--offline", "--quiet", "--manifest-path", f"{room}/bindings/rust/Cargo.toml"]
    env = {**os.environ, "CARGO_TARGET_DIR": f"{room}/built", "RUSTFLAGS": "-Awarnings"}
    last = ["-p", "oxc_sourcemap", "--doc"] if is_listed else ["-p", "oxc_sourcemap-sys", "--test", "calls"]
    for more in (["-p", "oxc_sourcemap", "--lib", "--tests"], last):
        try:
            ran = subprocess.run([*words, *more], capture_output=True, env=env, timeout=LONGEST, check=False)
        except subprocess.TimeoutExpired:
            return "takes too long"
        if ran.returncode:
            return fault_in(ran.stdout.decode(errors="replace") + ran.stderr.decode(errors="replace"))
    return None


def fault_in(said):
    """The first test that fails, in what cargo said."""
    failed = re.search(r"^    (\S.*)$", said[said.rfind("\nfailures:\n") :], re.M) if "\nfailures:\n" in said else None
    if failed:
        return failed[1]
    return "a test is killed" if "signal" in said else "does not compile"


def found_by(bug, rooms):
    """What notices a bug."""
    _, file, text = bug
    room = rooms.get()
    try:
        (room / "bindings/rust" / file).write_text(text)
        return test(room, file != RAW)
    finally:
        shutil.copy(TOP / "bindings/rust" / file, room / "bindings/rust" / file)
        os.utime(room / "bindings/rust" / file)
        rooms.put(room)


def mutate(words):
    raw = (TOP / "bindings/rust" / RAW).read_text()
    plants = (instead_of_calls, swapped_parameters, swapped_fields, other_constants)
    in_raw = [Bug(name, RAW, text) for plant in plants for name, text in plant(raw)]
    bugs = chosen([*in_raw, *listed(TOP / "tools/mutate/rust.txt", TOP / "bindings/rust")], words)
    with tempfile.TemporaryDirectory(prefix="planted-") as folder:
        rooms = Queue()
        for at in range(JOBS):
            (Path(folder) / str(at)).mkdir()
            rooms.put(room_for(Path(folder) / str(at)))
        nothing = Bug("nothing", f"{CRATE}/lib.rs", (TOP / "bindings/rust" / CRATE / "lib.rs").read_text())
        return try_all(nothing, bugs, lambda bug: found_by(bug, rooms), JOBS)
