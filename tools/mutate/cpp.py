"""Plants bugs in the header for C++, those of cpp.txt, and runs bindings/c/test_cpp.cpp over each. It works over the library in target/,
or with `unproved` over that in target/unproved, and needs c++ and its sanitizers.
"""

import os
import subprocess
import tempfile
from pathlib import Path

from tools.mutate.planting import TOP, Bug, chosen, listed, try_all

HEADER = "oxc_sourcemap.hpp"
FOLDER = TOP / "bindings/c"
WRAPS = "-Wl,--wrap=malloc,--wrap=calloc,--wrap=realloc,--wrap=free"


def found_by(bug, library):
    """What notices a bug."""
    with tempfile.TemporaryDirectory(prefix="planted-") as room:
        Path(room, HEADER).write_text(bug.text)
        words = [os.environ.get("CXX", "c++"), "-std=c++17", "-fsanitize=address,undefined", "-fno-sanitize-recover=all", WRAPS, f"-I{room}"]
        words += [f"-I{library}", "-iquote", room, "-x", "c++", "-", "-x", "none", f"{library}/liboxc_sourcemap.a", "-o", f"{room}/test"]
        compiled = subprocess.run(words, input=(FOLDER / "test_cpp.cpp").read_bytes(), capture_output=True, check=False)
        if compiled.returncode:
            return "does not compile"
        ran = subprocess.run([f"{room}/test", f"{room}/map.smc"], capture_output=True, text=True, check=False)
        return (ran.stdout + ran.stderr).strip().splitlines()[0] if ran.returncode else None


def mutate(words):
    library = TOP / "target"
    if words[:1] == ["unproved"]:
        library, words = library / "unproved", words[1:]
    nothing = Bug("nothing", HEADER, (FOLDER / HEADER).read_text())
    bugs = chosen(list(listed(TOP / "tools/mutate/cpp.txt", FOLDER)), words)
    return try_all(nothing, bugs, lambda bug: found_by(bug, library), int(os.environ.get("JOBS", "2")))
