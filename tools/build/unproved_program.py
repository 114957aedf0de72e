#!/usr/bin/env python3
"""tools/build/unproved_program.py CRATE PROGRAM   compiles a program of crates/ and the crates below it without a proof.

For the first run of a program (tools/build/program), and for people at work: minutes instead of half an hour, and nothing is proved.
`rattle build` builds proved crates alone. What `rt try` runs needs no proof, but is watched for misused memory, and is gone afterwards:
so this keeps the module of LLVM that the toolchain makes for it, and compiles that about as `rattle build` does. LEVEL in the
environment is how far it is optimized: -O2 if it is not set; -O0 takes half of the time, in parts that are compiled side by side.
"""

import os
import shutil
import subprocess
import sys
import tempfile
from pathlib import Path

TOP = Path(__file__).resolve().parents[2]
sys.path.append(str(TOP))
from tools.over_libraries import kit
from tools.build.unproved_archive import CLANG, keep_module, text_of_module

# A module that is not optimized is compiled in as many parts.
PARTS = 4


def make(room, crate, program):
    """Makes the program."""
    shutil.copytree(TOP / "crates" / crate / "src", room / crate / "src")
    keep_module(room, crate)
    level = os.environ.get("LEVEL", "-O2")
    if level == "-O0":
        parts = ["--lto-O0", "--lto-CGO0", f"--lto-partitions={PARTS}", "-mllvm", "-relocation-model=pic"]
        words = [f"{kit()}/toolchain/bin/ld.lld", "-r", *parts, "module.bc"]
    else:  # (what is watched is optimized less)
        (room / "module.ll").write_text(text_of_module(room).replace(" sanitize_address ", " "))
        words = [*CLANG, level, "-c", "module.ll"]
    subprocess.run([*words, "-o", "program.o"], cwd=room, check=True)
    link = [f"{kit()}/bin/rattle-link", "--target", "x86_64-unknown-linux-gnu", "--toolchain", f"{kit()}/toolchain"]
    libraries = [f"{kit()}/c/lib{it}.a" for it in ("os_c", "libc_c")]
    subprocess.run([*link, "-o", str(Path(program).resolve()), "program.o", *libraries], cwd=room, check=True)


if __name__ == "__main__":
    with tempfile.TemporaryDirectory() as folder:
        make(Path(folder), *sys.argv[1:])
