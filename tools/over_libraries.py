#!/usr/bin/env python3
"""Runs the prover on one crate, over libraries that are proved already.

    tools/over_libraries.py LIBRARIES CRATE VERB FLAG..

The current folder has the crate's src/, specs/ and proofs/; crates.txt says which libraries it uses. LIBRARIES is a folder
with one NAME.rlib for each library of this repository, as `rt ci` proves them. VERB is rattle's check or build, and the flags
are rattle's. `rt check` and `rt lib` do the same over libraries that they prove first and keep in out/; `./check` has those of
`rt ci`.
"""

import functools
import os
import subprocess
import sys
from pathlib import Path

TEXT = Path(__file__).parents[1].joinpath("crates.txt").read_text()
LINES = [line.partition(":") for line in TEXT.splitlines() if line.strip() and not line.startswith("#")]
# The libraries that each crate uses, the lowest crate first: those of this repository and those of the toolchain.
USES = {name: uses.split() for name, _, uses in LINES}


@functools.cache
def kit():
    """The toolchain's folder, where the page lies that `rt doc` names."""
    return Path(subprocess.run(["rt", "doc"], capture_output=True, text=True, check=True).stdout.strip()).parent


def below(crate):
    """The libraries of this repository that a crate uses, and those that they use."""
    own = [it for it in USES[crate] if it in USES]
    return {*own}.union(*map(below, own))


def command(libraries, crate, verb, is_program=False):
    """The words that run the prover, to which flags can be added."""
    found = [f"{kit()}/bin/rattle", verb, "--crate-name", crate, "src/main.rt" if is_program else "src/lib.rt"]
    for name in ("std", *USES[crate]):
        found += ["--extern", f"{name}={libraries if name in USES else f'{kit()}/rlibs'}/{name}.rlib"]
    found += ["-L", f"dependency={libraries}", "-L", f"dependency={kit()}/rlibs"]
    return [*found, "--antt-project", f"{kit()}/rattle/logic/antt-project.json", "--logic-built", f"{kit()}/logic_built"]


if __name__ == "__main__":
    libraries, crate, verb, *flags = sys.argv[1:]
    words = command(os.path.abspath(libraries), crate, verb, os.path.isfile("src/main.rt"))
    if "--crate-checked" in flags:  # which checks nothing, and takes no logic
        del words[words.index("--logic-built") :]
    sys.exit(subprocess.run([*words, *flags]).returncode)
