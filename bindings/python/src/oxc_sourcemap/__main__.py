"""`sourcemap ARGUMENTS`, or `python -m oxc_sourcemap ARGUMENTS`: runs the program of the wheel, with the templates of its pages, in place of
this process. Without one the status is 1."""

from __future__ import annotations

import os
import sys
from pathlib import Path

INSTEAD = """The calls of the package do the same work on every platform: SourceMap, CompiledMap and others, see help(oxc_sourcemap).
For the program itself, run this in a container, or a virtual machine, of Linux on x86-64 with glibc."""


def main() -> None:
    here = Path(__file__).resolve().parent
    program = here / "sourcemap"
    if not program.is_file():
        sys.exit(f"oxc_sourcemap: the program sourcemap is in the wheel for Linux on x86-64 alone, and not in this one.\n{INSTEAD}")
    for it in ("page", "size"):
        page = here / f"{it}.html"
        if page.is_file():
            os.environ.setdefault(f"SOURCEMAP_{it.upper()}", str(page))
    try:
        os.execv(program, [str(program), *sys.argv[1:]])
    except OSError as error:
        sys.exit(f"oxc_sourcemap: the program {program} does not run on this machine ({error.strerror}).\n{INSTEAD}")


if __name__ == "__main__":
    main()
