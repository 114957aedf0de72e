"""What the comparisons share: the differences that were found, rows of tables, and runs of `smap` and of the peers."""

import json
import os
import subprocess
import sys
from pathlib import Path
from typing import Any

HERE = Path(__file__).resolve().parent
# The program that is compared.
program = ""
failures: list[str] = []


def check(holds: bool, what: str) -> bool:
    if not holds:
        failures.append(what)
        print(f"DIFFERS: {what[:2000]}", file=sys.stderr)
    return holds


def row(*cells: object) -> None:
    print("| " + " | ".join(map(str, cells)) + " |", flush=True)


def header(line: str) -> None:
    """The two first lines of a table; a name that ends in `#` has a column of numbers."""
    names = [name.strip() for name in line.split("|")]
    print()
    row(*[name.rstrip("#") for name in names])
    print("|" + "".join("---:|" if name.endswith("#") else "---|" for name in names))


def smap(words: list[Any], given: str | bytes) -> str:
    """What `smap` prints."""
    text = given.encode() if isinstance(given, str) else given
    ran = subprocess.run([program, *map(str, words)], input=text, capture_output=True)
    check(ran.returncode == 0, f"smap {words[0]}: {ran.stderr.decode()}")
    return ran.stdout.decode()[:-1]


def peers(what: str, given: Any, *words: str) -> Any:
    """What the packages of npm answer, asked by peers.js."""
    environment = {"NODE_PATH": "/usr/share/nodejs", **os.environ}
    command = ["node", "--max-old-space-size=8192", str(HERE / "peers.js"), what, *words]
    ran = subprocess.run(command, input=json.dumps(given).encode(), capture_output=True, env=environment)
    if ran.returncode:
        sys.exit(ran.stderr.decode())
    return json.loads(ran.stdout)


def end() -> None:
    """The last line, and the status: 1 if there is a difference that is not explained."""
    print(f"\n{len(failures)} differences" if failures else "\nNo difference that is not explained.")
    sys.exit(1 if failures else 0)
