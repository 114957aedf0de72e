"""The stored runs of the program sourcemap: tests/sourcemap/runs.json, and contents.json with those of sources in and out."""

import json
import os
from pathlib import Path


def stored_runs(tests):
    """Each run, with its files and those that all of its book have."""
    for name in ("runs.json", "contents.json"):
        book = json.loads((tests / name).read_text(encoding="utf-8"))
        yield from ({**it, "files": {**book["files"], **it.get("files", {})}} for it in book["runs"])


def link(folder, links):
    """Makes the links of a run, each by its name and what it leads to."""
    for name, to in links.items():
        os.symlink(to, Path(folder, name))


def left(folder, names):
    """What the files of these names hold in the end, with their ends of lines; None for one that is not there."""
    return {name: Path(folder, name).read_bytes().decode() if Path(folder, name).exists() else None for name in names}
