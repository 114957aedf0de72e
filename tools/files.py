"""The files of the repository, for what counts or searches them."""

import os
from collections.abc import Iterator
from pathlib import Path

TOP = Path(__file__).resolve().parents[1]
# Folders of what is made, which are no part of it.
MADE = {"out", "target", "dist", ".git", "__pycache__", "node_modules", "prebuilds"}


def tree(top: Path = TOP) -> list[Path]:
    """All files of the repository, in order."""
    found: list[Path] = []
    for folder, folders, files in os.walk(top):
        folders[:] = [it for it in folders if it not in MADE]
        found += [Path(folder, it) for it in files]
    return sorted(found)


def is_script(file: Path) -> bool:
    """Whether a file without a suffix says in its first line what runs it."""
    if file.suffix or file.is_symlink():
        return False
    with file.open("rb") as text:
        return text.read(2) == b"#!"
