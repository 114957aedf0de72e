"""Plants bugs in what packs and builds, in a copy of the repository, and runs tools/check/package unproved there. package.txt has the
bugs, each with where it is found: several are planted in one run, each of which is found elsewhere; one that is found everywhere (no place)
is planted alone. It works over target/unproved, as `./build package unproved` leaves it.
"""

import re
import shutil
import subprocess
import sys
import tempfile
from pathlib import Path

from tools.mutate.planting import TOP, Tally, chosen, rows


def failures(copy):
    """What fails in a copy of the repository, or why nothing could be tried."""
    ran = subprocess.run(["tools/check/package", "unproved"], cwd=copy, capture_output=True, text=True)
    return re.findall(r"^package: (.*): FAILED$", ran.stdout, re.M) or (
        [] if re.search(r", 0 failed$", ran.stdout) else [(ran.stdout + ran.stderr)[-300:]]
    )


def is_apart(bug, other):
    """Whether two bugs are found in different places, and are of different texts."""
    return other.where and other.where != bug.where and (other.files, other.old) != (bug.files, bug.old)


def groups(bugs):
    """The bugs in groups for one run each."""
    found = []
    for bug in bugs:
        fits = (it for it in found if bug.where and all(is_apart(bug, other) for other in it))
        group = next(fits, None)
        if group is None:
            found.append(group := [])
        group.append(bug)
    return found


def failed_by(copy, group):
    """Plants the bugs of a group, and returns what fails."""
    texts = {it.files: (copy / it.files).read_text() for it in group}
    for bug in group:
        text = (copy / bug.files).read_text()
        if text.count(bug.old) != 1:
            sys.exit(f"{bug.name}: cannot be planted")
        (copy / bug.files).write_text(text.replace(bug.old, bug.new))
    failed = failures(copy)
    for file, text in texts.items():
        (copy / file).write_text(text)
    return failed


def mutate(words):
    bugs = chosen([(it.name, it) for it in rows(TOP / "tools/mutate/package.txt")], words)
    tally = Tally()
    with tempfile.TemporaryDirectory() as room:
        copy = Path(room, "copy")
        subprocess.run(["git", "clone", "-q", TOP, copy], check=True)
        (copy / "target").mkdir()
        shutil.copytree(TOP / "target/unproved", copy / "target/unproved", symlinks=True)
        for group in groups(row for _, row in bugs):
            failed = failed_by(copy, group)
            for bug in group:
                tally.tell(bug.name, "; ".join(it for it in failed if it.startswith(bug.where)) or None)
    return tally.end()
