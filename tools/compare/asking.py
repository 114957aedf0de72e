"""Asks tools/compare/ask, and compares its answers: for lookups.py and found.py."""

import os
import subprocess
import sys
import tempfile
from collections import Counter
from pathlib import Path

from tools.build.unproved import command, copied
from tools.compare.report import check

HERE = Path(__file__).resolve().parent
USED = ["oxc_sourcemap", "serde_json"]
# tools/compare/ask as it was built; without one, it is compiled over libraries that need not be proved.
program = None


def compiled_and_run(requests):
    with tempfile.TemporaryDirectory(prefix="ask-") as room:
        copied(f"{HERE}/ask", f"{room}/src")
        words = command("ask", USED, ["--seconds", "3600", "--steps", "1", "--stdin", requests], "src/main.rt")
        return subprocess.run(words, cwd=room, capture_output=True, text=True, env={**os.environ, "TMPDIR": room})


def answers_to(lines):
    """What tools/compare/ask answers to these lines."""
    with tempfile.NamedTemporaryFile("w") as requests:
        requests.write("\n".join(lines) + "\n")
        requests.flush()
        if program:
            ran = subprocess.run([program], stdin=open(requests.name), capture_output=True, text=True)
        else:
            ran = compiled_and_run(requests.name)
    if ran.returncode:
        sys.exit(ran.stdout[-2000:] + ran.stderr[-4000:])
    return ran.stdout.split("\n")


class Requests:
    """Lines for tools/compare/ask; what a request has to answer is a text, or a test of one."""

    def __init__(self):
        self.lines, self.wanted = [], []

    def about(self, line):
        self.lines.append(line)

    def ask(self, request, wanted):
        self.lines.append(request)
        self.wanted.append((len(self.lines) - 1, wanted))

    def compare(self):
        """How many answers were the wanted ones, by the first word of the request."""
        counts, subject, answers = Counter(), {}, answers_to(self.lines)
        for line, text in enumerate(self.lines):
            is_request = len(subject) > 0 and text.split(" ")[0] not in ("json", "tokens", "text")
            subject[line] = subject[line - 1] if is_request else line
        for (line, wanted), answer in zip(self.wanted, answers, strict=False):
            holds = wanted(answer) if callable(wanted) else answer == wanted
            what = lambda: f"{self.lines[subject[line]]}: {self.lines[line]}: {answer}, not {'' if callable(wanted) else wanted}"
            counts[self.lines[line].split(" ")[0]] += holds if holds else check(False, what())
        check(len(answers) == len(self.wanted) + 1, f"{len(answers) - 1} answers to {len(self.wanted)} requests")
        return counts
