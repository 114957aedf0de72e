"""Wall time and peak memory of whole processes, for performance.py and large_inputs.py.

Needs Debian's package `time`: a process counts as its peak memory that of the process which started it, so it is started by
a small one.
"""

import subprocess
import tempfile
import time
from pathlib import Path

CLOCK = "/usr/bin/time"


class Measured:
    def __init__(self, status, seconds, peak, output, errors):
        self.status, self.seconds, self.peak, self.output, self.errors = status, seconds, peak, output, errors


def measure(command, given=b"", before=""):
    """Runs a command on an input. `before` is shell text that runs first in the same process, as `ulimit -v 1000000;`."""
    with tempfile.TemporaryFile() as stdin, tempfile.TemporaryFile() as stdout, tempfile.NamedTemporaryFile("r") as peak:
        stdin.write(given)
        stdin.seek(0)
        words = list(map(str, command))
        if before:
            words = ["sh", "-c", f'{before} exec "$@"', "sh", *words]
        words = [CLOCK, "-q", "-f", "%M", "-o", peak.name, *words]
        start = time.perf_counter()
        ran = subprocess.run(words, stdin=stdin, stdout=stdout, stderr=subprocess.PIPE)
        took = time.perf_counter() - start
        stdout.seek(0)
        kilobytes = int((peak.read().split() or ["0"])[-1])
        return Measured(ran.returncode, took, kilobytes * 1024, stdout.read(), ran.stderr.decode(errors="replace").strip())


def built(top: Path) -> str:
    """The program `smap` of this repository, proved and built."""
    return subprocess.run([top / "tools/build/program", "smap"], stdout=subprocess.PIPE, check=True, text=True).stdout.strip()
