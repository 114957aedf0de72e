"""What the checks of archives share: faults, a tally, the job that each archive does, and empty folders where it is done."""

import os
import shutil
import subprocess
import tarfile
import time
from pathlib import Path

from tools.over_libraries import kit

TOP = Path(__file__).resolve().parents[3]
VERSION = (TOP / "tools/VERSION").read_text().strip()
CI = os.environ.get("CI") == "true"
# What the documents ask for: without these the check fails under CI=true.
NEEDED = ("cc", "node", "npm", "cargo")
MAP = '{"version":3,"sources":["a.js"],"names":["x"],"mappings":"AAAA,GAAIA"}'
C_JOB = r"""
#include <oxc_sourcemap.h>
#include <stdio.h>
#include <string.h>

int main(void) {
    const char *json = "{\"version\":3,\"sources\":[\"a.js\"],\"names\":[\"x\"],\"mappings\":\"AAAA,GAAIA\"}";
    smap_map *map;
    smap_original o;
    if (smap_from_json_string(json, strlen(json), &map, NULL) != SMAP_OK || smap_trace(map, 0, 3, SMAP_BEFORE, &o, NULL) != SMAP_OK) return 1;
    printf("%.*s %u %u %.*s\n", (int)o.source.len, o.source.at, o.token.src_line, o.token.src_col, (int)o.name.len, o.name.at);
    smap_free_map(map);
    return 0;
}
"""
ANSWER = "a.js 0 4 x\n"


class Fault(Exception):
    """What is wrong with an archive."""


def holds(condition, message):
    if not condition:
        raise Fault(message)


class Tally:
    def __init__(self):
        self.passed = self.failed = 0

    def attempt(self, name, job, *words, **more):
        began = time.monotonic()
        try:
            job(*words, **more)
        except Exception as fault:  # (an archive may be wrong in any way)
            self.failed += 1
            print(f"package: {name}: FAILED\n{type(fault).__name__}: {fault}", flush=True)
            return
        self.passed += 1
        print(f"package: {name}: passed, {time.monotonic() - began:.1f} s", flush=True)

    def has(self, name, *programs):
        """Whether these programs are there. What is missing is told."""
        missing = [it for it in programs if not shutil.which(it)]
        if missing:
            print(f"package: {name}: passed over, there is no {' and no '.join(missing)}", flush=True)
            self.failed += CI and any(it in NEEDED for it in missing)
        return not missing


def ran(words, cwd=None, env=None, check=True, input=None):
    """What a program prints. One that fails is a fault."""
    done = subprocess.run([*map(str, words)], cwd=cwd, env=env, capture_output=True, text=True, input=input, timeout=1800)
    if check and done.returncode:
        raise Fault(f"{' '.join(map(str, words))} ends with {done.returncode}:\n{done.stdout[-3000:]}{done.stderr[-3000:]}")
    return done.stdout


class Empty:
    """A folder of its own, where programs run that see neither the repository nor the toolchain."""

    hidden = [TOP, *map(Path, filter(None, [os.environ.get("REPOSITORY")])), Path(kit())]
    unshare = ["unshare", "-m"] if os.getuid() == 0 else ["unshare", "-rm"]
    can_hide = (
        shutil.which("unshare") and not subprocess.run([*unshare, "mount", "-t", "tmpfs", "none", "/mnt"], capture_output=True).returncode
    )

    def __init__(self, folder):
        self.folder = Path(folder)
        self.folder.mkdir(parents=True)
        home = self.folder / "home"
        home.mkdir()
        kept = {
            "PATH": os.environ["PATH"],
            "HOME": str(home),
            "CARGO_HOME": f"{home}/cargo",
            "npm_config_cache": f"{home}/npm",
            "LC_ALL": "C.UTF-8",
        }
        rustup = os.environ.get("RUSTUP_HOME") or Path.home() / ".rustup"
        self.environment = kept | ({"RUSTUP_HOME": str(rustup)} if Path(rustup).is_dir() else {})

    def write(self, name, text):
        (self.folder / name).parent.mkdir(parents=True, exist_ok=True)
        (self.folder / name).write_text(text)

    def run(self, *words, input=None, **more):
        """What a program prints in the folder."""
        if self.can_hide:
            hide = "".join(f'mount -t tmpfs none "{it}"; ' for it in self.hidden)
            words = [*self.unshare, "sh", "-ec", f'{hide}cd "$0"; exec "$@"', self.folder, *words]
        return ran(words, self.folder, self.environment | more, input=input)

    def answers(self, *words, **more):
        """A program has to print the answer of the job."""
        found = self.run(*words, **more)
        holds(found == ANSWER, f"{' '.join(map(str, words))} prints {found!r}")


def unpacked(archive, to):
    """Unpacks a tar into a new folder, and returns its one folder."""
    to.mkdir(parents=True)
    with tarfile.open(archive) as packed:
        packed.extractall(to, filter="tar")
    return next(to.iterdir())
