#!/usr/bin/env python3
"""tools/build/make_program.py NAME KIND   makes the program NAME of crates/ for tools/build/program, and prints its path.

`unproved` compiles it in little time, not for speed; `proved` has it and the libraries below it proved first. Standard error
reports either as it begins. Where another run makes it, this one waits for that. NAME.sources beside the program has the checksum of its sources, and
the time from which on a file that changes is none of them. Interrupted, it ends what it began, and leaves nothing behind.
"""

import fcntl
import os
import shutil
import signal
import subprocess
import sys
import tempfile
import time
from pathlib import Path

TOP = Path(__file__).resolve().parents[2]
# How long the first run takes.
TIMES = {"smap": "a minute", "sourcemap": "a minute or two"}


def tell(name, text):
    print(f"{name}: {text}", file=sys.stderr, flush=True)


def checksum():
    return subprocess.run([TOP / "tools/build/sources"], capture_output=True, text=True, check=True).stdout


def has_changed(since):
    """Whether a source has changed since a file was made."""
    words = ["find", TOP / "crates", TOP / "crates.txt", TOP / "HANDLES", "-name", "out", "-prune", "-o", "-newercm", since, "-print", "-quit"]
    return bool(subprocess.run(words, capture_output=True, check=True).stdout)


def commands(name, kind, out):
    """The commands that make the program."""
    if kind == "unproved":
        return [([TOP / "tools/build/unproved_program.py", name, out], TOP)]
    kit = Path(subprocess.run(["rt", "doc"], capture_output=True, text=True, check=True).stdout.strip()).parent
    libraries, made = TOP / "target/libraries", f"{out}.o"
    build = [TOP / "tools/over_libraries.py", libraries, name, "build", "--toolchain", f"{kit}/toolchain", "-o", made]
    link = [f"{kit}/bin/rattle-link", "--target", "x86_64-unknown-linux-gnu", "--toolchain", f"{kit}/toolchain", "-o", out, made]
    link += [f"{kit}/c/libos_c.a", f"{kit}/c/liblibc_c.a"]
    return [([TOP / "tools/build/libraries", libraries, name], TOP), (build, TOP / "crates" / name), (link, TOP)]


def run(words, folder, room):
    """Runs a command in a session of its own, so that all that it begins can be ended. Somebody who looks on sees what is proved."""
    env = {**os.environ, "TMPDIR": str(room), "LEVEL": "-O0"}
    log = room / "log"
    with open(log, "w", encoding="utf-8") as out:
        ran = subprocess.Popen(words, cwd=folder, env=env, stdin=subprocess.DEVNULL, stdout=out, stderr=out, start_new_session=True)
    try:
        while ran.poll() is None:
            time.sleep(0.2)
            proved = [it for it in log.read_text(encoding="utf-8").splitlines() if it.startswith("proved ")]
            if proved and sys.stderr.isatty():
                print(f"\r\033[K{proved[-1]}\r", end="", file=sys.stderr, flush=True)
    finally:
        if ran.poll() is None:
            os.killpg(ran.pid, signal.SIGKILL)
            ran.wait()
    if ran.returncode:
        sys.exit(log.read_text(encoding="utf-8"))


def made(name, kind, room):
    """The program, the checksum of its sources, and the time from which on none of them has changed."""
    since, out = room / "since", room / name
    while True:
        since.touch()
        began, sources = since.stat().st_mtime_ns, checksum()
        for words, folder in commands(name, kind, out):
            run(words, folder, room)
        if not has_changed(since):
            return out, sources, began
        tell(name, "the sources have changed meanwhile: once more")


def put(program, out, sources, began, room):
    """Puts the program in its place, and then the record of its sources."""
    stamp = room / "sources"
    stamp.write_text(sources)
    os.utime(stamp, ns=(began, began))
    Path(f"{program}.sources").unlink(missing_ok=True)
    os.replace(out, program)
    os.replace(stamp, f"{program}.sources")


def is_made(program):
    stamp = Path(f"{program}.sources")
    return program.exists() and stamp.exists() and stamp.read_text() == checksum()


def lock(name, file):
    """Waits until no other run makes the program."""
    try:
        fcntl.flock(file, fcntl.LOCK_EX | fcntl.LOCK_NB)
    except BlockingIOError:
        tell(name, "waiting for another run, which compiles it")
        fcntl.flock(file, fcntl.LOCK_EX)


def main():
    name, kind = sys.argv[1:]
    program = TOP / "target" / ("" if kind == "proved" else kind) / name
    if not shutil.which("rt"):
        sys.exit(f"{name}: not compiled yet; this needs the Rattle toolchain, but there is no rt on the path")
    program.parent.mkdir(parents=True, exist_ok=True)
    with open(f"{program}.lock", "w", encoding="utf-8") as file:
        lock(name, file)
        if not is_made(program):
            how = f"compiling it ({TIMES[name]}, once); it is not proved yet: ./check proves it"
            tell(name, how if kind == "unproved" else "proving and compiling it, which takes ten minutes and more")
            with tempfile.TemporaryDirectory(dir=program.parent, prefix=f"{name}-") as room:
                put(program, *made(name, kind, Path(room)), Path(room))
    print(program)


if __name__ == "__main__":
    for number in (signal.SIGTERM, signal.SIGHUP):
        signal.signal(number, lambda number, _: sys.exit(128 + number))
    try:
        main()
    except KeyboardInterrupt:
        sys.exit(128 + signal.SIGINT)
