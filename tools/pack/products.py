"""What was built, where it lies, and of what: the input of all archives."""

import hashlib
import os
import re
import subprocess
import sys
from pathlib import Path

TOP = Path(__file__).resolve().parents[2]
sys.path.append(str(TOP))
from tools.over_libraries import USES, below, kit
from tools.pack.project import project

VERSION = (TOP / "tools/VERSION").read_text().strip()
# What the toolchain writes into what it builds of a proved crate.
LOGIC = b"rattle logic="
PROGRAMS = [it for it in ("smap", "sourcemap") if (TOP / "crates" / it).is_dir()]
# Of each processor: its name in names of archives, of Debian, of Rust and in tags of wheels, the folder of its library below target/, and
# the prefix of its binutils.
PROCESSORS = {
    "x64": ("amd64", "x86_64-unknown-linux-gnu", "x86_64", "", ""),
    "arm64": ("arm64", "aarch64-unknown-linux-gnu", "aarch64", "arm64", "aarch64-linux-gnu-"),
}


def run(*words, **more):
    """What a program prints. One that fails ends the run, with its error text."""
    ran = subprocess.run([*map(str, words)], capture_output=True, text=True, **more)
    if ran.returncode:
        sys.exit(f"package: {' '.join(map(str, words))}\n{ran.stdout}{ran.stderr}")
    return ran.stdout


def commit():
    """The commit and its time; none, and 1980, outside of git. SOURCE_DATE_EPOCH is another time."""
    told = subprocess.run(["git", "log", "-1", "--format=%H %ct"], cwd=TOP, capture_output=True, text=True).stdout.split()
    name, epoch = told or ("0" * 40, "315532800")
    return name, int(os.environ.get("SOURCE_DATE_EPOCH") or epoch)


class Products:
    """What one state of target/ has."""

    def __init__(self, folder, mark=""):
        self.folder, self.mark = folder, mark
        self.commit, self.epoch = commit()
        self.project = project()
        # each tool has its own form of a version that is marked
        self.semver = f"{VERSION}-{mark}" if mark else VERSION
        self.pep440 = f"{VERSION}+{mark}" if mark else VERSION
        self.debian = f"{VERSION}~{mark}-1" if mark else f"{VERSION}-1"
        self.name = f"junketscarp-{self.semver}"

    def checksum(self):
        """The checksum of what was built, of which all archives are made."""
        built = [
            "liboxc_sourcemap.a",
            "liboxc_sourcemap.so.1",
            "oxc_sourcemap.h",
            "wasm/module.ll.gz",
            "wasm/oxc_sourcemap.wasm",
            "wasm/page.html",
            "wasm/size.html",
            *PROGRAMS,
        ]
        files = [self.folder / it for it in built] + sorted((self.folder / "wasm/package").rglob("*"))
        sums = (hashlib.sha256(it.read_bytes()).hexdigest() + f"  {it.relative_to(self.folder)}\n" for it in files if it.is_file())
        return hashlib.sha256("".join(sums).encode()).hexdigest()

    def has_module(self):
        """Whether the module for WebAssembly is built."""
        return (self.folder / "wasm/package").is_dir()

    def library(self, processor):
        """The folder of the library for a processor."""
        return self.folder / PROCESSORS[processor][3]

    def stripped(self, path, processor, *flags):
        """A file without its debug information, which has paths of the machine."""
        room = self.folder / "stripped"
        run(f"{PROCESSORS[processor][4]}strip", "-D", *flags, "-o", room, path)
        content = room.read_bytes()
        room.unlink()
        if not self.mark and LOGIC not in content:
            sys.exit(f"package: {path} is not built of what is proved")
        return content

    def shared(self, processor):
        return self.stripped(self.library(processor) / "liboxc_sourcemap.so.1", processor, "--strip-unneeded")

    def static(self, processor):
        return self.stripped(self.library(processor) / "liboxc_sourcemap.a", processor, "--strip-debug")

    def program(self, name):
        return self.stripped(self.folder / name, "x64")


def glibc(*contents):
    """The oldest glibc that has the symbols of these files, as (2, 17)."""
    words = {it for content in contents for it in re.findall(rb"\0GLIBC_(\d+(?:\.\d+)+)(?=\0)", content)}
    return max((tuple(map(int, it.split(b".")))[:2] for it in words), default=(2, 0))


def libraries_of(crate):
    """The libraries of the toolchain that are compiled into what a crate makes."""
    names = list(dict.fromkeys(["std", *(it for own in {crate, *below(crate)} for it in USES[own] if it not in USES)]))
    for name in names:
        used = re.findall(r"^dep (\w+)$", Path(kit(), f"rlibs/{name}.rlib/format").read_text(), re.M)
        names += [it for it in used if it not in names]
    return sorted(names)


def licences(name):
    """The licence texts of a library of the toolchain."""
    return sorted(Path(kit(), "rattle", name).glob("LICENSE*"))


def toolchain():
    return Path(kit(), "KIT-ID").read_text().strip()
