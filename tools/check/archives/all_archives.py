"""What holds of all archives, and what is said of them."""

import gzip
import hashlib
import io
import json
import lzma
import os
import re
import shutil
import tarfile
import tempfile
import zipfile
from pathlib import Path

from tools.check.archives.trying import TOP, VERSION, Empty, holds
from tools.over_libraries import kit
from tools.pack.products import commit

# What the paths of machines begin with, behind the first slash, which stands behind no name (as in tools/build/c).
FOLDERS = (r"root\b", r"home/\w", r"tmp/[\w.-]", r"builds?/\w", r"var/(?:tmp|folders)")


def inside(name, content):
    """All files that are in some bytes, each with its name: archives are opened, also those in archives."""
    yield name, content
    if content[:2] == b"\x1f\x8b":
        yield from inside(f"{name}:", gzip.decompress(content))
    elif content[:6] == b"\xfd7zXZ\0":
        yield from inside(f"{name}:", lzma.decompress(content))
    elif content[:4] == b"PK\3\4":
        with zipfile.ZipFile(io.BytesIO(content)) as packed:
            yield from (it for member in packed.namelist() for it in inside(f"{name}:{member}", packed.read(member)))
    elif content[:8] == b"!<arch>\n":
        yield from (it for member, part in members_of_ar(content) for it in inside(f"{name}:{member}", part))
    elif content[257:262] == b"ustar":
        with tarfile.open(fileobj=io.BytesIO(content)) as packed:
            yield from (
                it for member in packed if member.isfile() for it in inside(f"{name}:{member.name}", packed.extractfile(member).read())
            )


def members_of_ar(content):
    at = 8
    while at + 60 <= len(content):
        size = int(content[at + 48 : at + 58])
        yield content[at : at + 16].decode().strip(), content[at + 60 : at + 60 + size]
        at += 60 + size + size % 2


def has_no_path(archives):
    """No byte of any archive is one of a path of this machine, and no section has debug information."""
    places = {TOP, *Empty.hidden, Path.home(), Path(tempfile.gettempdir()), Path(os.environ.get("CARGO_HOME", Path.home() / ".cargo"))}
    words = [re.escape(str(it)) for it in places if len(it.parts) > 1] + [rf"(?<![\w.])/{it}" for it in FOLDERS] + [r"file:///\w"]
    known = re.compile("|".join(words).encode())
    faults = []
    for archive in archives:
        for name, content in inside(archive.name, archive.read_bytes()):
            for found in known.finditer(content):
                faults.append(f"{name}: {content[max(0, found.start() - 20) : found.end() + 60]!r}")
            if content[:4] == b"\x7fELF" and b".debug_info\0" in content:
                faults.append(f"{name}: debug information")
    holds(not faults, "\n".join(faults[:20]))


def has_fixed_entries(archives, epoch):
    """Entries of a tar are sorted, those of root and of one time, that of the commit (npm and cargo have times of their own, the last of 2006)."""
    for archive in archives:
        for name, content in inside(archive.name, archive.read_bytes()):
            if content[257:262] != b"ustar":
                continue
            with tarfile.open(fileobj=io.BytesIO(content)) as packed:
                entries = packed.getmembers()
            times = {it.mtime for it in entries}
            own = not archive.name.endswith((".tgz", ".crate"))
            holds(times == {epoch} if own else max(times) <= max(epoch, 1153704088), f"{name}: times {times}, not {epoch}")
            holds({(it.uid, it.gid) for it in entries} == {(0, 0)}, f"{name}: owners")
            names = [it.name for it in entries]
            holds(not own or names == sorted(names), f"{name}: the order of its entries")


def has_licences(archives):
    """What has compiled code has its licence, and those of the libraries in it."""
    for archive in archives:
        if archive.name.endswith((".deb", ".whl")) or re.search(r"-linux-|-sys-|junketscarp-\d.*tgz", archive.name):
            texts = b"".join(
                content for name, content in inside(archive.name, archive.read_bytes()) if re.search("LICENSE|copyright", name)
            )
            for it in (b"Redistribution and use in source", b"Permission is hereby granted", b"serde_json"):
                holds(it in texts, f"{archive.name} has no {it.decode()}")


def has_sums(dist):
    """SHA256SUMS has each file, with its sum."""
    told = dict(reversed(line.split("  ")) for line in (dist / "SHA256SUMS").read_text().splitlines())
    found = {it.name: hashlib.sha256(it.read_bytes()).hexdigest() for it in dist.iterdir() if it.name != "SHA256SUMS" and it.is_file()}
    holds(told == found, f"these differ: {sorted(set(told.items()) ^ set(found.items()))}")


def has_materials(dist, archives):
    """The list of materials has each archive with its sum, libraries with their licences, and ties that lead to what is there."""
    document = json.loads(next(dist.glob("*.spdx.json")).read_text())
    packages = {it["name"]: it for it in document["packages"]}
    for it in archives:
        told = packages.get(it.name, {}).get("checksums", [{}])[0].get("checksumValue")
        holds(told == hashlib.sha256(it.read_bytes()).hexdigest(), f"{it.name} is not told of")
    idents = {"SPDXRef-DOCUMENT", *(it["SPDXID"] for it in document["packages"])}
    holds(len(idents) == len(packages) + 1, "two packages have one id")
    holds(all({it["spdxElementId"], it["relatedSpdxElement"]} <= idents for it in document["relationships"]), "a tie leads nowhere")
    holds({"rattle-serde_json", "rattle-std"} <= {*packages}, "the libraries of the toolchain are not told of")


def tells_what_is_proved(dist, what):
    """PROVED.txt has the commit, the toolchain, what the gate passed, each premise, and the way to redo it."""
    text = (dist / "PROVED.txt").read_text()
    holds(re.search(r"^commit: [0-9a-f]{40}\b", text, re.M), "there is no commit")
    holds(f"toolchain: {Path(kit(), 'KIT-ID').read_text().strip()}\n" in text, "there is no toolchain")
    passed = {"proved": r"last line: \d+ passed, 0 failed$", "unproved": "NOTHING HERE IS PROVED", "trial": "is no release"}[what]
    holds(re.search(passed, text, re.M), "what passed is not told")
    if what == "unproved":
        return
    premises = re.findall(r"^- \*\*(\w+)", re.search(r"## Premises(.*?)^## ", (TOP / "docs/PROOFS.md").read_text(), re.S | re.M)[1], re.M)
    holds(len(premises) > 3 and all(f"- {it}" in text for it in premises), "a premise is missing")
    holds("git checkout" in text and "./check" in text, "how to redo it is not told")


def has_names(dist, has_arm, has_npm, mark):
    """There is each archive, and nothing else."""
    semver = f"{VERSION}-{mark}" if mark else VERSION
    debian, wheel = (f"{VERSION}~{mark}-1", f"{VERSION}+{mark}") if mark else (f"{VERSION}-1", VERSION)
    wanted = {
        "PROVED.txt",
        "SHA256SUMS",
        f"junketscarp-{semver}.spdx.json",
        f"junketscarp-{semver}-linux-x64.tar.gz",
        f"junketscarp_{debian}_amd64.deb",
    }
    wanted |= {f"{it}_{debian}_amd64.deb" for it in ("liboxc-sourcemap1", "liboxc-sourcemap-dev")} | {f"oxc_sourcemap-{wheel}.tar.gz"}
    if has_arm:
        wanted |= {
            f"junketscarp-{semver}-linux-arm64.tar.gz",
            *(f"{it}_{debian}_arm64.deb" for it in ("liboxc-sourcemap1", "liboxc-sourcemap-dev")),
        }
    if shutil.which("cargo"):
        wanted |= {f"oxc_sourcemap-sys-{semver}.crate", f"oxc_sourcemap-9.0.0+junketscarp.{semver}.crate"}
    if has_npm:
        own = [json.loads(it.read_text())["name"] for it in sorted(TOP.glob("bindings/node/packages/*/package.json"))]
        wanted |= {f"{it.removeprefix('@').replace('/', '-')}-{semver}.tgz" for it in ("junketscarp", *own)}
    found = {it.name for it in dist.iterdir() if it.is_file() and it.suffix != ".whl"}
    holds(found == wanted, f"these are not there, or are and should not be: {sorted(found ^ wanted)}")
    holds(len([*dist.glob(f"oxc_sourcemap-{wheel}-*.whl")]) == 1 + has_arm, "the wheels")


def same_bytes(dist, again):
    """A second run gave the same bytes."""
    for it in sorted(dist.iterdir()):
        if it.is_file():
            holds((again / it.name).read_bytes() == it.read_bytes(), f"{it.name}: another run gave other bytes")


def try_lists(tally, dist, again, archives, what):
    """What holds of all archives, and what is said of them."""
    tally.attempt("the same bytes again", same_bytes, dist, again)
    tally.attempt("SHA256SUMS", has_sums, dist)
    tally.attempt("licences", has_licences, archives)
    tally.attempt("list of materials", has_materials, dist, archives)
    tally.attempt("PROVED.txt", tells_what_is_proved, dist, what)
    tally.attempt("no path of this machine", has_no_path, [it for it in sorted(dist.iterdir()) if it.is_file()])
    tally.attempt("times, owners and orders", has_fixed_entries, archives, commit()[1])
