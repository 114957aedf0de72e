"""Packages of Debian: the programs, the library, and the development files."""

import hashlib
import re
from datetime import datetime, timezone
from email.utils import format_datetime

from tools.pack import tree
from tools.pack.copyright import copyright_text
from tools.pack.files import File, ar, gz, tar, xz
from tools.pack.products import PROCESSORS, TOP, VERSION, glibc

LIBRARY, DEVELOPMENT, PROGRAMS = "liboxc-sourcemap1", "liboxc-sourcemap-dev", "junketscarp"
WHAT = """\
 Source maps tell which position of the sources each position of generated
 code came from (ECMA-426). This library reads, writes, looks up, joins,
 composes and remaps them, and is proved to keep each position.
 .
"""
# Of each package its section, its first line, and its last paragraph.
TEXTS = {
    PROGRAMS: (
        "devel",
        "programs that read, look up, join and remap source maps",
        " This package has the programs, which need no other package.",
    ),
    LIBRARY: ("libs", "proved library for source maps of version 3", " This package has the shared library."),
    DEVELOPMENT: (
        "libdevel",
        "proved library for source maps of version 3 (development)",
        " This package has the static library, the header, the files for pkg-config\n and CMake, and the reference.",
    ),
}


DOC_BASE = f"""\
Document: liboxc-sourcemap
Title: oxc_sourcemap.h
Abstract: Each function of the library for source maps.
Section: Programming/C

Format: HTML
Index: /usr/share/doc/{DEVELOPMENT}/reference.html
Files: /usr/share/doc/{DEVELOPMENT}/reference.html
"""


def changelog(products):
    date = format_datetime(datetime.fromtimestamp(products.epoch, timezone.utc))
    words = f"junketscarp ({products.debian}) unstable; urgency=medium\n\n  * Version {VERSION}; CHANGELOG.md is changelog.gz.\n"
    maintainer = products.project.get("maintainer")
    return (words + (f"\n -- {maintainer}  {date}\n" if maintainer else "")).encode()


def placed(files, package, products, proved):
    """Files as Debian has them: below usr, pages compressed, and the papers of the package."""
    found = {}
    for path, file in files.items():
        if path.startswith("share/man/"):
            file = File(link=f"{file.link}.gz") if file.link else File(gz(file.content, 0))
            path += ".gz"
        found[f"usr/{path}".replace("share/doc/junketscarp/", f"share/doc/{package}/")] = file
    papers = {
        "copyright": copyright_text(products.project),
        "changelog.Debian.gz": gz(changelog(products), 0),
        "changelog.gz": gz((TOP / "docs/CHANGELOG.md").read_bytes(), 0),
        "PROVED.txt": proved.encode(),
    }
    if package == DEVELOPMENT:
        found[f"usr/share/doc-base/{package}.reference"] = File(DOC_BASE.encode())
    if package != LIBRARY:
        papers |= tree.documents(without="CHANGELOG.md")
    return found | {f"usr/share/doc/{package}/{name}": File(content) for name, content in papers.items()}


def depends(package, files, products):
    if package == DEVELOPMENT:
        return f"{LIBRARY} (= {products.debian})"
    contents = [it.content for it in files.values() if it.content[:4] == b"\x7fELF"]
    return f"libc6 (>= {'.'.join(map(str, glibc(*contents)))})"


def control(package, processor, files, products):
    section, first, last = TEXTS[package]
    # (as dpkg counts: a KiB for each folder and link, and each file rounded up)
    size = sum(-(-len(it.content) // 1024) if it.link is None else 1 for it in files.values())
    fields = {
        "Package": package,
        "Source": "junketscarp" if package != PROGRAMS else None,
        "Version": products.debian,
        "Architecture": PROCESSORS[processor][0],
        "Multi-Arch": "same" if package != PROGRAMS else None,
        "Maintainer": products.project.get("maintainer"),
        "Installed-Size": str(size),
        "Depends": depends(package, files, products),
        "Section": section,
        "Priority": "optional",
        "Homepage": products.project.get("homepage"),
    }
    return "".join(f"{name}: {value}\n" for name, value in fields.items() if value) + f"Description: {first}\n{WHAT}{last}\n"


def about_library(products):
    """What programs that link the library are to depend on."""
    rows = (TOP / "bindings/c/released.txt").read_text()
    since = dict(reversed(it) for it in re.findall(r"^(\S+) .*?\b(smap_\w+)\(", rows, re.M))
    first = min(since.values(), key=lambda it: [*map(int, it.split("."))])
    symbols = "".join(f" {name}@SMAP_1 {version}~\n" for name, version in sorted((since | {"SMAP_1": first}).items()))
    return {
        "shlibs": f"liboxc_sourcemap 1 {LIBRARY} (>= {VERSION}~)\n".encode(),
        "symbols": f"liboxc_sourcemap.so.1 {LIBRARY} #MINVER#\n* Build-Depends-Package: {DEVELOPMENT}\n{symbols}".encode(),
        "triggers": b"activate-noawait ldconfig\n",
    }


def deb(package, processor, files, products):
    """The bytes of a package."""
    sums = "".join(f"{hashlib.md5(it.content).hexdigest()}  {path}\n" for path, it in sorted(files.items()) if it.link is None)
    about = {"control": control(package, processor, files, products).encode(), "md5sums": sums.encode()}
    if package == LIBRARY:
        about |= about_library(products)
    epoch = products.epoch
    packed = tar({name: File(it) for name, it in about.items()}, epoch, "./", True), tar(files, epoch, "./", True)
    return ar({"debian-binary": b"2.0\n", "control.tar.xz": xz(packed[0]), "data.tar.xz": xz(packed[1])}, epoch)


def packages(products, processor, proved):
    """Each package for a processor, by its name."""
    lib = f"lib/{PROCESSORS[processor][2]}-linux-gnu"
    parts = {LIBRARY: tree.shared(products, processor, lib), DEVELOPMENT: tree.development(products, processor, lib, False)}
    if processor == "x64":
        parts[PROGRAMS] = tree.programs(products)
    for package, files in parts.items():
        files = placed(files, package, products, proved)
        yield f"{package}_{products.debian}_{PROCESSORS[processor][0]}.deb", deb(package, processor, files, products)
