"""The tarball: its files, its programs, and the library by pkg-config, by CMake and under qemu."""

import os
import re
import shutil
import struct
import subprocess
from pathlib import Path

from tools.check.archives.trying import C_JOB, MAP, TOP, VERSION, Empty, Fault, holds, ran, unpacked

QEMU = ["qemu-aarch64", "-L", os.environ.get("SYSROOT", "/usr/aarch64-linux-gnu")]
CMAKE_JOB = """
cmake_minimum_required(VERSION 3.13)
project(job C)
find_package(oxc_sourcemap {version} REQUIRED)
add_executable(shared job.c)
target_link_libraries(shared oxc_sourcemap::oxc_sourcemap)
add_executable(static job.c)
target_link_libraries(static oxc_sourcemap::static)
"""


def calls_of_header():
    return set(ran([TOP / "tools/check/interface", "calls"]).split())


def has_files(tree, processor):
    """The folder has what it is to have: programs that may be run, the library with its name, and a page for each function."""
    wanted = "README lib/liboxc_sourcemap.a lib/liboxc_sourcemap.so.1 include/oxc_sourcemap.h include/oxc_sourcemap.hpp share/doc/junketscarp/LICENSE"
    wanted += " share/doc/junketscarp/LICENSES-OF-LIBRARIES share/doc/junketscarp/CHANGELOG.md share/doc/junketscarp/PROVED.txt share/man/man3/oxc_sourcemap.3"
    programs = [it for it in ("smap", "sourcemap") if (TOP / "crates" / it).is_dir()] if processor == "x64" else []
    for it in programs:
        wanted += f" share/man/man1/{it}.1 share/bash-completion/completions/{it} share/zsh/site-functions/_{it} share/fish/vendor_completions.d/{it}.fish"
        holds(os.access(tree / "bin" / it, os.X_OK), f"bin/{it} cannot be run")
    pages = {it.name: it.read_text() for it in (tree / "share/doc/junketscarp").glob("*.md")}
    links = [it for page in pages.values() for it in re.findall(r"\]\(([^)#:]+)[)#]", page) if it not in pages]
    holds("cli.md" in pages and not links, f"documents have links to {links}")
    missing = [it for it in wanted.split() if not (tree / it).is_file() or not (tree / it).stat().st_size]
    holds(not missing, f"there is no {missing}")
    holds(os.readlink(tree / "lib/liboxc_sourcemap.so") == "liboxc_sourcemap.so.1", "where liboxc_sourcemap.so leads")
    holds("[liboxc_sourcemap.so.1]" in ran(["readelf", "-d", tree / "lib/liboxc_sourcemap.so.1"]), "the name in the library")
    machine = {"x64": 62, "arm64": 183}[processor]
    holds(struct.unpack("<H", (tree / "lib/liboxc_sourcemap.so.1").read_bytes()[18:20])[0] == machine, "the processor of the library")
    holds((tree / "include/oxc_sourcemap.h").read_bytes() == (TOP / "bindings/c/oxc_sourcemap.h").read_bytes(), "the header is another")
    html = (tree / "share/doc/junketscarp/reference.html").read_text()
    for it in calls_of_header():
        page = tree / f"share/man/man3/{it}.3"
        holds(page.is_file() and re.search(rf"^\.SH NAME\n.*\b{it}\b", page.read_text(), re.M), f"{it} has no page")
        holds(f"<span id={it}>" in html, f"{it} is not in reference.html")


def has_symbols(tree, prefix=""):
    """Both libraries give each call of the header, and nothing else; the shared one by the version SMAP_1. All that was released is there."""
    rows = re.findall(r" (\w+)@@SMAP_1$", ran([f"{prefix}readelf", "--dyn-syms", "-W", tree / "lib/liboxc_sourcemap.so.1"]), re.M)
    holds({*rows} - {"SMAP_1"} == calls_of_header(), f"other symbols: {sorted({*rows} ^ calls_of_header())}")
    rows = re.findall(r" [A-Z] (\w+)$", ran([f"{prefix}nm", "-g", "--defined-only", tree / "lib/liboxc_sourcemap.a"]), re.M)
    holds({*rows} == calls_of_header(), f"other symbols in the archive: {sorted({*rows} ^ calls_of_header())}")
    ran([TOP / "tools/pack/released"])


def run_programs(empty, tree):
    """The programs tell their version and what they do, and answer."""
    for name in (it for it in ("smap", "sourcemap") if (TOP / "crates" / it).is_dir()):
        told = empty.run(tree / "bin" / name, "--version")
        holds(told == f"{name} {VERSION}\n", f"{name} --version prints {told!r}")
        holds("trace" in empty.run(tree / "bin" / name, "--help"), f"{name} --help says nothing of trace")
        without = subprocess.run([tree / "bin" / name], capture_output=True, text=True, input="")
        status = 0 if name == "sourcemap" else 2  # (this one prints its help)
        holds(without.returncode == status and "trace" in without.stdout + without.stderr, f"{name} without arguments says {without}")
    found = empty.run(tree / "bin/smap", "trace", "0", "3", input=MAP)
    holds(found == '"a.js":0:4 "x"\n', f"smap prints {found!r}")
    if (tree / "bin/sourcemap").exists():
        empty.write("a.js.map", MAP)
        found = empty.run(tree / "bin/sourcemap", "trace", "a.js.map", "0:3")
        holds("a.js" in found and "0:4" in found, f"sourcemap prints {found!r}")


def smap_in_a_link(empty, tree):
    """A link to the program works, as in a folder of the path."""
    (empty.folder / "smap").symlink_to(tree / "bin/smap")
    holds(empty.run(empty.folder / "smap", "trace", "0", "3", input=MAP) == '"a.js":0:4 "x"\n', "by a link")


def by_pkg_config(empty, tree):
    """A program in C by pkg-config: over the shared library, which it finds, and over the static one."""
    empty.write("job.c", C_JOB)
    where = {"PKG_CONFIG_PATH": str(tree / "lib/pkgconfig")}
    told = empty.run("pkg-config", "--modversion", "oxc_sourcemap", **where).strip()
    holds(told == VERSION, f"pkg-config tells version {told}")
    flags = empty.run("pkg-config", "--cflags", "--libs", "oxc_sourcemap", **where).split()
    empty.run("cc", "-Wall", "-Wextra", "-Werror", "job.c", "-o", "by_pkg_config", *flags)
    holds("liboxc_sourcemap.so.1" in empty.run("readelf", "-d", "by_pkg_config"), "the program does not use the shared library")
    empty.answers(empty.folder / "by_pkg_config")
    flags = empty.run("pkg-config", "--cflags", "oxc_sourcemap", **where).split()
    empty.run(
        "cc",
        "job.c",
        *flags,
        empty.run("pkg-config", "--variable=libdir", "oxc_sourcemap", **where).strip() + "/liboxc_sourcemap.a",
        "-o",
        "static",
    )
    holds("liboxc" not in empty.run("readelf", "-d", "static"), "the program uses the shared library")
    empty.answers(empty.folder / "static")


def by_cmake(empty, tree, *more, **environment):
    """The same by CMake."""
    empty.write("cmake/job.c", C_JOB)
    empty.write("cmake/CMakeLists.txt", CMAKE_JOB.format(version=VERSION))
    empty.run("cmake", "-S", "cmake", "-B", "cmake/build", f"-DCMAKE_PREFIX_PATH={tree}", *more, **environment)
    empty.run("cmake", "--build", "cmake/build")
    holds("liboxc_sourcemap.so.1" in empty.run("readelf", "-d", "cmake/build/shared"), "the program does not use the shared library")
    for it in ("shared", "static"):
        empty.answers(empty.folder / "cmake/build" / it)


def refuses_another_version(empty, tree):
    """CMake takes this library for an older one, as C grows by addition alone, but not for a newer one."""
    major = int(VERSION.split(".")[0])
    for name, version in (("older", "1.0"), ("newer", f"{major + 1}.0")):
        empty.write(f"{name}/job.c", C_JOB)
        empty.write(f"{name}/CMakeLists.txt", CMAKE_JOB.format(version=version))
    empty.run("cmake", "-S", "older", "-B", "older/build", f"-DCMAKE_PREFIX_PATH={tree}")
    try:
        empty.run("cmake", "-S", "newer", "-B", "newer/build", f"-DCMAKE_PREFIX_PATH={tree}")
    except Fault as fault:
        holds("compatible with requested version" in str(fault).replace("\n  ", " "), str(fault))
        return
    raise Fault("another version is taken")


def has_pages(tree):
    """groff, behind man, has nothing to say against any page; those of the programs have their last sections, and that of sourcemap names
    each variable and file that its pages take their templates from."""
    pages = [it for it in sorted((tree / "share/man").rglob("*.[13]")) if not it.is_symlink()]
    for it in (tree / "share/man/man1").iterdir():
        missing = [name for name in ("EXIT STATUS", "ENVIRONMENT", "FILES") if f"\n.SH {name}\n" not in it.read_text()]
        holds(not missing, f"{it.name} has no {missing}")
    if (tree / "share/man/man1/sourcemap.1").exists():
        page = (tree / "share/man/man1/sourcemap.1").read_text().replace("\\-", "-")
        for it in ("page", "size"):
            places = re.findall(r'\b(?:variable|beside): "(?:\.\./)?(.*?)"', (TOP / f"crates/sourcemap_reports/src/{it}.rt").read_text())
            missing = [name for name in places if name not in page]
            holds(len(places) == 2 and not missing, f"sourcemap.1 has no {missing or f'places of {it}'}")
    said = subprocess.run(["groff", "-man", "-Tutf8", "-ww", "-z", "-rLL=200n", *pages], capture_output=True, text=True)
    holds(not said.stderr and not said.returncode, said.stderr)


def completes(tree):
    """Each shell that is there reads its completions."""
    places = {"bash": "bash-completion/completions/*", "zsh": "zsh/site-functions/_*", "fish": "fish/vendor_completions.d/*.fish"}
    for shell, path in places.items():
        for it in sorted((tree / "share").glob(path)) if shutil.which(shell) else []:
            ran([shell, "-n", it])


def installs(room, tree, what):
    """./build package install puts the same files below DESTDIR and the prefix."""
    more = [f"--{what}"] if what != "proved" else []
    ran([TOP / "build", "package", "install", "--prefix", "/opt/own prefix", *more], env=os.environ | {"DESTDIR": str(room / "dest")})
    below = room / "dest/opt/own prefix"
    lists = [{it.relative_to(top): (it.lstat().st_mode, it.read_bytes()) for it in top.rglob("*") if it.is_file()} for top in (below, tree)]
    lists[1].pop(Path("README"))
    holds(lists[0] == lists[1], f"these differ: {sorted({str(path) for path, _ in {*lists[0].items()} ^ {*lists[1].items()}})}")
    holds([*(room / "dest").iterdir()] == [room / "dest/opt"], "files beside the prefix")


def on_arm(empty, tree):
    """The library for aarch64, by both of its forms, under qemu."""
    empty.write("job.c", C_JOB)
    here = ["-I", tree / "include", "job.c"]
    empty.run("aarch64-linux-gnu-gcc", *here, tree / "lib/liboxc_sourcemap.a", "-o", "static")
    empty.run("aarch64-linux-gnu-gcc", *here, "-L", tree / "lib", "-loxc_sourcemap", f"-Wl,-rpath,{tree}/lib", "-o", "shared")
    if shutil.which("qemu-aarch64"):
        for it in ("static", "shared"):
            empty.answers(*QEMU, empty.folder / it)


def all_of_arm(empty, tree):
    """The tests of the library for C, with each request for memory refused in turn."""
    tests = sorted(shutil.copytree(TOP / "bindings/c/tests", empty.folder / "tests").glob("*.c"))
    words = ["-std=c99", "-O1", "-Wl,--wrap=malloc,--wrap=calloc,--wrap=realloc,--wrap=free", "-I", tree / "include"]
    empty.run("aarch64-linux-gnu-gcc", *words, *tests, tree / "lib/liboxc_sourcemap.a", "-o", "test")
    printed = empty.run(*QEMU, empty.folder / "test")
    holds(re.search(r"^[1-9]\d{2,} passed, 0 failed$", printed, re.M), printed)


def try_tarball(tally, room, archive, what):
    tree = Path()

    def unpack():
        # (unpacked here and moved there: nothing may know where it was)
        nonlocal tree
        first = unpacked(archive, room / "first")
        tree = (room / "there/a folder").with_name("moved")
        tree.parent.mkdir()
        first.rename(tree)

    processor = re.search(r"-linux-(\w+)\.tar", archive.name)[1]
    tally.attempt(f"{processor} tarball, unpacked", unpack)
    tally.attempt(f"{processor} tarball, its files", has_files, tree, processor)
    empty = Empty(room / "empty")
    if processor == "arm64":
        tally.attempt(
            "arm64 tarball, symbols", has_symbols, tree, "aarch64-linux-gnu-" if shutil.which("aarch64-linux-gnu-readelf") else ""
        )
        tally.attempt("arm64 tarball, from C", on_arm, empty, tree)
        if tally.has("arm64 tarball, tests of the library", "qemu-aarch64"):
            tally.attempt("arm64 tarball, tests of the library", all_of_arm, empty, tree)
        return tree
    tally.attempt("x64 tarball, symbols", has_symbols, tree)
    tally.attempt("x64 tarball, programs", run_programs, empty, tree)
    tally.attempt("x64 tarball, a link to a program", smap_in_a_link, empty, tree)
    if tally.has("x64 tarball, pkg-config", "cc", "pkg-config"):
        tally.attempt("x64 tarball, from C by pkg-config", by_pkg_config, empty, tree)
    if tally.has("x64 tarball, CMake", "cc", "cmake"):
        tally.attempt("x64 tarball, from C by CMake", by_cmake, empty, tree)
        tally.attempt("x64 tarball, another version by CMake", refuses_another_version, empty, tree)
    tally.attempt("x64 tarball, completions", completes, tree)
    if tally.has("x64 tarball, manual", "groff"):
        tally.attempt("x64 tarball, manual", has_pages, tree)
    tally.attempt("install", installs, room, tree, what)
    return tree
