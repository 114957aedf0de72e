"""Wheels, crates and packages of npm."""

import json
import re
import shutil
import struct
import subprocess
import sys
import tarfile
import zipfile
from pathlib import Path

from tools.check.archives.debian import glibc_of
from tools.check.archives.trying import MAP, TOP, VERSION, Empty, holds, unpacked

RUST_JOB = """
fn main() {{
    let map = oxc_sourcemap::SourceMap::from_json_string(r#"{map}"#).unwrap();
    let table = map.generate_lookup_table();
    let (source, line, column, name) = map.lookup_source_view_token(&table, 0, 3).unwrap().to_tuple();
    println!("{{}} {{line}} {{column}} {{}}", source.unwrap(), name.unwrap());
}}
"""
CARGO_JOB = """
[package]
name = "job"
version = "0.1.0"
edition = "2024"

[dependencies]
oxc_sourcemap = "9"

[patch.crates-io]
oxc_sourcemap = {{ path = "{crate}" }}
oxc_sourcemap-sys = {{ path = "{sys}" }}
"""
PYTHON_JOB = f"""
from oxc_sourcemap import SourceMap
with SourceMap.from_json({MAP!r}) as map:
    found = map.trace(0, 3)
    print(found.source, found.line, found.column, found.name)
"""
NODE_JOB = f"const map = new SourceMap('{MAP}');\nconst {{ source, line, column, name }} = map.trace(0, 3);\nconsole.log(source, line, column, name);\n"
TRACE_JOB = f"const {{ source, line, column, name }} = originalPositionFor(new TraceMap('{MAP}'), {{ line: 1, column: 3 }});\nconsole.log(source, line - 1, column, name);\n"


def has_tag(wheel, room):
    """The tag of a wheel is that of the oldest glibc that its symbols need, its record has each file, and its version is the one of all."""
    with zipfile.ZipFile(wheel) as packed:
        packed.extractall(room / wheel.name)
        record = next(it for it in packed.namelist() if it.endswith("/RECORD"))
        told = {line.split(",")[0] for line in packed.read(record).decode().splitlines()}
        holds(told == {*packed.namelist()}, "its record")
        about = packed.read(record.replace("RECORD", "WHEEL")).decode()
        page = packed.read(record.replace("RECORD", "METADATA")).decode()
        holds(f"\nVersion: {VERSION}" in page, "its version")
        holds("# oxc_sourcemap" in page and not re.findall(r"\]\((?!https?:)", page), "links in its page to files that it has not")
    loaded = [*(room / wheel.name).rglob("*.so"), *(room / wheel.name).glob("oxc_sourcemap/sourcemap")]
    processor = "aarch64" if "aarch64" in wheel.name else "x86_64"
    major, minor = max(glibc_of(*loaded), (2, 17) if processor == "aarch64" else (2, 5))
    python = "cp310-abi3" if any(it.name.startswith("_fast") for it in loaded) else "py3-none"
    holds(
        wheel.name.endswith(f"-{python}-manylinux_{major}_{minor}_{processor}.whl"),
        f"the tag is to end in manylinux_{major}_{minor}_{processor}",
    )
    holds(f"Tag: {python}-manylinux_{major}_{minor}_{processor}\n" in about, "the tag inside")
    machine = {"x86_64": 62, "aarch64": 183}[processor]
    holds({struct.unpack("<H", it.read_bytes()[18:20])[0] for it in loaded} == {machine}, "the processor of its libraries")


def has_venv():
    """Whether this Python makes environments with pip."""
    return not subprocess.run([sys.executable, "-c", "import venv, ensurepip"], capture_output=True).returncode


def has_program(empty):
    """The wheel has the program, as a script and as a module."""
    script, python = empty.folder / "environment/bin/sourcemap", empty.folder / "environment/bin/python"
    told = [empty.run(script, "--version"), empty.run(python, "-m", "oxc_sourcemap", "--version")]
    holds(told == [f"sourcemap {VERSION}\n"] * 2, f"the program says {told}")


def in_new_environment(empty, *words, **more):
    """pip installs these into a new environment, and the job runs there."""
    empty.run(sys.executable, "-m", "venv", "environment")
    empty.run(empty.folder / "environment/bin/pip", "install", "--no-index", "--disable-pip-version-check", *words, **more)
    empty.write("job.py", PYTHON_JOB)
    empty.answers(empty.folder / "environment/bin/python", "-W", "error", "job.py")


def try_python(tally, room, dist, tree):
    for wheel in sorted(dist.glob("*.whl")):
        tally.attempt(f"wheel, tag {wheel.name.split('-', 2)[2]}", has_tag, wheel, room)
    if not has_venv():
        print("package: Python: passed over, there is no ensurepip (Debian's python3-venv)")
        return
    wheel = next(dist.glob("*x86_64.whl"))
    empty = Empty(room / "wheel")
    tally.attempt("wheel", in_new_environment, empty, wheel)
    tally.attempt("wheel, program", has_program, empty)
    source = next(it for it in dist.glob("oxc_sourcemap-*.tar.gz"))
    if tally.has("source of Python", "cc", "pkg-config"):
        where = {"PKG_CONFIG_PATH": str(tree / "lib/pkgconfig")}
        tally.attempt("source of Python, over the tarball", in_new_environment, Empty(room / "source"), source, **where)


def by_cargo(empty, crates):
    """A crate that depends on the crates as on crates.io, and has them from a folder."""
    names = {}
    for it in crates:
        names["sys" if "-sys-" in it.name else "crate"] = unpacked(it, empty.folder / it.stem)
    empty.write("job/Cargo.toml", CARGO_JOB.format(**names))
    empty.write("job/src/main.rs", RUST_JOB.format(map=MAP))
    # (nothing of another library of this machine)
    empty.answers("cargo", "run", "--quiet", "--offline", "--manifest-path", "job/Cargo.toml", PKG_CONFIG="/nonexistent")
    holds("liboxc" not in empty.run("readelf", "-d", "job/target/debug/job"), "the program uses the shared library")
    empty.run("cargo", "doc", "--quiet", "--offline", "--no-deps", "--manifest-path", "job/Cargo.toml", "-p", "oxc_sourcemap-sys")


def has_library_for(crates, processors):
    """The crate has the library of each processor inside."""
    with tarfile.open(next(it for it in crates if "-sys-" in it.name)) as packed:
        found = {Path(it).parent.name for it in packed.getnames() if it.endswith("/liboxc_sourcemap.a")}
    holds(found == processors, f"the crate has the library for {found}")


def npm_install(empty, *archives):
    empty.write("package.json", '{"name":"job","version":"1.0.0","private":true}')
    empty.run("npm", "install", "--offline", "--no-audit", "--no-fund", *archives)


def by_node(empty, dist):
    """The package as CommonJS and as modules, by its addon."""
    npm_install(empty, next(dist.glob("junketscarp-[0-9]*.tgz")))
    own = empty.folder / "node_modules/junketscarp"
    holds((own / "prebuilds/linux-x64/junketscarp.node").is_file(), "there is no addon")
    empty.write("job.cjs", f"const {{ SourceMap }} = require('junketscarp');\n{NODE_JOB}")
    empty.write("job.mjs", f"import {{ SourceMap }} from 'junketscarp';\n{NODE_JOB}")
    empty.write("addon.cjs", f"const {{ SourceMap }} = require('junketscarp');\n{NODE_JOB}map.share();\n")
    for it in ("job.cjs", "job.mjs", "addon.cjs"):
        empty.answers("node", it)
    told = json.loads((own / "package.json").read_text())["version"]
    holds(told.startswith(VERSION), f"the package has version {told}")
    shutil.rmtree(own / "prebuilds")
    for it in ("job.cjs", "job.mjs"):
        empty.answers("node", it)


def by_npx(empty, dist):
    """The program, and its pages; without it a message."""
    npm_install(empty, next(dist.glob("junketscarp-[0-9]*.tgz")))
    told = empty.run("npx", "--offline", "junketscarp", "--version")
    holds(told == f"sourcemap {VERSION}\n", f"the program says {told}")
    empty.write("a.js", "let a;\n")
    empty.write("a.js.map", MAP)
    empty.run("npx", "--offline", "junketscarp", "page", "a.js", "a.js.map", "-o", "a.html")
    holds((empty.folder / "a.html").stat().st_size > 100_000, "there is no page")
    shutil.rmtree(empty.folder / "node_modules/junketscarp/prebuilds")
    refused = empty.run("sh", "-c", "npx --offline junketscarp --version 2>&1; echo $?")
    holds(refused.startswith("junketscarp: the program sourcemap is there for no platform") and refused.endswith("\n1\n"), refused)


def by_drop_ins(empty, dist):
    """Each package for overrides, beside the package that it re-exports; one of them does the job, in place of another."""
    others = sorted(dist.glob("junketscarp-[a-z]*.tgz"))
    others = [it for it in others if it.suffix == ".tgz"]
    npm_install(empty, next(dist.glob("junketscarp-[0-9]*.tgz")), *others)
    names = sorted(f"@junketscarp/{it.name}" for it in (empty.folder / "node_modules/@junketscarp").iterdir())
    holds(len(names) == len([*TOP.glob("bindings/node/packages/*/package.json")]), f"there are {names}")
    empty.write(
        "all.cjs",
        "".join(f"require('{it}');\n" for it in names)
        + f"const {{ TraceMap, originalPositionFor }} = require('@junketscarp/trace-mapping');\n{TRACE_JOB}",
    )
    empty.write(
        "all.mjs",
        "".join(f"import '{it}';\n" for it in names)
        + f"import {{ TraceMap, originalPositionFor }} from '@junketscarp/trace-mapping';\n{TRACE_JOB}",
    )
    for it in ("all.cjs", "all.mjs"):
        empty.answers("node", it)


def by_override(empty, dist):
    """A package that another one requires is taken from here, by the overrides of npm."""
    empty.write(
        "needs/package.json", '{"name":"needs","version":"1.0.0","main":"index.js","dependencies":{"@jridgewell/trace-mapping":"^0.3.0"}}'
    )
    empty.write("needs/index.js", f"const {{ TraceMap, originalPositionFor }} = require('@jridgewell/trace-mapping');\n{TRACE_JOB}")
    empty.run("npm", "pack", "./needs")
    own, other = next(dist.glob("junketscarp-[0-9]*.tgz")), next(dist.glob("junketscarp-trace-mapping-*.tgz"))
    about = {
        "name": "job",
        "version": "1.0.0",
        "private": True,
        "dependencies": {"needs": "file:needs-1.0.0.tgz", "junketscarp": f"file:{own}"},
    }
    empty.write("package.json", json.dumps(about | {"overrides": {"@jridgewell/trace-mapping": f"file:{other}"}}))
    empty.run("npm", "install", "--offline", "--no-audit", "--no-fund")
    empty.write("job.js", "require('needs');\n")
    empty.answers("node", "job.js")


def try_languages(tally, room, dist, tree, has_arm):
    try_python(tally, room / "python", dist, tree)
    if tally.has("crates", "cargo", "cc"):
        crates = sorted(dist.glob("*.crate"))
        wanted = {"x86_64-unknown-linux-gnu", "aarch64-unknown-linux-gnu"} if has_arm else {"x86_64-unknown-linux-gnu"}
        tally.attempt("crates, their libraries", has_library_for, crates, wanted)
        tally.attempt("crates, by cargo without a network", by_cargo, Empty(room / "crates"), crates)
