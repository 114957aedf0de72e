"""The archives of Python, Rust and JavaScript, as the tools of each make them, over copies of bindings/ in a folder of its own."""

import os
import shutil
import sys
import tempfile
from pathlib import Path

from tools.pack import tree
from tools.pack.products import PROCESSORS, TOP, VERSION, glibc, run
from tools.pack.project import MANIFESTS, told_in

# The program that packages of Python and JavaScript have for x86-64.
PROGRAM = "sourcemap"

MADE = shutil.ignore_patterns("target", "node_modules", "prebuilds", "__pycache__", "Cargo.lock", "*.whl", "*.tgz")


def copied(folder, room, version, project):
    """A copy of a folder of bindings/, whose manifests tell this version, and of the project."""
    copy = Path(room, folder)
    shutil.copytree(TOP / "bindings" / folder, copy, ignore=MADE)
    for it in (it for name in (*MANIFESTS, "__init__.py") for it in copy.rglob(name)):
        text = it.read_text().replace(f'{VERSION}"', f'{version}"')
        it.write_text(told_in(it.name, text, project) if it.name in MANIFESTS else text)
    return copy


def write_licence(package):
    """The licence, with those of the libraries that are compiled into what the package holds."""
    (package / "LICENSE").write_text(f"{(TOP / 'LICENSE').read_text()}\n----\n\n{tree.third_party()}")


def python(products, processors):
    """A wheel for each processor, tagged for the oldest glibc that its symbols need, that for x86-64 with the program; and the source."""
    with tempfile.TemporaryDirectory() as room:
        package = copied("python", room, products.pep440, products.project)
        copied("c", room, VERSION, products.project)
        write_licence(package)
        # (what a folder has is read in the order of its names)
        made = [wheel(products, it, package) for it in processors]
        environment = {**os.environ, "SOURCE_DATE_EPOCH": str(products.epoch)}
        made.append(run(sys.executable, package / "backend.py", "sdist", room, env=environment).strip())
        return {name: Path(room, name).read_bytes() for name in made}


def wheel(products, processor, package):
    room = package.parent
    library = room / f"liboxc_sourcemap-{processor}.so"
    library.write_bytes(products.shared(processor))
    environment = {**os.environ, "SOURCE_DATE_EPOCH": str(products.epoch), "OXC_SOURCEMAP_LIB": str(library)}
    if processor == "x64":
        program = room / PROGRAM
        program.write_bytes(products.program(PROGRAM))
        environment["OXC_SOURCEMAP_PROGRAM"] = str(program)
        for it in ("page", "size"):
            page = products.folder / f"wasm/{it}.html"
            environment[f"OXC_SOURCEMAP_{it.upper()}"] = str(page) if page.is_file() else ""
    else:  # (there are no headers of Python for another processor, and no programs)
        environment["OXC_SOURCEMAP_CC"] = ""
    elsewhere = run(sys.executable, package / "backend.py", "needs", room, env=environment).split()
    needed = glibc(*(Path(room, it).read_bytes() for it in elsewhere))
    # (the oldest that installers know for a processor)
    oldest = max(needed, (2, 17) if processor == "arm64" else (2, 5))
    environment["OXC_SOURCEMAP_PLATFORM"] = f"manylinux_{oldest[0]}_{oldest[1]}_{PROCESSORS[processor][2]}"
    return run(sys.executable, package / "backend.py", "wheel", room, env=environment).strip()


def rust(products, processors):
    """The crates, with the static library of each processor inside."""
    with tempfile.TemporaryDirectory() as room:
        workspace = copied("rust", room, products.semver, products.project)
        for it in processors:
            folder = workspace / "oxc_sourcemap-sys/lib" / PROCESSORS[it][1]
            folder.mkdir(parents=True)
            (folder / "liboxc_sourcemap.a").write_bytes(products.static(it))
        for it in ("oxc_sourcemap-sys", "oxc_sourcemap"):
            shutil.copy(TOP / "LICENSE", workspace / it)
        write_licence(workspace / "oxc_sourcemap-sys")
        run("cargo", "package", "--workspace", "--no-verify", "--offline", "--allow-dirty", "--target-dir", f"{room}/target", cwd=workspace)
        return {it.name: it.read_bytes() for it in sorted(Path(room, "target/package").glob("*.crate"))}


def javascript(products):
    """The package, with the addon and the program for x86-64 Linux and the module for all else, and the packages for overrides."""
    with tempfile.TemporaryDirectory() as room:
        package = copied("node", room, products.semver, products.project)
        addon = package / "prebuilds/linux-x64/junketscarp.node"
        flags = f"{os.environ.get('CFLAGS', '')} -g0 -ffile-prefix-map={room}=."
        run(package / "build", products.folder, addon, env={**os.environ, "CFLAGS": flags})
        addon.write_bytes(products.stripped(addon, "x64"))
        program = addon.with_name(PROGRAM)
        program.write_bytes(products.program(PROGRAM))
        program.chmod(0o755)
        shutil.copytree(products.folder / "wasm/package", package / "wasm")
        for it in ("page.html", "size.html"):
            shutil.copy(products.folder / "wasm" / it, package / "wasm")
        write_licence(package)
        for it in (package, *sorted(package.glob("packages/*/"))):
            if it != package:
                shutil.copy(TOP / "LICENSE", it)
            run("npm", "pack", "--ignore-scripts", "--cache", f"{room}/cache", "--pack-destination", room, cwd=it)
        return {it.name: it.read_bytes() for it in sorted(Path(room).glob("*.tgz"))}
