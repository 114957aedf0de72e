"""Plants bugs in the package for Node, and runs the tests of bindings/node over each. There is one for each use of a call of the addon
(that nothing is called), each call of the library that the addon makes (that it changes places with another one of the same
parameters), each number that the package has of the header, and those of node.txt. Those of loader.txt, in the loader of the WebAssembly
module, are tried by its own test, over the module that was built beside the library.

It needs the library in target/, or in the folder that LIBRARY names, Node, and a C compiler.
"""

import os
import re
import shutil
import subprocess
import sys
import tempfile
from pathlib import Path

from tools.mutate.planting import TOP, Bug, chosen, listed, swapped, try_all

PACKAGE = TOP / "bindings/node"
LIBRARY = os.path.abspath(os.environ.get("LIBRARY", TOP / "target"))
# What the tests read.
READ = ("bindings/node", "bindings/c", "bindings/wasm/loader", "bindings/wasm/test", "tests/real-maps", "docs/CHANGELOG.md")
SLOW = ("memory", "workers", "fuzz", "compat-others", "plugins")
MODULES = ("map.js", "compiled.js", "scopes.js", "builders.js", "functions.js", "errors.js", "inputs.js", "decoded.js", "members.js")
LOADER = TOP / "bindings/wasm"
# The modules of the loader's test, and how they are linked: tools/check/wasm has the same.
LINKED = {"oxc_sourcemap": None, "small_stack": {"STACK": "32768"}, "small_memory": {"MOST": "4194304"}}


def text_of(file):
    return PACKAGE.joinpath(file).read_text(encoding="utf-8")


def uses():
    """Each use of each call of the addon is none."""
    for module in MODULES:
        file = f"lib/{module}"
        text = text_of(file)
        for found in re.finditer(r"\bnative\.(\w+)\(", text):
            planted = text[: found.start()] + "(() => 0)(" + text[found.end() :]
            yield Bug(f"use {found[1]} ({module}, byte {found.start()})", file, planted)


def swaps():
    """Each call of the library that the addon makes changes places with another one of the same parameters."""
    header = TOP.joinpath("bindings/c/oxc_sourcemap.h").read_text(encoding="utf-8")
    prototypes = re.findall(r"^(?:uint32_t|size_t) (smap_\w+)\(([^;]*)\);", header, flags=re.M)
    shapes = {name: re.sub(r"\b\w+(?=[,)]|$)", "", " ".join(words.split())) for name, words in prototypes}
    texts = {f"src/{it.name}": it.read_text(encoding="utf-8") for it in sorted(PACKAGE.glob("src/*.c"))}
    for name, shape in shapes.items():
        same = [it for it in shapes if shapes[it] == shape]
        other = same[(same.index(name) + 1) % len(same)]
        for file in (it for it in texts if other != name and re.search(rf"\b{name}\b", texts[it])):
            yield Bug(f"swap {name}: {other}", file, swapped(texts[file], name, other))


def numbers():
    """Each number of the header, and the order of each list, is another one."""
    for file in ("lib/header.js", "lib/constants.js"):
        text = text_of(file)
        for found in re.finditer(r"\b([A-Z_0-9]+): (\d+)", text):
            planted = text[: found.start(2)] + str(int(found[2]) + 7) + text[found.end(2) :]
            yield Bug(f"number {found[1]} ({file}, byte {found.start()})", file, planted)


def link_modules(folder):
    """What the loader's test reads, from the objects beside the module."""
    made = Path(LIBRARY, "wasm")
    folder.mkdir()
    for name, words in LINKED.items():
        out = folder / f"{name}.wasm"
        if words is None:
            shutil.copy(made / out.name, out)
        else:
            link = [TOP / "bindings/wasm/build/link", out, made / "exports", *sorted(made.glob("*.o"))]
            subprocess.run(link, env={**os.environ, "OPTIMISE": "no", **words}, check=True)


def built(package):
    words = [str(package / "build"), LIBRARY]
    return subprocess.run(words, env={**os.environ, "CFLAGS": "-Wno-error -w"}, capture_output=True).returncode == 0


def fails(package, files):
    environment = {"NODE_PATH": "/usr/share/nodejs", **os.environ, "FUZZ": "5000", "MODULES": str(package / "modules")}
    try:
        ran = subprocess.run(["node", "--test", *files], cwd=package, env=environment, capture_output=True, text=True, timeout=300)
    except subprocess.TimeoutExpired:
        return "too slow"
    if ran.returncode == 0:
        return None
    return (re.findall(r"^not ok \d+ - (.*)", ran.stdout, flags=re.M) or ["crash"])[0]


def tests_fail(package):
    """By which test a bug is found: the slow ones run if the others do not find it."""
    files = sorted(f"test/{it.name}" for it in package.joinpath("test").glob("*.test.js"))
    slow = [it for it in files if Path(it).name.split(".")[0] in SLOW]
    return fails(package, [it for it in files if it not in slow]) or fails(package, slow)


def copied(room):
    """What the tests read, in a folder of its own, with the addon."""
    for it in (found for pattern in READ for found in TOP.glob(pattern)):
        to = Path(room, it.relative_to(TOP))
        to.parent.mkdir(parents=True, exist_ok=True)
        (shutil.copytree if it.is_dir() else shutil.copy)(it, to)
    return Path(room, "bindings/node")


def in_loader():
    if not Path(LIBRARY, "wasm/exports").exists():
        print(f"loader: passed over, {LIBRARY} has no module", flush=True)
        return
    for name, file, text in listed(TOP / "tools/mutate/loader.txt", LOADER):
        yield Bug(name, f"../wasm/{file}", text)


def found_by(bug, base):
    """By what a bug is found; None if it is not."""
    _, file, text = bug
    with tempfile.TemporaryDirectory(prefix="planted-") as room:
        shutil.copytree(base, room, dirs_exist_ok=True)
        package = Path(room, "bindings/node")
        package.joinpath(file).write_text(text, encoding="utf-8")
        if file.endswith(".c") and not built(package):
            return "does not compile"
        if file.startswith("../wasm/"):
            return fails(package, ["../wasm/test/loader.test.js"])
        return tests_fail(package)


def mutate(words):
    bugs = chosen([*uses(), *swaps(), *numbers(), *listed(TOP / "tools/mutate/node.txt", PACKAGE), *in_loader()], words)
    with tempfile.TemporaryDirectory(prefix="planted-") as base:
        package = copied(base)
        if any(it.file.startswith("../wasm/") for it in bugs):
            link_modules(package / "modules")
        if not built(package):
            sys.exit("the addon is not built")
        nothing = Bug("nothing", "lib/map.js", text_of("lib/map.js"))
        return try_all(nothing, bugs, lambda bug: found_by(bug, base), 2)
