#!/usr/bin/env python3
"""tools/build/unproved_archive.py ARCHIVE [SANITIZER=ARCHIVE..] [module=FILE]   compiles crates/oxc_sourcemap_c and the crates below it without
a proof; and, with each SANITIZER (address, thread), into another archive, for programs that are linked with that sanitizer. FILE gets
the text of the module of LLVM that is compiled, for other processors.

For people at work: half a minute instead of half an hour, and nothing is proved. `rattle build` makes a static library of proved
crates alone. What `rt try` runs needs no proof, but is a program: so this makes one that calls each export behind a condition
that is false, keeps the module of LLVM that the toolchain makes of it, and compiles its exports under their own names.
"""

import os
import re
import shutil
import subprocess
import sys
import tempfile
from concurrent.futures import ThreadPoolExecutor
from pathlib import Path

TOP = Path(__file__).resolve().parents[2]
sys.path.append(str(TOP))
from tools.over_libraries import USES, kit
from tools.build.unproved import command

CRATE = "oxc_sourcemap_c"
CLANG = [f"{kit()}/toolchain/bin/clang", "--target=x86_64-unknown-linux-gnu", "-x", "ir"]
EXPORT = re.compile(r'pub extern "C" fn (\w+)(?:<[^>]*>)?\s*\(([^)]*)\)')
# The clang that is called keeps the module that is compiled with a sanitizer, and ends the run.
KEEPS = """\
#!/bin/sh
case " $* " in *" -fsanitize=address "*) cp module.bc "{room}/module.bc"; exit 1 ;; esac
exec "{clang}" "$@"
"""


def calls(folder):
    """A call of each export in the files of a crate. (What it returns goes to `hold`, since not each result may be dropped.)"""
    for file in sorted(folder.rglob("*.rt")):
        path = [it for it in file.relative_to(folder).with_suffix("").parts if it not in ("lib", "mod")]
        for name, words in EXPORT.findall(file.read_text()):
            taken = len([it for it in words.split(",") if it.strip()])
            yield f"    hold({'::'.join(['crate', *path, name])}({', '.join(['any()'] * taken)}));"


def write_program(room):
    """Copies the crate as a program that reaches each export, in whatever module it stands."""
    shutil.copytree(TOP / "crates" / CRATE, room / CRATE, ignore=shutil.ignore_patterns("out"))
    for file in (room / CRATE / "src").rglob("*.rt"):
        file.write_text(re.sub(r"^mod ", "pub mod ", file.read_text(), flags=re.M))
    root = room / CRATE / "src/lib.rt"
    reach = [
        "fn any<T>() -> T {",
        "    loop {}",
        "}",
        "fn hold<T>(_value: T) {",
        "    loop {}",
        "}",
        "fn reach() {",
        *calls(root.parent),
        "}",
    ]
    main = ["fn is_one(n: u32) -> bool {", "    n == 1", "}", "fn main() {", "    if is_one(0) {", "        reach()", "    }", "}"]
    root.with_name("main.rt").write_text(root.read_text() + "\n".join(["", *reach, *main, ""]))
    root.unlink()


def write_toolchain(folder, room):
    """A toolchain whose clang keeps the module."""
    (folder / "bin").mkdir(parents=True)
    (folder / "lib").symlink_to(kit() / "toolchain/lib")
    for tool in (kit() / "toolchain/bin").iterdir():
        (folder / "bin" / tool.name).symlink_to(tool)
    (folder / "bin/clang").unlink()
    (folder / "bin/clang").write_text(KEEPS.format(room=room, clang=kit() / "toolchain/bin/clang"))
    (folder / "bin/clang").chmod(0o755)


def exported(text):
    """The module with its exports under their own names, seen from outside."""
    name = rf'@"{CRATE}(?:::\w+)*::(proved_\w+)"'
    text = re.sub(rf"^define internal (.*){name}\(", r"define \1@\2(", text, flags=re.M)
    return re.sub(name, r"@\1", text).replace("define i32 @main(", "define internal i32 @main(")


def compile_module(room, archive, sanitizer=None):
    """Compiles the module that was kept, about as `rattle build` compiles one, into an archive."""
    text = (room / "module.ll").read_text()
    flags = ["-O2"]
    if sanitizer:
        text = re.sub(r"\bsanitize_address\b", f"sanitize_{sanitizer}", text)
        flags = ["-O1", f"-fsanitize={sanitizer}"]
    own = room / f"for_{sanitizer}"
    own.mkdir()
    (own / "this.ll").write_text(text)
    words = [*CLANG, *flags, "-fPIC", "-ffunction-sections", "-fdata-sections", "-c", "this.ll", "-o", "exports.o"]
    subprocess.run(words, cwd=own, check=True)
    # (a runtime of another compiler may not have these, and watches those)
    watched = [f"--redefine-sym=__tsan_{it}={it}" for it in ("memcpy", "memmove", "memset")]
    subprocess.run(["objcopy", *watched, "exports.o"], cwd=own, check=True)
    Path(archive).unlink(missing_ok=True)
    subprocess.run(["ar", "rcs", archive, "exports.o"], cwd=own, check=True)


def keep_module(room, crate):
    """Compiles the program in room/CRATE without a proof, and keeps its module of LLVM, module.bc."""
    write_toolchain(room / "toolchain", room)
    words = command(crate, USES[crate], [], "src/main.rt")
    words[words.index("--toolchain") + 1] = str(room / "toolchain")
    ran = subprocess.run(words, cwd=room / crate, stdin=subprocess.DEVNULL, capture_output=True, text=True)
    if not (room / "module.bc").exists():
        sys.exit(f"{ran.stdout}{ran.stderr}{crate} is not compiled")


def text_of_module(room):
    """The module that was kept, as a text."""
    subprocess.run([*CLANG, "-S", "-emit-llvm", "module.bc", "-o", "module.ll"], cwd=room, check=True)
    return (room / "module.ll").read_text()


def make(room, archive, *others):
    """Makes the archives."""
    write_program(room)
    keep_module(room, CRATE)
    (room / "module.ll").write_text(exported(text_of_module(room)))
    kinds = dict(it.split("=", 1) for it in others)
    if module := kinds.pop("module", None):
        shutil.copy(room / "module.ll", module)
    archives = {None: archive, **kinds}
    with ThreadPoolExecutor() as pool:
        for it in [pool.submit(compile_module, room, os.path.abspath(to), kind) for kind, to in archives.items()]:
            it.result()


if __name__ == "__main__":
    with tempfile.TemporaryDirectory() as folder:
        make(Path(folder), *sys.argv[1:])
