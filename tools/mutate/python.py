"""Plants bugs in the Python package, and runs the tests of bindings/python over each. There is one for each call (that it does nothing,
and that another call of the same parameters is called in its place), each constant, each field of a struct and of a tuple, and those of
python.txt. It needs the library in target/, or OXC_SOURCEMAP_LIB, and a C compiler.
"""

import os
import re
import shutil
import subprocess
import sys
import tempfile
from pathlib import Path

from tools.mutate.planting import TOP, Bug, chosen, listed, try_all

sys.path.insert(0, str(TOP / "bindings/python"))
import backend

SOURCE = TOP / "bindings/python/src/oxc_sourcemap"
MODULES = ("_compiled", "_contents", "_errors", "_handle", "_lookups", "_making", "_map", "_numbers", "_plain", "_scopes", "_texts", "_values")

# In place of a call.
NOTHING = "(lambda *_: 0)"


def calls():
    """Each use of each call does nothing; and is another call with the same parameters."""
    library = SOURCE.joinpath("_library.py").read_text(encoding="utf-8")
    prototypes = dict(re.findall(r'"(smap_\w+)": (\(.*\)),', library))
    names = list(prototypes)
    for module in MODULES:
        text = SOURCE.joinpath(f"{module}.py").read_text(encoding="utf-8")
        for name in dict.fromkeys(re.findall(r"\blib\.(smap_\w+)", text)):
            pattern = rf"\blib\.{name}\b"
            yield f"call {name}: does nothing ({module})", f"{module}.py", re.sub(pattern, NOTHING, text)
            same = [it for it in names if prototypes[it] == prototypes[name] and not it.startswith("smap_free")]
            if len(same) > 1 and name in same:
                other = same[(same.index(name) + 1) % len(same)]
                yield f"call {name}: {other} in its place ({module})", f"{module}.py", re.sub(pattern, f"lib.{other}", text)


def parameters():
    """Each prototype lacks its last parameter."""
    text = SOURCE.joinpath("_library.py").read_text(encoding="utf-8")
    for name, words in re.findall(r'"(smap_\w+)": \((.*)\),', text):
        less = words.rpartition(",")[0].strip() if "," in words.rstrip(",") else "None"
        yield f"parameters of {name}", "_library.py", text.replace(f'"{name}": ({words})', f'"{name}": ({less},)')


def constants():
    """Each constant has another value."""
    for file in ("_values.py", "_library.py"):
        text = SOURCE.joinpath(file).read_text(encoding="utf-8")
        for found in re.finditer(r"^(?:class (\w+)\(|    ([A-Z0-9_]+) = (\d+)$|([A-Z_]+) = (0x\w+|\d+)$)", text, flags=re.M):
            if found[1]:
                owner = found[1]
                continue
            group = 3 if found[3] else 5
            value = int(found[group], 0)
            yield f"constant {owner + '.' if found[3] else ''}{found[2] or found[4]}", file, text[
                : found.start(group)
            ] + f"{value + 500}" + text[found.end(group) :]


def fields():
    """Each field of a tuple and of a struct stands in the place of the next one."""
    text = SOURCE.joinpath("_values.py").read_text(encoding="utf-8")
    for body in re.finditer(r"^class (\w+)\(NamedTuple\):\n(.*?)(?=^\S)", text, flags=re.M | re.S):
        lines = list(re.finditer(r"^    (\w+): .*$", body[2], flags=re.M))
        for one, two in zip(lines, lines[1:] + lines[:1]):
            new = re.sub(
                rf"^    (?:{one[1]}|{two[1]}): ",
                lambda it: f"    {two[1] if it[0].split(':')[0].strip() == one[1] else one[1]}: ",
                body[2],
                flags=re.M,
            )
            yield f"field {body[1]}.{one[1]}", "_values.py", text[: body.start(2)] + new + text[body.end(2) :]
    text = SOURCE.joinpath("_library.py").read_text(encoding="utf-8")
    for body in re.finditer(r"^class (\w+)\(Structure\):\n(.*?)(?=^\S)", text, flags=re.M | re.S):
        names = re.findall(r'\("(\w+)", ', body[2])
        for one, two in zip(names, names[1:] + names[:1]):
            new = re.sub(rf'\("({one}|{two})", ', lambda it: f'("{two if it[1] == one else one}", ', body[2])
            yield f"field of struct {body[1]}.{one}", "_library.py", text[: body.start(2)] + new + text[body.end(2) :]


def compiled(source, out):
    words = ["cc", "-O1", "-fPIC", "-shared", "-w", f"-I{backend.sysconfig.get_paths()['include']}", f"-I{backend.header()}"]
    subprocess.run([*words, str(source), "-o", str(out)], check=True)


def found_by(bug, package):
    """By which test a bug is found in a copy of the package."""
    name, file, text = bug
    with tempfile.TemporaryDirectory(prefix="planted-") as room:
        own = Path(room, "oxc_sourcemap")
        shutil.copytree(package, own)
        own.joinpath(file).write_text(text, encoding="utf-8")
        if file == "_fast.c":
            compiled(own / file, own / "_fast.abi3.so")
        if file == "_plain.py" or "(_plain)" in name:
            own.joinpath("_fast.abi3.so").unlink()
        env = {**os.environ, "PYTHONPATH": room, "PYTHONDONTWRITEBYTECODE": "1"}
        env.pop("OXC_SOURCEMAP_LIB", None)
        words = [sys.executable, "-m", "unittest", "discover", "-f", "-s", str(TOP / "bindings/python/tests")]
        try:
            ran = subprocess.run(words, capture_output=True, env=env, timeout=300)
        except subprocess.TimeoutExpired:
            return "does not end"
        said = ran.stderr.decode(errors="replace")
        found = re.search(r"^(?:FAIL|ERROR): (\S+)", said, flags=re.M)
        return None if ran.returncode == 0 else found[1] if found else f"status {ran.returncode}"


def mutate(words):
    bugs = chosen([*calls(), *parameters(), *constants(), *fields(), *listed(TOP / "tools/mutate/python.txt", SOURCE)], words)
    with tempfile.TemporaryDirectory(prefix="package-") as room:
        package = Path(room, "oxc_sourcemap")
        for path, content in backend.members().items():
            if path.startswith("oxc_sourcemap/"):
                package.mkdir(exist_ok=True)
                Path(room, path).write_bytes(content)
        shutil.copy(SOURCE / "_fast.c", package)
        nothing = Bug("nothing", "_plain.pyi", "")
        return try_all(nothing, bugs, lambda bug: found_by(bug, package), int(os.environ.get("JOBS", "2")))
