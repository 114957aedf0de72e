"""Plants bugs in the layer of C and in the header, and runs bindings/c/tests over each. It works over the library in target/, or with
`unproved` over that in target/unproved.

Planted are, for each call of the layer: it does nothing and says that all went well; it hands on a null fault; it writes *out on an
error too; it hands on no limit; of several lists it copies, it begins none after one for which there is no memory, and frees them all.
In the copying of lists: what c.txt has. For each constant of the header: another value. For each field of a struct of the header: it
stands in the place of the next one of its type.
"""

import os
import re
import shutil
import subprocess
import tempfile
from pathlib import Path

from tools.mutate.planting import TOP, chosen, listed, try_all
from tools.over_libraries import kit

# The files of the layer, which are tried as one.
LAYER = "".join((TOP / "bindings/c" / it).read_text() for it in ("oxc_sourcemap.c", "scopes.c"))
HEADER = (TOP / "bindings/c/oxc_sourcemap.h").read_text()
FUNCTION = re.compile(r"^(uint32_t|size_t|void|const char \*)\s*(smap_\w+)\([^{]*\) \{\n(.*?)^\}\n", re.M | re.S)
NOTHING = {"uint32_t": "    return SMAP_OK;\n", "size_t": "    return 0;\n", "void": "", "const char *": '    return "";\n'}
WRAPS = "-Wl,--wrap=malloc,--wrap=calloc,--wrap=realloc,--wrap=free"


def in_layer(found, body):
    """The layer with another body of a function."""
    return LAYER[: found.start(3)] + body + LAYER[found.end(3) :]


def compiled_here():
    """The functions of the layer, without those that a system without files has."""
    elsewhere = [it.span() for it in re.finditer(r"^#else\n.*?^#endif\n", LAYER, re.M | re.S)]
    return [it for it in FUNCTION.finditer(LAYER) if not any(begin < it.start() < end for begin, end in elsewhere)]


def bugs_of_calls():
    """What is planted in each function of the layer: a name, the layer, and the header."""
    for found in compiled_here():
        result, name, body = found.groups()
        yield f"{name}: does nothing", in_layer(found, NOTHING[result]), HEADER
        if "OR(fault, &own)" in body:
            yield f"{name}: null fault", in_layer(found, body.replace("OR(fault, &own)", "fault")), HEADER
        if "if (!fault) return" in body:
            yield f"{name}: null fault", in_layer(found, re.sub(r"    if \(!fault\) return [^\n]*\n", "", body)), HEADER
        if re.search(r"== SMAP_OK\) \*out", body):
            planted = re.sub(r"if \(\w+ == SMAP_OK\) \*out", "*out", body)
            yield f"{name}: *out on an error", in_layer(found, planted), HEADER
        if ", limit, " in body:
            yield f"{name}: no limit", in_layer(found, body.replace(", limit, ", ", SIZE_MAX, ")), HEADER
        for own in re.findall(r"OR\((?:mends|id), &none\)", body):
            yield f"{name}: null output", in_layer(found, body.replace(own, re.search(r"\((\w+)", own)[1])), HEADER


def bugs_of_lists():
    """What is planted where lists are copied."""
    for found in FUNCTION.finditer(LAYER):
        if ") & begin_" in found[3]:
            yield f"{found[2]}: lists that are not begun", in_layer(found, found[3].replace(") & begin_", ") && begin_")), HEADER
    for bug in listed(TOP / "tools/mutate/c.txt", TOP / "bindings/c"):
        yield bug.name, LAYER.replace((TOP / "bindings/c" / bug.file).read_text(), bug.text), HEADER


def bugs_of_constants():
    """Another value for each constant of the header."""
    for found in re.finditer(r"^\s*(?:#define )?(SMAP_\w+)(?: =)? (\d+|UINT\d+_MAX)\b", HEADER, re.M):
        value = found[2]
        other = f"({value} - 1)" if "MAX" in value else str(int(value) + 500)
        yield f"{found[1]}: another value", LAYER, HEADER[: found.start(2)] + other + HEADER[found.end(2) :]


def bugs_of_fields():
    """Two fields of one type in each other's place, in the header that the test is compiled with."""
    for struct in re.finditer(r"struct smap_(\w+) \{\n((?:    [^{}]*;[^\n]*\n)+)", HEADER):
        fields = [(it.start(), it[1], it[2]) for it in re.finditer(r"^ +(\w+ \*?)(\w+);", struct[2], re.M)]
        for (at, type, name), (next_at, next_type, next_name) in zip(fields, fields[1:]):
            if type != next_type:
                continue
            body = re.sub(rf"\b({name}|{next_name});", lambda it: f"{next_name if it[1] == name else name};", struct[2])
            yield f"{struct[1]}: {name} and {next_name}", None, HEADER[: struct.start(2)] + body + HEADER[struct.end(2) :]


def found_by(bug, library, common):
    """How the test fails with a bug, or None if it passes."""
    name, layer, header = bug
    with tempfile.TemporaryDirectory() as folder:
        room = Path(folder)
        tests = sorted(shutil.copytree(TOP / "bindings/c/tests", room / "tests").glob("*.c"))
        (room / "oxc_sourcemap.h").write_text(header)
        shutil.copy(TOP / "bindings/c/layer.h", room)
        build = ["cc", "-std=c99", "-O1", "-w", WRAPS, f"-I{room}", f"-I{common}", "-o", "test", *tests]
        if name.endswith("on the stack"):
            build.append("-fsanitize=address")  # as ./check c tries it
        if layer is None:
            build += [library / "liboxc_sourcemap.a"]
        else:
            (room / "layer.c").write_text(layer)
            build += ["layer.c", common / "heap.pic.o", library / "exports.a"]
        if subprocess.run(build, cwd=room, capture_output=True).returncode:
            return "does not compile"
        try:
            ran = subprocess.run(["./test"], cwd=room, capture_output=True, timeout=120)
        except subprocess.TimeoutExpired:
            return "does not end"
        if ran.returncode < 0:
            return f"signal {-ran.returncode}"
        counted = re.search(rb"(\d+) failed\n$", ran.stdout)
        how = f"{counted[1].decode()} checks fail" if counted else "ends early"
        return how if ran.returncode or not counted else None


def mutate(words):
    library = TOP / "target" / ("unproved" if "unproved" in words else "")
    planted = [*bugs_of_calls(), *bugs_of_lists(), *bugs_of_constants(), *bugs_of_fields()]
    bugs = chosen(planted, [it for it in words if it != "unproved"])
    with tempfile.TemporaryDirectory() as folder:
        common = Path(folder)
        (common / "proved.h").write_text(
            subprocess.run([TOP / "tools/build/prototypes"], capture_output=True, text=True, check=True).stdout
        )
        subprocess.run(["ar", "x", kit() / "c/liblibc_c.a", "heap.pic.o"], cwd=common, check=True)
        jobs = int(os.environ.get("JOBS", os.cpu_count() or 1))
        return try_all(("none", LAYER, HEADER), bugs, lambda bug: found_by(bug, library, common), jobs)
