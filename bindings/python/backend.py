"""Builds the wheel of oxc_sourcemap, with Python alone: `pip wheel bindings/python`, or `python3 backend.py FOLDER`.

The wheel carries the shared library that OXC_SOURCEMAP_LIB names, or `./build c` leaves in target/, or pkg-config finds, and _fast.c
compiled by one call of a C compiler, $CC or cc. Without a compiler, or with OXC_SOURCEMAP_CC set to nothing, it has no _fast and looks up
by ctypes alone. OXC_SOURCEMAP_PROGRAM names the program `sourcemap`, if the wheel is to have it, as a script of that name, and
OXC_SOURCEMAP_PAGE and OXC_SOURCEMAP_SIZE the templates of its pages. OXC_SOURCEMAP_PLATFORM is the platform of its tag, if that is not
this machine;
SOURCE_DATE_EPOCH the time of all files.

`backend.py needs FOLDER` leaves in the folder what the wheel loads, and prints its names; `backend.py sdist FOLDER` makes the source.
"""

from __future__ import annotations

import base64
import gzip
import hashlib
import io
import os
import re
import shlex
import shutil
import subprocess
import sys
import sysconfig
import tarfile
import tempfile
import time
import zipfile
from collections.abc import Callable
from pathlib import Path

HERE = Path(__file__).resolve().parent
SOURCE = HERE / "src" / "oxc_sourcemap"
LIBRARY = "liboxc_sourcemap.so"
PROGRAM = "sourcemap"
PAGES = {"PAGE": "page.html", "SIZE": "size.html"}
# (`pipx run oxc_sourcemap` takes the second one)
SCRIPTS = "[console_scripts]\nsourcemap = oxc_sourcemap.__main__:main\n\n[pipx.run]\noxc_sourcemap = oxc_sourcemap.__main__:main\n"
EPOCH = int(os.environ.get("SOURCE_DATE_EPOCH", 1577836800))


def version() -> str:
    found = re.search(r'__version__ = "(.*)"', SOURCE.joinpath("__init__.py").read_text(encoding="utf-8"))
    assert found
    return found[1]


def contacts(project: str) -> str:
    """Who maintains it and where it is, if pyproject.toml tells."""
    who = re.search(r'^maintainers = \[\{ name = "(.*)", email = "(.*)" \}\]$', project, flags=re.M)
    urls = re.search(r"^urls = \{ (.*) \}$", project, flags=re.M)
    lines = [f"Maintainer-email: {who[1]} <{who[2]}>\n"] if who else []
    rows: list[tuple[str, str]] = re.findall(r'(\w+) = "(.*?)"', urls[1]) if urls else []
    return "".join(lines + [f"Project-URL: {name}, {url}\n" for name, url in rows])


def page() -> str:
    """The README without what is of the repository alone: how the package is built and tested there, and links to its files."""
    text = re.sub(r"^- \*\*(?:Build|Tests)\*\*.*\n", "", HERE.joinpath("README.md").read_text(encoding="utf-8"), flags=re.M)
    return re.sub(r"\[([^]]*)\]\((?!https?:)[^)]*\)", r"\1", text)


def metadata() -> str:
    project = HERE.joinpath("pyproject.toml").read_text(encoding="utf-8")
    stated: dict[str, str] = dict(re.findall(r'^([a-z-]+) = "(.*)"$', project, flags=re.M))
    return (
        f"Metadata-Version: 2.1\nName: {stated['name']}\nVersion: {version()}\nSummary: {stated['description']}\n"
        f"License: {stated['license']}\nRequires-Python: {stated['requires-python']}\n{contacts(project)}Description-Content-Type: text/markdown\n\n"
        f"{page()}"
    )


def found_by_pkg_config() -> Path | None:
    """The library where it is installed."""
    words = ["pkg-config", "--variable=libdir", "oxc_sourcemap"]
    if not shutil.which(words[0]):
        return None
    folder = subprocess.run(words, capture_output=True, text=True).stdout.strip()
    return Path(folder, LIBRARY) if folder else None


def library() -> Path:
    named = os.environ.get("OXC_SOURCEMAP_LIB")
    paths: list[Path | None] = [Path(named)] if named else [HERE.parents[1] / "target" / LIBRARY, found_by_pkg_config()]
    for path in paths:
        if path and path.is_file():
            return path
    raise FileNotFoundError(f"there is no {paths[0]}: run ./build c, or let OXC_SOURCEMAP_LIB name the library")


def header() -> Path:
    """The folder of oxc_sourcemap.h, in the repository or in a source distribution."""
    return next(it for it in (HERE.parent / "c", HERE / "include") if it.joinpath("oxc_sourcemap.h").is_file())


def license_text() -> bytes:
    return next(it for it in (HERE / "LICENSE", HERE.parents[1] / "LICENSE") if it.is_file()).read_bytes()


def compiled() -> bytes | None:
    """_fast.c, compiled, or None without a compiler."""
    compiler = shlex.split(os.environ.get("OXC_SOURCEMAP_CC", os.environ.get("CC", "cc")))
    if not compiler or not shutil.which(compiler[0]):
        print("there is no C compiler: lookups one by one will be slower", file=sys.stderr)
        return None
    with tempfile.TemporaryDirectory() as room:
        out = Path(room, "_fast.so")
        flags = ["-O2", "-fPIC", "-shared", "-s", f"-I{sysconfig.get_paths()['include']}", f"-I{header()}"]
        if subprocess.run([*compiler, *flags, str(SOURCE / "_fast.c"), "-o", str(out)]).returncode:
            print("_fast.c was not compiled: lookups one by one will be slower", file=sys.stderr)
            return None
        return out.read_bytes()


def with_program() -> dict[str, bytes]:
    """The program, and the templates of its pages, if they are named."""
    files = {"PROGRAM": PROGRAM, **PAGES} if os.environ.get("OXC_SOURCEMAP_PROGRAM") else {}
    named = {name: os.environ.get(f"OXC_SOURCEMAP_{it}") for it, name in files.items()}
    return {name: Path(it).read_bytes() for name, it in named.items() if it}


def members() -> dict[str, bytes]:
    """The files of the wheel, without its record."""
    files = {it.name: it.read_bytes() for it in sorted(SOURCE.iterdir()) if it.suffix in (".py", ".pyi", ".typed")}
    files |= {"py.typed": b"", LIBRARY: library().read_bytes()}
    fast = compiled()
    if fast is not None:
        files["_fast.abi3.so"] = fast
    files |= with_program()
    platform = os.environ.get("OXC_SOURCEMAP_PLATFORM") or sysconfig.get_platform().replace("-", "_").replace(".", "_")
    tag = f"py3-none-{platform}" if fast is None else f"cp310-abi3-{platform}"
    about = f"Wheel-Version: 1.0\nGenerator: oxc_sourcemap\nRoot-Is-Purelib: false\nTag: {tag}\n"
    info = f"oxc_sourcemap-{version()}.dist-info"
    packed = {f"oxc_sourcemap/{name}": content for name, content in files.items()}
    if PROGRAM in files:
        packed[f"{info}/entry_points.txt"] = SCRIPTS.encode()
    return packed | {f"{info}/METADATA": metadata().encode(), f"{info}/WHEEL": about.encode(), f"{info}/LICENSE": license_text()}


def record(files: dict[str, bytes], name: str) -> bytes:
    """The list of files with their sums, which is a file too."""

    def line(path: str, content: bytes) -> str:
        digest = base64.urlsafe_b64encode(hashlib.sha256(content).digest()).rstrip(b"=").decode()
        return f"{path},sha256={digest},{len(content)}\n"

    return ("".join(line(*it) for it in files.items()) + f"{name},,\n").encode()


def build_wheel(wheel_directory: str, config_settings: object = None, metadata_directory: object = None) -> str:
    files = members()
    about = next(name for name in files if name.endswith("/WHEEL"))
    files[about.replace("WHEEL", "RECORD")] = record(files, about.replace("WHEEL", "RECORD"))
    tag = files[about].decode().rpartition("Tag: ")[2].strip()
    name = f"oxc_sourcemap-{version()}-{tag}.whl"
    with zipfile.ZipFile(Path(wheel_directory, name), "w", zipfile.ZIP_DEFLATED) as wheel:
        for path, content in files.items():
            member = zipfile.ZipInfo(path, time.gmtime(EPOCH)[:6])
            member.external_attr = (0o100755 if path == f"oxc_sourcemap/{PROGRAM}" else 0o100644) << 16
            wheel.writestr(member, content, zipfile.ZIP_DEFLATED)
    return name


def build_sdist(sdist_directory: str, config_settings: object = None) -> str:
    """The source; a wheel is made from it with OXC_SOURCEMAP_LIB."""
    top = f"oxc_sourcemap-{version()}"
    files = {"PKG-INFO": metadata().encode(), "include/oxc_sourcemap.h": header().joinpath("oxc_sourcemap.h").read_bytes()}
    files |= {name: HERE.joinpath(name).read_bytes() for name in ("README.md", "pyproject.toml", "backend.py")} | {"LICENSE": license_text()}
    files |= {f"src/oxc_sourcemap/{it.name}": it.read_bytes() for it in sorted(SOURCE.iterdir()) if it.is_file()}
    packed = io.BytesIO()
    with tarfile.open(fileobj=packed, mode="w", format=tarfile.PAX_FORMAT) as sdist:
        for path, content in sorted(files.items()):
            about = tarfile.TarInfo(f"{top}/{path}")
            about.size, about.mtime = len(content), EPOCH
            sdist.addfile(about, io.BytesIO(content))
    Path(sdist_directory, f"{top}.tar.gz").write_bytes(gzip.compress(packed.getvalue(), mtime=EPOCH))
    return f"{top}.tar.gz"


def leave_needs(folder: str) -> str:
    """Leaves what the wheel loads, for who tells its platform."""
    loaded = {Path(name).name: content for name, content in members().items() if name.endswith((".so", f"/{PROGRAM}"))}
    for name, content in loaded.items():
        Path(folder, name).write_bytes(content)
    return "\n".join(loaded)


if __name__ == "__main__":
    makes: dict[str, Callable[[str], str]] = {"wheel": build_wheel, "sdist": build_sdist, "needs": leave_needs}
    what, to = sys.argv[1:] if len(sys.argv) > 2 else ("wheel", sys.argv[1])
    print(makes[what](to))
