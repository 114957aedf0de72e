"""The files of an installed Junketscarp, for the tarball, for `install` and for the packages of Debian."""

import os
import re
import tempfile
from pathlib import Path

from tools.pack import pages
from tools.pack.files import File
from tools.pack.products import PROGRAMS, TOP, VERSION, libraries_of, licences, run

CMAKE_CONFIG = """\
# oxc_sourcemap::oxc_sourcemap is the shared library, oxc_sourcemap::static the static one.
get_filename_component(_oxc_sourcemap_prefix "${{CMAKE_CURRENT_LIST_DIR}}/{up}" ABSOLUTE)
if(NOT TARGET oxc_sourcemap::oxc_sourcemap)
  add_library(oxc_sourcemap::oxc_sourcemap SHARED IMPORTED)
  set_target_properties(oxc_sourcemap::oxc_sourcemap PROPERTIES
    IMPORTED_LOCATION "${{_oxc_sourcemap_prefix}}/{lib}/liboxc_sourcemap.so.1"
    IMPORTED_SONAME "liboxc_sourcemap.so.1"
    INTERFACE_INCLUDE_DIRECTORIES "${{_oxc_sourcemap_prefix}}/include")
  add_library(oxc_sourcemap::static STATIC IMPORTED)
  set_target_properties(oxc_sourcemap::static PROPERTIES
    IMPORTED_LOCATION "${{_oxc_sourcemap_prefix}}/{lib}/liboxc_sourcemap.a"
    INTERFACE_INCLUDE_DIRECTORIES "${{_oxc_sourcemap_prefix}}/include")
endif()
unset(_oxc_sourcemap_prefix)
"""
# (C grows by addition alone: a program that was written for an older version takes this one)
CMAKE_VERSION = """\
set(PACKAGE_VERSION "{version}")
if(PACKAGE_FIND_VERSION VERSION_GREATER PACKAGE_VERSION)
  set(PACKAGE_VERSION_COMPATIBLE FALSE)
else()
  set(PACKAGE_VERSION_COMPATIBLE TRUE)
  if(PACKAGE_FIND_VERSION STREQUAL PACKAGE_VERSION)
    set(PACKAGE_VERSION_EXACT TRUE)
  endif()
endif()
"""
# (the program knows its commands, and no more; what a person asks first is answered here)
SMAP = """\
#!/bin/sh
usage() {{
    cat << 'TEXT'
{usage}TEXT
}}
if [ $# = 0 ]; then
    usage >&2
    exit 2
fi
case $1 in
    --help | -h | help)
        usage
        exit
        ;;
    --version)
        echo 'smap {version}'
        exit
        ;;
esac
exec "$(dirname "$(readlink -f "$0")")/../lib/junketscarp/smap" "$@"
"""


def text(content, mode=0o644):
    return File(content.encode(), mode)


def pc(lib, has_rpath, homepage):
    """The file for pkg-config, which finds all from where it stands."""
    up = "/".join([".."] * (lib.count("/") + 2))
    libs = "-L${libdir} -loxc_sourcemap" + (" -Wl,-rpath,${libdir}" if has_rpath else "")
    url = f"URL: {homepage}\n" if homepage else ""
    return (
        f"prefix=${{pcfiledir}}/{up}\nlibdir=${{prefix}}/{lib}\nincludedir=${{prefix}}/include\n\nName: oxc_sourcemap\n"
        f"Description: Source maps of version 3 (ECMA-426)\n{url}Version: {VERSION}\nCflags: -I${{includedir}}\nLibs: {libs}\n"
    )


def shared(products, processor, lib):
    return {f"{lib}/liboxc_sourcemap.so.1": File(products.shared(processor), 0o644)}


def development(products, processor, lib, has_rpath):
    """The static library, the header, what finds them, and the reference."""
    up = "/".join([".."] * (lib.count("/") + 3))
    header = (products.library(processor) / "oxc_sourcemap.h").read_bytes()
    files = {f"{lib}/liboxc_sourcemap.a": File(products.static(processor)), "include/oxc_sourcemap.h": File(header)}
    files["include/oxc_sourcemap.hpp"] = File((TOP / "bindings/c/oxc_sourcemap.hpp").read_bytes())
    files[f"{lib}/liboxc_sourcemap.so"] = File(link="liboxc_sourcemap.so.1")
    files[f"{lib}/pkgconfig/oxc_sourcemap.pc"] = text(pc(lib, has_rpath, products.project.get("homepage")))
    files[f"{lib}/cmake/oxc_sourcemap/oxc_sourcemapConfig.cmake"] = text(CMAKE_CONFIG.format(up=up, lib=lib))
    version = CMAKE_VERSION.format(version=VERSION)
    files[f"{lib}/cmake/oxc_sourcemap/oxc_sourcemapConfigVersion.cmake"] = text(version)
    return files | reference(products)


def reference(products):
    """The pages of the manual of each function, and all of them as one page."""
    with tempfile.TemporaryDirectory() as room:
        environment = {**os.environ, "SOURCE_DATE_EPOCH": str(products.epoch)}
        run(TOP / "tools/pack/reference", "man", room, env=environment)
        pages = {
            f"share/man/man3/{it.name}": File(link=os.readlink(it)) if it.is_symlink() else File(it.read_bytes())
            for it in Path(room).iterdir()
        }
        run(TOP / "tools/pack/reference", "html", f"{room}/reference.html", env=environment)
        return pages | {"share/doc/junketscarp/reference.html": File(Path(room, "reference.html").read_bytes())}


def smap_files(products):
    share = "share/bash-completion/completions/smap", "share/zsh/site-functions/_smap", "share/fish/vendor_completions.d/smap.fish"
    files = {path: text(it) for path, it in zip(share, pages.completions())}
    files["bin/smap"] = text(SMAP.format(usage=pages.usage(), version=VERSION), 0o755)
    files["lib/junketscarp/smap"] = File(products.program("smap"), 0o755)
    return files | {"share/man/man1/smap.1": text(pages.smap_page())}


def sourcemap_files(products):
    """The program sourcemap, which writes its own pages and completions."""
    program = products.folder / "sourcemap"
    files = {"bin/sourcemap": File(products.program("sourcemap"), 0o755)}
    shells = {
        "bash": "bash-completion/completions/sourcemap",
        "zsh": "zsh/site-functions/_sourcemap",
        "fish": "fish/vendor_completions.d/sourcemap.fish",
    }
    files |= {f"share/{path}": text(run(program, "completions", shell)) for shell, path in shells.items()}
    templates = [products.folder / "wasm" / it for it in ("page.html", "size.html")]
    files |= {f"share/sourcemap/{it.name}": File(it.read_bytes()) for it in templates if it.is_file()}
    return files | {"share/man/man1/sourcemap.1": text(run(program, "man") + pages.sections("sourcemap"))}


def programs(products):
    files = smap_files(products)
    return files | sourcemap_files(products) if "sourcemap" in PROGRAMS else files


def third_party():
    """The licences of what the toolchain compiles into the library and the programs."""
    names = sorted({it for crate in ("oxc_sourcemap_c", *PROGRAMS) for it in libraries_of(crate)})
    found = {name: [it for it in licences(name) if it.name != "LICENSE-APACHE"] for name in names}
    own = ", ".join(name for name in names if not found[name])
    head = (
        "The library and the programs hold these libraries of the toolchain, each under its licence (of two, the MIT licence is taken).\n"
    )
    return "\n----\n\n".join(
        [f"{head}{own} are parts of the toolchain.\n", *(f"{name}\n\n{it.read_text()}" for name in names for it in found[name])]
    )


def documents(without=""):
    """The documents of docs/ by their names, without this one. Of a link to a file that is not among them only the words stay."""
    texts = {it.name: it.read_text() for it in sorted((TOP / "docs").glob("*.md")) if it.name != without}

    def kept(link):
        file = link[2].partition("#")[0]
        return link[0] if not file or file in texts or ":" in file else link[1]

    return {name: re.sub(r"\[([^\]]+)\]\(([^)]*)\)", kept, it).encode() for name, it in texts.items()}


def papers(products, proved):
    """What says what it is."""
    files = {f"share/doc/junketscarp/{name}": File(it) for name, it in documents().items()}
    files["share/doc/junketscarp/LICENSE"] = File((TOP / "LICENSE").read_bytes())
    files["share/doc/junketscarp/LICENSES-OF-LIBRARIES"] = text(third_party())
    return files | {"share/doc/junketscarp/PROVED.txt": text(proved)}


def whole(products, processor, proved):
    """All files of the tarball for a processor."""
    files = shared(products, processor, "lib") | development(products, processor, "lib", True) | papers(products, proved)
    return files | programs(products) if processor == "x64" else files
