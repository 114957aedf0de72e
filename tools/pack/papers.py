"""The papers about the archives: PROVED.txt, the list of materials (SPDX), and SHA256SUMS."""

import hashlib
import json
import re
from datetime import datetime, timezone

from tools.pack.products import PROGRAMS, TOP, libraries_of, licences, run, toolchain
from tools.pack.project import told_in_spdx

REDO = """\
git checkout {commit}
./check                 (proves all from nothing, and tests; its last line is as above)
./build package         (makes these archives; SHA256SUMS then has the same sums, given the same tools)
"""
UNPROVED = """\
NOTHING HERE IS PROVED. This was packed for people at work, over a build without proofs, and is no release.
"""
TRIAL = """\
This was packed by ./check itself, before it had ended, to try the archives. It is no release.
"""


def tools():
    """The first line of the version text of each tool of the build."""
    for name in ("cc", "ld", "aarch64-linux-gnu-gcc", "wat2wasm", "wasm-opt", "node", "npm", "cargo", "python3"):
        try:
            yield f"{name}: {run(name, '--version').splitlines()[0]}"
        except (OSError, SystemExit):
            yield f"{name}: not there"


def premises():
    """The section of docs/PROOFS.md, without its links."""
    section = re.search(r"^## Premises\n\n(.*?)\n\n## ", (TOP / "docs/PROOFS.md").read_text(), re.S | re.M)[1]
    return re.sub(r"\[([^\]]+)\]\([^)]*\)", r"\1", section).replace("**", "").replace("`", "")


def proved(products, passed):
    """What is proved of what was packed, and how to see it again."""
    if passed == "unproved":
        return (
            f"Junketscarp {products.semver}\n\ncommit: {products.commit}, or what was changed since\ntoolchain: {toolchain()}\n\n{UNPROVED}"
        )
    head = TRIAL if passed == "trial" else f"./check passed on this commit, with the last line: {passed}\n"
    programs = " and so is smap;\nsourcemap is proved in part" if len(PROGRAMS) > 1 else " and so is smap"
    parts = {
        "": f"Junketscarp {products.semver}\n\ncommit: {products.commit}\ntoolchain: {toolchain()}\n"
        + "".join(f"{it}\n" for it in tools()),
        "What passed": head,
        "What is proved": "The library for x86-64 is compiled from exports each of which is proved to meet its contract, for every input,"
        f"{programs}. docs/BINDINGS.md and docs/PROOFS.md of the repository say what the contracts promise.\n",
        "What is tested": "The layer for C over the exports; the bindings for Rust, Python and JavaScript; the module for WebAssembly and the library for\n"
        "aarch64, which are compiled from the module of LLVM of the proved library by steps that tests cover; and the archives, by\n"
        "./check package.\n",
        "Premises": premises() + "\n",
        "To redo it": REDO.format(commit=products.commit),
    }
    return "\n".join(f"{f'{name}{chr(10)}{chr(10)}' if name else ''}{text}" for name, text in parts.items())


def sha256(content):
    return hashlib.sha256(content).hexdigest()


def sums(archives):
    return "".join(f"{sha256(content)}  {name}\n" for name, content in sorted(archives.items())).encode()


def licence_of(name):
    """The licence of a library of the toolchain as SPDX has it, by the names of its texts."""
    names = {it.name for it in licences(name)}
    known = {("LICENSE-APACHE", "LICENSE-MIT"): "MIT OR Apache-2.0", ("LICENSE-MIT",): "MIT"}
    return known.get(tuple(sorted(names)), "NOASSERTION")


def materials(products, archives):
    """The list of materials: each archive with its sum, and the libraries of the toolchain that are compiled into it."""
    used = sorted({it for crate in ("oxc_sourcemap_c", *PROGRAMS) for it in libraries_of(crate)})
    created = datetime.fromtimestamp(products.epoch, timezone.utc).strftime("%Y-%m-%dT%H:%M:%SZ")

    def package(name, version, licence, **more):
        ident = f"SPDXRef-{re.sub(r'[^A-Za-z0-9.-]', '-', name)}"
        about = {"SPDXID": ident, "name": name, "versionInfo": version, "downloadLocation": "NOASSERTION", "filesAnalyzed": False}
        return about | {"licenseConcluded": licence, "licenseDeclared": licence, "copyrightText": "NOASSERTION"} | more

    packed = [
        package(
            name,
            products.semver,
            "BSD-3-Clause",
            packageFileName=name,
            checksums=[{"algorithm": "SHA256", "checksumValue": sha256(content)}],
        )
        for name, content in sorted(archives.items())
    ]
    libraries = [package(f"rattle-{it}", toolchain(), licence_of(it)) for it in used]
    told = told_in_spdx(products.project, products.commit)
    whole = package("junketscarp", products.semver, "BSD-3-Clause", **told)
    ties = [("SPDXRef-DOCUMENT", "DESCRIBES", whole)]
    ties += [(it["SPDXID"], "GENERATED_FROM", whole) for it in packed] + [(whole["SPDXID"], "STATIC_LINK", it) for it in libraries]
    document = {
        "spdxVersion": "SPDX-2.3",
        "dataLicense": "CC0-1.0",
        "SPDXID": "SPDXRef-DOCUMENT",
        "name": products.name,
        "documentNamespace": f"https://spdx.org/spdxdocs/{products.name}-{sha256(sums(archives))}",
        "creationInfo": {"created": created, "creators": [*filter(None, [told.get("supplier")]), "Tool: package"]},
        "packages": [whole, *packed, *libraries],
        "relationships": [{"spdxElementId": a, "relationshipType": tie, "relatedSpdxElement": b["SPDXID"]} for a, tie, b in ties],
    }
    return (json.dumps(document, indent=1) + "\n").encode()
