"""What archives tell of who maintains them and where that is: what tools/PROJECT has, and nothing else."""

import json
import re
import tomllib

from tools.check.archives.all_archives import inside
from tools.check.archives.trying import TOP, holds
from tools.pack.copyright import copyright_text
from tools.pack.project import project, read, told_in, told_in_spdx

FILLED = {"homepage": "https://example.org/maps", "maintainer": "Some Body <body@example.org>", "repository": "https://example.org/maps.git"}
# Where each kind of text has each line of tools/PROJECT.
FIELDS = {
    "control": {"maintainer": r"^Maintainer: (.*)$", "homepage": r"^Homepage: (.*)$"},
    "copyright": {"maintainer": r"^Upstream-Contact: (.*)$", "repository": r"^Source: (.*)$"},
    "METADATA": {
        "maintainer": r"^Maintainer-email: (.*)$",
        "homepage": r"^Project-URL: Homepage, (.*)$",
        "repository": r"^Project-URL: Repository, (.*)$",
    },
    "Cargo.toml": {"homepage": r'^homepage = "(.*)"$', "repository": r'^repository = "(.*)"$'},
    "package.json": {"homepage": r'^  "homepage": "(.*)",$', "repository": r'^  "repository": .*"git\+(.*)"\},$'},
    "oxc_sourcemap.pc": {"homepage": r"^URL: (.*)$"},
}


def faults_of(name, text, told):
    """Which fields of a text are others than those of the project."""
    for field, form in FIELDS[name].items():
        found = re.search(form, text.split("\n\n")[0] if name == "METADATA" else text, re.M)
        if (found and found[1]) != told.get(field):
            yield f"{name}: {field}: {found and found[1]}, not {told.get(field)}"


def tells_of_project(archives):
    """Each text of an archive tells what tools/PROJECT has."""
    told, faults, seen = project(), [], set()
    for archive in archives:
        for path, content in inside(archive.name, archive.read_bytes()):
            name = re.split("[/:]", path)[-1]
            if name in FIELDS and (name != "package.json" or b'"license"' in content):
                seen.add(name)
                faults += [f"{path}: {it}" for it in faults_of(name, content.decode(), told)]
    holds(not faults, "\n".join(faults[:20]))
    holds({"control", "copyright", "METADATA", "oxc_sourcemap.pc"} <= seen, f"of all archives only these were found: {seen}")


def has_forms():
    """What tells of a project that is filled has the forms of its readers, and lines of another form, or twice, are refused."""
    texts = {path: (TOP / path).read_text() for path in ("bindings/node/package.json", "bindings/python/pyproject.toml")}
    texts |= {str(it.relative_to(TOP)): it.read_text() for it in TOP.glob("bindings/rust/oxc*/Cargo.toml")}
    found = {path: told_in(path.rsplit("/", 1)[1], text, FILLED) for path, text in texts.items()}
    for path, text in found.items():
        told = json.loads(text) if path.endswith(".json") else tomllib.loads(text)
        about = told.get("project") or told.get("package") or told
        urls = {name.lower(): it for name, it in about.get("urls", about).items()}
        where = urls["repository"]
        holds(urls["homepage"] == FILLED["homepage"], f"{path}: the homepage")
        holds((where if isinstance(where, str) else where["url"][4:]) == FILLED["repository"], f"{path}: the repository")
        holds(told_in(path.rsplit("/", 1)[1], texts[path], {}) == texts[path], f"{path}: nothing is to be told")
    holds("\nUpstream-Contact: Some Body <body@example.org>\n" in copyright_text(FILLED).decode(), "copyright")
    holds(told_in_spdx(FILLED, "1a")["downloadLocation"] == "git+https://example.org/maps.git@1a", "the list of materials")
    for it in ("homepage: example.org", "maintainer: nobody", "hompage: https://example.org", "homepage: https://example.org\nhomepage:"):
        try:
            read(it)
        except SystemExit:
            continue
        holds(False, f"this is taken: {it}")


def tells_steps(said):
    """What ./build package said: each step when it began, and how long it took; and what tools/PROJECT leaves open."""
    began = re.findall(r"^package: (.*) \.\.$", said, re.M)
    ended = re.findall(r"^package: (.*): \d+ s$", said, re.M)
    holds(sorted(began) == sorted(ended) and {"x64 tarball", "wheels and source of Python"} <= {*began}, f"steps: {began}, {ended}")
    missing = [it for it in FILLED if it not in project()]
    holds(not missing or f"package: tools/PROJECT has no {', '.join(missing)}" in said, "what is open is not told")
