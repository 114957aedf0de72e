"""Who maintains what is packed, and where it is: tools/PROJECT, as each kind of archive has it. What it leaves open no archive tells."""

import json
import re
import sys
from pathlib import Path

FILE = Path(__file__).resolve().parents[1] / "PROJECT"
URL = r'https?://[^\s"\\<>]+'
FORMS = {"homepage": URL, "maintainer": r'[^\s"\\<>][^"\\<>]* <[^\s"\\<>@]+@[^\s"\\<>@]+>', "repository": URL}


def read(text):
    """The lines that are filled, as a dict. One of another name or form, or a second one of a name, ends the run."""
    rows = [line.partition(":") for line in text.splitlines() if line and not line.startswith("#")]
    told = {name: value.strip() for name, _, value in rows}
    names = [name for name, _, _ in rows]
    wrong = [
        name for name, value in told.items() if name not in FORMS or names.count(name) > 1 or value and not re.fullmatch(FORMS[name], value)
    ]
    if wrong:
        sys.exit(f"package: tools/PROJECT: wrong lines: {', '.join(wrong)}")
    return {name: value for name, value in told.items() if value}


def project():
    return read(FILE.read_text())


def tell_unfilled(told):
    """Says what is left out of the archives."""
    missing = [it for it in FORMS if it not in told]
    if missing:
        more = "; dpkg warns of packages without a maintainer" if "maintainer" in missing else ""
        print(f"package: tools/PROJECT has no {', '.join(missing)}: the archives leave that out{more}", file=sys.stderr, flush=True)


def maintainer(told):
    """The name and the address, or nothing."""
    return re.fullmatch(r"(.*) <(.*)>", told["maintainer"]).groups() if "maintainer" in told else None


def lines_of_cargo(told):
    return "".join(f'{it} = "{told[it]}"\n' for it in ("homepage", "repository") if it in told)


def lines_of_npm(told):
    homepage = f'  "homepage": {json.dumps(told["homepage"])},\n' if "homepage" in told else ""
    where = {"type": "git", "url": f"git+{told['repository']}"} if "repository" in told else None
    return homepage + (f'  "repository": {json.dumps(where)},\n' if where else "")


def lines_of_python(told):
    urls = ", ".join(f'{it.capitalize()} = "{told[it]}"' for it in ("homepage", "repository") if it in told)
    who = maintainer(told)
    lines = f'maintainers = [{{ name = "{who[0]}", email = "{who[1]}" }}]\n' if who else ""
    return lines + (f"urls = {{ {urls} }}\n" if urls else "")


# Of each manifest the line of the licence, and what stands behind it.
MANIFESTS = {
    "Cargo.toml": ('license = "BSD-3-Clause"\n', lines_of_cargo),
    "package.json": ('  "license": "BSD-3-Clause",\n', lines_of_npm),
    "pyproject.toml": ('license = "BSD-3-Clause"\n', lines_of_python),
}


def told_in(name, text, told):
    """A manifest of this name that tells of the project."""
    licence, lines = MANIFESTS[name]
    return text.replace(licence, licence + lines(told), 1)


def told_in_spdx(told, commit):
    """What a list of materials has of the whole."""
    about = {"homepage": told["homepage"]} if "homepage" in told else {}
    if "repository" in told:
        about["downloadLocation"] = f"git+{told['repository']}@{commit}"
    who = maintainer(told)
    return about | ({"supplier": "Organization: {} ({})".format(*who)} if who else {})
