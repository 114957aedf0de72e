"""The licences of what a package of Debian holds, in Debian's form for programs (DEP 5)."""

import re

from tools.pack.products import PROGRAMS, TOP, libraries_of, licences

FORMAT = "https://www.debian.org/doc/packaging-manuals/copyright-format/1.0/"
COMMENT = """\
Files below rattle/ are those of the toolchain: libraries that are compiled into the library and the programs. Of two licences the MIT
licence (Expat) is taken. Its libraries without a paragraph are parts of the toolchain.
"""
# Words of a licence, and its name in Debian.
NAMES = {
    "BSD 3-Clause License": "BSD-3-Clause",
    "UNICODE LICENSE V3": "Unicode-3.0",
    "Apache License": "Apache-2.0",
    "Permission is hereby granted, free of charge": "Expat",
}
APACHE = re.compile(r"^ *Apache License\n.*", re.S | re.M)
WHERE_APACHE = "/usr/share/common-licenses/Apache-2.0 has the text.\n"


def indented(words):
    return "".join(f" {line.strip() or '.'}\n" for line in words.strip().splitlines())


def paragraph(fields):
    """Fields with a text of one line, or of lines that are indented."""
    return "".join(f"{name}:{'' if text[0] == chr(10) else ' '}{text}\n" for name, text in fields.items() if text)


def holders(text, otherwise):
    """The lines of a licence that say who has the copyright."""
    found = re.findall(r"^ *Copyright (?:\([cC]\)|©) *(.*?),? *$", text, re.M)
    return "\n" + indented("\n".join(dict.fromkeys(found)) or otherwise)


def of_files(files, texts, otherwise):
    """A paragraph of files under the licences with these texts."""
    names = [next((known for words, known in NAMES.items() if words in text), "other") for text in texts]
    licence = indented("\n".join(APACHE.sub(WHERE_APACHE, it) for it in texts)).rstrip("\n")
    about = {"Files": files, "Copyright": holders("\n".join(texts), otherwise).rstrip("\n")}
    return paragraph(about | {"License": f"{' and '.join(dict.fromkeys(names))}\n{licence}"})


def of_libraries():
    """A paragraph for the libraries of the toolchain that have the same licences."""
    names = sorted({it for crate in ("oxc_sourcemap_c", *PROGRAMS) for it in libraries_of(crate)})
    under = {}
    for name in names:
        texts = tuple(it.read_text() for it in licences(name) if it.name != "LICENSE-APACHE")
        if texts:
            under.setdefault(texts, []).append(name)
    for texts, found in under.items():
        yield of_files(" ".join(f"rattle/{it}/*" for it in found), texts, f"the authors of {', '.join(found)}")


def copyright_text(told):
    """The licence of the library, and those of the libraries in it; `told` is what tools/PROJECT tells."""
    head = {"Format": FORMAT, "Upstream-Name": "Junketscarp", "Upstream-Contact": told.get("maintainer"), "Source": told.get("repository")}
    own = (TOP / "LICENSE").read_text()
    parts = [paragraph(head | {"Comment": f"\n{indented(COMMENT)}".rstrip()}), of_files("*", [own], "the authors of Junketscarp")]
    return "\n".join([*parts, *of_libraries()]).encode()
