"""Maps that `sourcemap inline` puts into their codes, and `sourcemap external` takes out of them. For tools/check/sourcemap."""

import os
import tempfile
from pathlib import Path

BLOCK, LINE = "/*# sourceMappingURL=NAME.map */", "//# sourceMappingURL=NAME.map"
# The names of codes, and how a comment has them; by hand.
NAMES = {"m.js": "m.js", "a b#%?:*.js": "a%20b%23%25%3F%3A%2A.js", "s.css": "s.css", "\u00e9\u3000.css": "%C3%A9%E3%80%80.css"}
FRONTS = ["", "\ufeff#!/bin/x\n", "a\r\n\t", "a\u2028", "`${1}`\n", "// c\n//# sourceMappingURL=other.map\n", "/* d */ "]
BACKS = ["", "\n", "  \r\n", "\n// end\n", "\n\n//# debugId=1\n"]


def codes(name):
    """Codes that name their map by comments of each form, at many places."""
    comments = [BLOCK] if name.endswith("css") else [BLOCK, LINE, LINE.replace("# ", "@\t")]
    backs = ["", "\n", " /* end */\r\n"] if name.endswith("css") else BACKS
    for comment in comments:
        yield from (front + comment.replace("NAME", NAMES[name]) + back for front in FRONTS for back in backs)


def tried(run, check, text):
    """Puts a map into each code, looks a position up, and takes the map out: both files have the bytes that they had."""
    held = text.replace("a.ts", "\u00e9\\u00e9 */.ts") + "\r\n"
    for name in NAMES:
        for code in codes(name):
            with tempfile.TemporaryDirectory() as folder:
                beside = Path(folder, f"{name}.map")
                Path(folder, name).write_bytes(code.encode())
                beside.write_bytes(held.encode())
                put = run(["inline", name], folder)
                os.remove(beside)
                traced = run(["trace", name, "0:13"], folder)
                taken = run(["external", name], folder)
                left = {it.name: it.read_bytes().decode() for it in Path(folder).iterdir()}
            wanted = ((0, "", ""), (0, "src/\u00e9\u00e9 */.ts:1:2\n", ""), (0, "", ""), {name: code, f"{name}.map": held})
            check((put, traced, taken, left) == wanted, f"in and out: {(put, traced, taken, left)}, not {wanted}")
