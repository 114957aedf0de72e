"""The codes of findings of `sourcemap check`: its help lists those that its code has. And what it finds out about originals."""

import json
import re
import subprocess
import tempfile
from pathlib import Path

CODES = Path(__file__).resolve().parents[2] / "crates/sourcemap_reports/src/codes.rt"


def codes_of_findings(program, tally):
    """The help of `check` lists the codes of findings, each below its level."""
    text = CODES.read_text(encoding="utf-8")
    made = {it: "warning" for it in re.findall(r'=> "([a-z-]+)",', text.partition("fn code_of_mend")[2])}
    made |= {name: level.lower() for name, level in re.findall(r'Code\("([a-z-]+)", Level::(\w+)\)', text)}
    told, level = {}, ""
    for line in subprocess.run([program, "check", "--help"], capture_output=True, text=True, check=True).stdout.splitlines():
        if found := re.fullmatch(r"  (error|warning|note)\b.*", line):
            level = found[1]
        elif found := re.fullmatch(r"    ([a-z-]+) +\S.*", line):
            told[found[1]] = level
    tally.check(told == made, f"codes: {sorted(told.items() ^ made.items())}")


def roots(program, tally):
    """Files that are named in a folder outside of the root may lie in that folder, and nowhere else above it."""
    good = '{"version":3,"sources":["a.ts"],"sourcesContent":["f()"],"names":[],"mappings":"AAAA"}'
    with tempfile.TemporaryDirectory() as top:
        folder = Path(top, "build", "dist")
        for path in (folder / "js", Path(top, "here")):
            path.mkdir(parents=True)
        for name, url in (("js/in.js", "../maps/in.map"), ("js/out.js", "../../out.map"), ("js/gone.js", "/js/gone.map")):
            Path(folder, name).write_text(f"f()\n//# sourceMappingURL={url}\n")
        for path in (folder / "maps" / "in.map", folder.parent / "out.map", folder / "js" / "gone.map"):
            path.parent.mkdir(exist_ok=True)
            path.write_text(good)
        for words in (["../build/dist"], [f"{folder}/"], [str(folder), "--root", "../build"]):
            ran = subprocess.run([program, "check", *words], capture_output=True, text=True, cwd=Path(top, "here"), check=False)
            lines = ran.stdout.splitlines()
            wrong = sorted(Path(it.partition(": error: ")[0]).name for it in lines if ": error: " in it)
            hoped = ["gone.js"] if "--root" in words else ["out.js"]
            tally.check(wrong == hoped and ran.returncode == 1, f"check of {words}: {wrong}, not {hoped}: {ran}")


def originals(program, tally):
    """Names that are elsewhere in a content, or nowhere; and contents that are not those of files."""
    # Three names, each at the beginning of a line in the code and in the source.
    plain = {"version": 3, "sources": ["a.ts"], "names": ["one", "two", "three"], "mappings": "AAAAA;AACAC;AACAC"}
    source = "one\n#two\n\"three\"\n"
    apart = "not in the contents at the original positions"
    cases = {
        source: [],
        "/*\n*/\n" + source: [f"warning: 3 of 3 names are {apart}, but 2 lines further down: was a banner added or removed? [shifted]"],
        source[4:]: [f"warning: 3 of 3 names are {apart}, but 1 line further up: was a banner added or removed? [shifted]"],
        "\n" * 65 + source: [f"note: 3 of 3 names are {apart}, the first at line 0, column 0 of the code [name-differs]"],
        source.replace("two", "tvo"): [f"note: 1 of 3 names is {apart}, the first at line 1, column 0 of the code [name-differs]"],
        source.replace("one", "on"): [f"note: 1 of 3 names is {apart}, the first at line 0, column 0 of the code [name-differs]"],
    }
    with tempfile.TemporaryDirectory() as folder:

        def found(content):
            Path(folder, "m.map").write_text(json.dumps({**plain, "sourcesContent": [content]}))
            ran = subprocess.run([program, "check", "m.map"], capture_output=True, text=True, cwd=folder, check=False)
            lines = [it.removeprefix("m.map: ") for it in ran.stdout.splitlines()[1:]]
            # (past the end of a content shortened by a line there is no position)
            return ran.returncode, [it for it in lines if "past-content" not in it]

        Path(folder, "m").write_text("one\ntwo\nthree\n")
        for content, wanted in cases.items():
            status, lines = found(content)
            tally.check(lines == wanted and (status == 1) == ("shifted" in "".join(wanted) or content == source[4:]), f"{content}: {status}, {lines}")
        differs = ["note: 1 content not as in its file: a.ts [content-differs]"]
        for text, wanted in ((source.encode(), []), (b"\xef\xbb\xbf" + source.encode(), []), (source.encode() + b" ", differs), (b"", differs)):
            Path(folder, "a.ts").write_bytes(text)
            tally.check(found(source) == (0, wanted), f"a file with {text}: {found(source)}")
        Path(folder, "a.ts").unlink()
        # The tokens of the map are in the middle of words of another code.
        inside = "in the middle of words of the code, the first at line"
        for code, told in (("one\n-two\n$\n", []), ("\ufeffone\ntwo\n{}\n", []), ("\u00e9one\ntwo\n\n", [])):
            Path(folder, "m").write_text(code)
            tally.check(found(source) == (0, told), f"{code}: {found(source)}")
        plain["mappings"] = "CAAAA;CACAC;CACAC"
        Path(folder, "m").write_text("one\ntwo\nthree\n")
        wanted = [f"warning: 3 of 3 tokens are {inside} 0, column 1: is it the map of this code? [inside-words]"]
        tally.check(found(source) == (1, wanted), f"another code: {found(source)}")
        Path(folder, "m").write_text("(one\n(two\n_three\n")
        wanted = [f"warning: 1 of 3 tokens is {inside} 2, column 1: is it the map of this code? [inside-words]"]
        tally.check(found(source) == (1, wanted), f"one of three: {found(source)}")
