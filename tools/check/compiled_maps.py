"""What `sourcemap compile` writes, contents apart too; and that `check` and `resolve` tell what is not of its map, by its length, its time
and its SHA-256.
For tools/check/sourcemap."""

import base64
import hashlib
import json
import os
import struct
import tempfile
from pathlib import Path

STALE = "is out of date, so its map is read: compile it again"
DAMAGED = "is damaged, so its map is read: compile it again"
NONE = "not a compiled source map, so its map is read"


def made(run, check, folder, text):
    """Compiles a map, of a script that names it and of one that has it in itself; the bytes."""
    url = base64.b64encode(text.encode()).decode()
    Path(folder, "d.js").write_text(f"x\n//# sourceMappingURL=data:application/json;base64,{url}\n")
    Path(folder, "maps").mkdir()
    ran = [run(["compile", *words], folder) for words in (["app.js", "d.js", "-o", "maps"], ["app.js.map"])]
    check(ran == [(0, "", "")] * 2, f"maps that are compiled: {ran}")
    data = Path(folder, "app.js.map.smc").read_bytes()
    head = b"smap" + struct.pack("<IQQ", 1, len(data), len(text)) + hashlib.sha256(text.encode()).digest()
    check(data.startswith(head), f"a compiled map begins with {data[:56]!r}, not {head!r}")
    for name in ("maps/app.js.map.smc", "maps/d.js.map.smc"):
        check(Path(folder, name).read_bytes() == data, f"{name} is another one than that beside its map")
    return data


def resolved(run, folder, text, age):
    """By which map a frame is resolved, and where, if the map has this text and is so much older than its compiled one; what is reported."""
    when = os.stat(Path(folder, "app.js.map.smc")).st_mtime - age
    Path(folder, "app.js.map").write_text(text)
    os.utime(Path(folder, "app.js.map"), (when, when))
    _, out, err = run(["resolve", "--json"], folder, "f@app.js:1:14\n")
    told = json.loads(out)
    return told["map"], told["source"], err


def not_taken(run, check, folder, text, data):
    """A compiled map whose first line begins behind its second, one that is none, and a pipe that nobody writes to: the map is read."""
    file = Path(folder, "app.js.map.smc")
    for written, why in ((data[:88] + b"\xff" + data[89:], DAMAGED), (b"", NONE), (None, "")):
        file.unlink()
        if written is None:
            os.mkfifo(file)
        else:
            file.write_bytes(written)
        _, source, err = resolved(run, folder, text, 60)
        told = f"sourcemap: app.js.map.smc: {why}\n" if why else ""
        check((source, err) == ("src/a.ts", told), f"a compiled map that is not taken: {source}, {err}, not {told}")
    file.unlink()


def refused(run, check, folder):
    """One map by two names is compiled once, and one that cannot be read keeps no other from it; a compiled map without its map is
    compared with none, and one that is out of date is told where its map is checked."""
    Path(folder, "bad.map").write_text('{"version":4}')
    Path(folder, "app.js.map.smc").unlink()
    told = run(["compile", "bad.map", "app.js.map", "./app.js.map"], folder)
    twice = "./app.js.map.smc: would be written twice: name each map once, and those of one name apart"
    wanted = [f"sourcemap: {it}" for it in (twice, "./app.js.map: was not compiled, see above")]
    lines = told[2].splitlines()
    check(told[:2] == (2, "") and lines[0].startswith("sourcemap: bad.map: ") and lines[1:] == wanted, f"maps that are not compiled: {told}")
    check(run(["check", "app.js.map.smc"], folder)[0] == 0, "a map beside others that are not compiled is not compiled")
    for file in ("app.js", "app.js.map"):
        check("out of date" not in run(["check", file], folder)[1], f"{file}: its compiled map is not out of date")
    text = Path(folder, "app.js.map").read_text()
    Path(folder, "app.js.map").write_text(f"{text} ")
    for file in ("app.js", "app.js.map"):
        told = run(["check", file], folder)
        wanted = "app.js.map: note: app.js.map.smc is out of date: compile it again [stale-beside]\n"
        check(told[0] == 0 and wanted in told[1], f"{file}: {told}, not {wanted}")
    Path(folder, "app.js.map").write_text(text)
    told = run(["check", "maps/d.js.map.smc"], folder)
    check(told[0] == 0 and "note: not compared: maps/d.js.map is not there [uncompared]\n" in told[1], f"a check without a map: {told}")


def other_sources(compiled):
    """The bytes of a compiled map with the names of its sources changed."""
    return compiled.read_bytes().replace(b"b.ts", b"c.ts")


def contents_apart(run, check, text):
    """Contents that lie apart are read beside the compiled map alone, and compared as what their name says they are."""
    with tempfile.TemporaryDirectory() as folder:
        for name in ("dist", "far"):
            Path(folder, name).mkdir()
        Path(folder, "dist/app.js.map").write_text(text.replace('"names"', '"sourcesContent":["let a\\n",null],"names"'))
        run(["compile", "--contents-apart", "dist/app.js.map"], folder)
        traced = ["trace", "--context", "0", "dist/app.js.map.smc", "0:0"]
        compiled, apart = (Path(folder, f"dist/app.js.map{end}") for end in (".smc", ".contents.smc"))
        check("let a" in run(traced, folder)[1], "contents beside a compiled map")
        apart.rename(Path(folder, "far/contents"))
        apart.symlink_to("../far/contents")
        status, out, err = run(traced, folder)
        told = "dist/app.js.map.contents.smc: leads out of its folder, so it is not read\n"
        check("no content" in out and err.endswith(told), f"contents by a link out of the folder: {status}, {out}, {err}")
        status, _, err = run(["compile", "--contents-apart", "dist/app.js.map"], folder)
        told = "dist/app.js.map.contents.smc: leads out of its folder, so no command would read it\n"
        check(status == 2 and told in err, f"contents written by a link out of the folder: {status}, {err}")
        apart.unlink()
        apart.symlink_to("../far/none")
        status, _, err = run(["compile", "--contents-apart", "dist/app.js.map"], folder)
        check(status == 2 and told in err, f"contents written by a link to nothing: {status}, {err}")
        check(not Path(folder, "far/none").exists(), "contents are written by a link to nothing")
        apart.unlink()
        for data, why in (
            (b"", "not a compiled source map"),
            (compiled.read_bytes().replace(b"src", b"\xff\xff\xff"), "is damaged"),
            (other_sources(compiled), "is of another map than dist/app.js.map.smc"),
        ):
            apart.write_bytes(data)
            told = f"sourcemap: dist/app.js.map.contents.smc: {why}, so it is not read: compile the map again\n"
            found = run(traced, folder)
            check("no content" in found[1] and found[2] == told, f"contents that are not taken: {found}, not {told}")
        Path(folder, "page.html").write_text("{{data}}")
        Path(folder, "dist/app.js").write_text("let a\n")
        found = run(["page", "dist/app.js", "dist/app.js.map.smc", "--template", "page.html", "-o", "shown.html"], folder)
        check(found == (0, "", told), f"a page of contents that are not taken: {found}, not {told} once")
        Path(folder, "dist/app.js").unlink()
        Path(folder, "far/contents").rename(compiled)
        told = run(["check", "dist/app.js.map.smc"], folder)
        check(told[0] == 1 and "differs from dist/app.js.map" in told[1], f"contents named as a compiled map: {told}")


def tried(run, check, code, text):
    other = text.replace("a.ts", "c.ts")
    with tempfile.TemporaryDirectory() as folder:
        Path(folder, "app.js").write_text(code)
        Path(folder, "app.js.map").write_text(text)
        data = made(run, check, folder, text)
        for now, age, wanted in (
            (text, 0, ("app.js.map.smc", "src/a.ts", "")),
            (text, -60, ("app.js.map.smc", "src/a.ts", "")),
            (other, 60, ("app.js.map.smc", "src/a.ts", "")),
            (other, -60, ("app.js.map", "src/c.ts", f"sourcemap: app.js.map.smc: {STALE}\n")),
            (f"{text} ", 60, ("app.js.map", "src/a.ts", f"sourcemap: app.js.map.smc: {STALE}\n")),
        ):
            found = resolved(run, folder, now, age)
            check(found == wanted, f"a map {age} s older than its compiled one: {found}, not {wanted}")
        Path(folder, "app.js.map").write_text(text)
        for damaged, wanted in (
            (data.replace(b"a.ts", b"e.ts"), "differs from app.js.map: compile it again"),
            (data[:-1], "a compiled source map has another length than it says"),
            (data.replace(b"src", b"\xff\xff\xff"), "is damaged: compile its map again"),
        ):
            Path(folder, "app.js.map.smc").write_bytes(damaged)
            status, out, _ = run(["check", "app.js.map.smc"], folder)
            check(status == 1 and f"app.js.map.smc: error: {wanted} [" in out, f"{wanted}: {status}, {out}")
        refused(run, check, folder)
        not_taken(run, check, folder, text, data)
    contents_apart(run, check, text)
