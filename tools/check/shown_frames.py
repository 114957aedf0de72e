"""How `trace` and `resolve` show what they find: the names of sources and functions, lines of context, and sources that maps ignore. The
maps are written by hand. For tools/check/sourcemap."""

import json
import os
import subprocess
import tempfile
from pathlib import Path

# Three functions, and the trace of an error in the first; its tokens are at names, and have those of the source.
CODE = "function e(){throw 1}\nfunction t(){e()}\nvar n=()=>{t()};n()\n"
TOKENS = [(0, 9, "fail"), (0, 13, None), (1, 9, "start"), (1, 13, "fail"), (2, 4, "run"), (2, 11, "start"), (2, 16, "run")]
PLACES = [("e", "1:14"), ("t", "2:14"), ("n", "3:12"), ("Object.<anonymous>", "3:17")]
NAMED = ["fail", "start", "run", "Object.<anonymous>"]
# Each comes from the line and column in the source that it has in the code.
SOURCE = "src/a.ts"


def map_of(tokens, vlq, **more):
    """The map of tokens, each by its place, which it has in the source too, and its name."""
    names = [*dict.fromkeys(name for _, _, name in tokens if name)]
    lines, before = [], [0, 0, 0]
    for line, column, name in tokens:
        lines += [[] for _ in range(line + 1 - len(lines))]
        start = lines[line][-1][0] if lines[line] else 0
        segment = vlq(column - start) + "A" + vlq(line - before[0]) + vlq(column - before[1])
        before[:2] = line, column
        if name:
            segment += vlq(names.index(name) - before[2])
            before[2] = names.index(name)
        lines[line].append((column, segment))
    mappings = ";".join(",".join(segment for _, segment in it) for it in lines)
    return json.dumps({"version": 3, "sources": [SOURCE], "names": names, "mappings": mappings, **more})


def trace_of(places, file="app.js"):
    return "".join(f"    at {function} ({file}:{place})\n" for function, place in places)


def sources(run, write, check, vlq):
    """The names of sources: from the current folder, from the root, and as maps have them; of maps in other folders, too."""
    held = map_of(TOKENS, vlq)
    own = {"relative": "src/a.ts", "up": "../src/./a.ts", "above": "../../a.ts", "web": "webpack:///./a.ts", "null": None}
    with tempfile.TemporaryDirectory() as top:
        top = os.path.realpath(top)
        own |= {"file": f"file://{top}/here/my%20a.ts", "absolute": f"{top}/here/b/c.ts", "elsewhere": "/usr/a.ts"}
        for name, source in own.items():
            write(top, {f"here/dist/{name}.js.map": json.dumps({**json.loads(held), "sources": [source]})})
        here = f"{top}/here"
        wanted = {
            "relative": ("dist/src/a.ts", f"{here}/dist/src/a.ts"),
            "up": ("src/a.ts", f"{here}/src/a.ts"),
            "above": (f"{top}/a.ts", f"{top}/a.ts"),
            "web": ("webpack:///./a.ts", "webpack:///./a.ts"),
            "null": ("", ""),
            "file": ("my a.ts", f"{here}/my a.ts"),
            "absolute": ("b/c.ts", f"{here}/b/c.ts"),
            "elsewhere": ("/usr/a.ts", "/usr/a.ts"),
        }
        for name, (shown, whole) in wanted.items():
            for words, source in (([], shown), (["--absolute"], whole), (["--raw"], own[name] or "")):
                found = run(["trace", *words, f"dist/{name}.js.map", "0:13"], here)[:2]
                check(found == (0, f"{source}:0:13\n"), f"{name} {words}: {found}, not {source}")
                if name != "null":
                    found = run(["trace", *words, "--reverse", f"{source}:0:13", f"dist/{name}.js.map"], here)[:2]
                    check(found == (0, "0:13\n"), f"{name} {words} --reverse: {found}")
        found = run(["resolve", "--absolute", f"{top}/here/trace.txt"], here)
        check(found[0] == 2, f"no trace: {found}")
        found = run(["trace", "--raw", "--absolute", "dist/up.js.map", "0:13"], here)
        check(found[0] == 2 and "--absolute" in found[2], f"--raw and --absolute: {found}")


def functions(run, write, check, vlq):
    """The names of functions: by the mapping at the name in the code, or at the call; not where the code has another function there."""

    def names(files, trace, *words):
        with tempfile.TemporaryDirectory() as folder:
            write(folder, files)
            out = run(["resolve", *words], folder, trace)[1]
        return [line.strip().removeprefix("at ").partition(" (")[0] for line in out.splitlines()]

    both = {"app.js": CODE, "app.js.map": map_of(TOKENS, vlq)}
    check(names(both, trace_of(PLACES)) == NAMED, f"functions: {names(both, trace_of(PLACES))}")
    plain = [function for function, _ in PLACES]
    found = names(both, trace_of(PLACES), "--names=code")
    check(found == plain, f"functions of the code: {found}")
    # By calls alone: without the code, and for the last one no call is known.
    calls = {"app.js.map": both["app.js.map"]}
    check(names(calls, trace_of(PLACES)) == NAMED, f"functions by calls: {names(calls, trace_of(PLACES))}")
    check(names(calls, trace_of(PLACES[:2])) == ["fail", "t"], f"a last frame: {names(calls, trace_of(PLACES[:2]))}")
    found = names(calls, trace_of(PLACES[:1]) + "    at Array.map (<anonymous>)\n" + trace_of(PLACES[1:2]))
    check(found == ["e", "Array.map", "t"], f"a call by the engine: {found}")
    # By declarations alone.
    check(names(both, trace_of(PLACES[:1])) == ["fail"], f"a frame by itself: {names(both, trace_of(PLACES[:1]))}")
    # (`@` is where the token with the name is, and `#` where the frame is)
    forms = {
        "async function @e(){#throw 1}": "fail",
        "function*@e(){#throw 1}": "fail",
        "var @e=function(){#throw 1}": "fail",
        "var @e=async t=>{#throw 1}": "fail",
        "let @e = async ( a , b ) => {#throw 1}": "fail",
        "var @e=t=>g(1,x`${[1]}`,/[/}]/,'}',\"}\",#f())": "fail",
        "class @e{constructor(){#throw 1}}": "fail",
        "function @e(){let s=`}${`}`}}`;/*}*/let r=/}/;//}\n#throw 1}": "fail",
        "function @e(){return/}/.test(x)||1/2,#f()/2}": "fail",
        "function @e(){}function t(){#throw 1}": "e",
        "var @e=()=>1,t=function(){#throw 1}": "e",
        "var @e=x;#throw 1": "e",
        "var @e=(1);function t(){#throw 1}": "e",
        "g(@e);#throw 1": "e",
        "functione(@e){#throw 1}": "e",
        "function e@e(){#throw 1}": "e",
        "function @ee(){#throw 1}": "e",
    }
    for form, wanted in forms.items():
        code = form.replace("@", "").replace("#", "")
        start, at = form.index("@"), form.index("#") - 1
        line, column = code[:at].count("\n"), at - (code[:at].rfind("\n") + 1)
        files = {"app.js": code + "\n", "app.js.map": map_of([(0, start, "fail"), (line, column, None)], vlq)}
        found = names(files, trace_of([("e", f"{line + 1}:{column + 1}")]))
        check(found == [wanted], f"{form}: {found}, not {wanted}")
    # What is called at a position is another one, or the token is not right there.
    for changed in (CODE.replace("{e()}", "{x()}"), CODE.replace("{e()}", "{ee()}")):
        files = {**both, "app.js": changed.replace("function e()", "function z()")}
        found = names(files, trace_of(PLACES))
        check(found == ["e", *NAMED[1:]], f"another call: {found}")
    # In each form, and in strings.
    for line, wanted in (
        ("e@app.js:1:14\nt@app.js:2:14\n", "fail@src/a.ts:1:14\nstart@src/a.ts:2:14\n"),
        (" ❯ e app.js:1:14\n", " ❯ fail src/a.ts:1:14\n"),
        ("    at new e (app.js:1:14)\n", "    at new fail (src/a.ts:1:14)\n"),
        ("    at async Object.e [as f] (app.js:1:14)\n", "    at async fail (src/a.ts:1:14)\n"),
        ('{"s":"x\\n    at e (app.js:1:14)\\n    at t (app.js:2:14)"}\n', '{"s":"x\\n    at fail (src/a.ts:1:14)\\n    at start (src/a.ts:2:14)"}\n'),
    ):
        with tempfile.TemporaryDirectory() as folder:
            write(folder, both)
            found = run(["resolve"], folder, line)[1]
            told = run(["resolve", "--json"], folder, line)[1]
        check(found == wanted, f"{line}: {found}, not {wanted}")
        check('"function":"fail"' in told, f"{line}: {told}")


def waiting(run, write, check, vlq, program):
    """A frame that the next line may name is answered at once, if that is not there."""
    with tempfile.TemporaryDirectory() as folder:
        write(folder, {"app.js.map": map_of(TOKENS, vlq)})
        ran = subprocess.Popen([program, "resolve", "--quiet"], cwd=folder, stdin=subprocess.PIPE, stdout=subprocess.PIPE)
        for given, wanted in (
            (b"    at e (app.js:1:14)\n", b"    at e (src/a.ts:1:14)\n"),
            (b"    at e (app.js:1:14)\n    at t (app.js:2:14)\n", b"    at fail (src/a.ts:1:14)\n    at t (src/a.ts:2:14)\n"),
        ):
            ran.stdin.write(given)
            ran.stdin.flush()
            found = b"".join(ran.stdout.readline() for _ in range(wanted.count(b"\n")))
            check(found == wanted, f"{given}: {found}, not {wanted}")
        ran.stdin.close()
        check(ran.wait(20) == 0, "a stream that ends")


def contexts(run, write, check, vlq):
    """Lines of the original: from the map, or from the file in the root; below each frame but in strings."""
    held = map_of(TOKENS, vlq)
    lines = ["one", "function two() { f() }", "three"]
    marked = f">     2 | {lines[1]}\n        | {13 * ' '}^\n"
    shown = f"      1 | one\n{marked}      3 | three\n"
    lacks = "        | (the map has no content of this source, and its file is not in the root: see --root and --outside)\n"
    frame, answer = "    at t (app.js:2:14)\n", "    at start (src/a.ts:2:14)\n"
    with tempfile.TemporaryDirectory() as top:
        folder = f"{top}/here"
        content = "\n".join(lines)
        write(folder, {"app.js": CODE, "app.js.map": held, "out/app.js": CODE, "out/app.js.map": held.replace("src/a.ts", "../../a.ts")})
        write(folder, {"full.js.map": map_of(TOKENS, vlq, sourcesContent=["1\n" + lines[1]])})
        write(top, {"a.ts": content})
        found = run(["resolve", "--context", "1"], folder, frame)[1]
        check(found == answer + lacks, f"no content: {found}")
        write(folder, {"src/a.ts": content})
        for words, given, wanted in (
            (["resolve", "--context", "1"], frame, answer + shown),
            (["resolve", "--context", "1", "--raw"], frame, answer + shown),
            (["resolve", "--context", "1"], '{"s":"    at t (app.js:2:14)"}\n', '{"s":"    at start (src/a.ts:2:14)"}\n'),
            (["resolve", "--context", "1", "--root", "out"], "f@out/app.js:2:14\n", f"f@{os.path.realpath(top)}/a.ts:2:14\n{lacks}"),
            (["resolve", "--context", "1", "--outside"], "f@out/app.js:2:14\n", f"f@{os.path.realpath(top)}/a.ts:2:14\n{shown}"),
            (["trace", "--context", "1", "--one-based", "app.js", "2:14"], "", f"src/a.ts:2:14 fail\n{shown}"),
            (["trace", "--context", "0", "full.js.map", "1:13"], "", "src/a.ts:1:13 fail\n" + marked.replace(" 2 |", " 1 |")),
        ):
            found = run(words, folder, given)[1]
            check(found == wanted, f"{words}: {found!r}, not {wanted!r}")
        # Two maps have each a content of their first source.
        for name in ("first", "second"):
            write(folder, {f"{name}.js.map": map_of(TOKENS, vlq, sourcesContent=[f"{name}'s own line"])})
        found = run(["resolve", "--context", "0"], folder, "f@first.js:1:14\nf@second.js:1:14\nf@first.js:1:14\n")[1]
        check([found.count(f">     1 | {name}'s own line\n") for name in ("first", "second")] == [2, 1], f"contents of two maps: {found}")


def ignored(run, write, check, vlq, program):
    """Sources in an ignore list: left out if that is asked for and their frame is alone in its row; grey on a terminal."""
    with tempfile.TemporaryDirectory() as folder:
        write(folder, {"lib.js": CODE, "lib.js.map": map_of(TOKENS, vlq, ignoreList=[0]), "app.js": CODE, "app.js.map": map_of(TOKENS, vlq)})
        given = "Error: x\n    at e (lib.js:1:14)\nx at e (lib.js:1:14)\n    at t (app.js:2:14)\n"
        kept = "Error: x\nx at fail (src/a.ts:1:14)\n    at start (src/a.ts:2:14)\n"
        found = run(["resolve", "--hide-ignored"], folder, given)
        check(found == (0, kept, "sourcemap: resolve: 3 of 3 frames are resolved\n"), f"hidden: {found}")
        check(run(["resolve", "--quiet"], folder, given) == (0, kept.replace("x\nx", "x\n    at fail (src/a.ts:1:14)\nx"), ""), "--quiet")
        told = [json.loads(it) for it in run(["resolve", "--json", "--hide-ignored"], folder, given)[1].splitlines()]
        marks = [(it.get("ignored"), it.get("hidden"), "resolved" in it) for it in told]
        check(marks == [(None, None, True), (True, True, False), (True, None, True), (None, None, True)], f"objects: {marks}")
        found = run(["resolve", "--hide-ignored", "--explain"], folder, given)[1]
        check("        # lib.js:1:14 is left out, since its map ignores the source\n" in found, f"explained: {found}")
        write(folder, {"two.js.map": json.dumps({"version": 3, "sources": ["a", "b"], "names": [], "mappings": "AAAA,CCAA", "ignoreList": [1]})})
        told = run(["resolve", "--json"], folder, "f@two.js:1:1\nf@two.js:1:2\n")[1].splitlines()
        check(['"ignored":true' in it for it in told] == [False, True], f"the second of two sources: {told}")
        ours, theirs = os.openpty()
        environment = {k: v for k, v in os.environ.items() if k != "NO_COLOR"}
        subprocess.run([program, "resolve", "--quiet"], cwd=folder, input=given.encode(), stdout=theirs, timeout=60, env=environment)
        os.close(theirs)
        found = os.read(ours, 100_000).decode()
        os.close(ours)
        grey, plain = "\x1b[90msrc/a.ts:1:14\x1b[0m", "\x1b[36msrc/a.ts:2:14\x1b[0m"
        check(found.count(grey) == 2 and found.count(plain) == 1, f"colours: {found!r}")


def followed(run, write, check, vlq):
    """Maps of maps: `--follow` answers as the map does that `remap --follow` writes; a cycle is the reason why a frame stays."""
    code = "ab\n//# sourceMappingURL=NAME.map\n"
    outer = json.loads(map_of([(0, 0, None), (0, 1, "x")], vlq))
    files = {f"dist/{name}": code.replace("NAME", Path(name).name) for name in ("c.js", "lib/b.js", "a.js")}
    files |= {"dist/c.js.map": json.dumps({**outer, "sources": ["lib/b.js"]}), "dist/lib/b.js.map": json.dumps({**outer, "sources": ["../a.js"]})}
    with tempfile.TemporaryDirectory() as folder:
        write(folder, {**files, "dist/a.js.map": json.dumps({**outer, "sources": ["../src/a.ts"], "names": ["y"]})})
        run(["remap", "--follow", "dist/c.js", "-o", "dist/all.map"], folder)
        for words in (["--raw"], [], ["--json"]):
            found = run(["trace", "--follow", *words, "dist/c.js", "0:0", "0:1", "1:0"], folder)[:2]
            check(found == run(["trace", *words, "dist/all.map", "0:0", "0:1", "1:0"], folder)[:2], f"--follow {words}: {found}")
        found = run(["trace", "--follow", "dist/c.js", "0:1"], folder)[1]
        check(found == "src/a.ts:0:1 y\n", f"three maps: {found}")
        check(run(["trace", "dist/c.js", "0:1"], folder)[1] == "dist/lib/b.js:0:1 x\n", "without --follow")
        found = run(["resolve", "--follow"], folder, "f@dist/c.js:1:2\n")[1]
        check(found == "f@src/a.ts:1:2\n", f"resolve --follow: {found}")
        status, out, err = run(["remap", "--follow", "dist/a.js"], folder)
        check(status == 0 and "dist/a.js.map: no source of it is there with a map, so none is followed" in err, f"no map to follow: {status}, {err}")
        write(folder, {"dist/a.js.map": json.dumps({**outer, "sources": ["c.js"]})})
        status, out, _ = run(["resolve", "--follow", "--explain"], folder, "f@dist/c.js:1:2\n")
        check(status == 1 and out.startswith("f@dist/c.js:1:2\n") and "a cycle" in out, f"a cycle: {status}, {out}")


def places(run, write, check, vlq):
    """Maps in a folder of their own, by the paths of codes and by their names; and what is no file, which is not waited for."""
    held = map_of(TOKENS, vlq)
    with tempfile.TemporaryDirectory() as folder:
        other = held.replace("src/a.ts", "other.ts")
        write(folder, {"public/js/app.js": CODE, "public/b.js": CODE, "maps/js/app.js.map": held, "maps/app.js.map": other, "maps/b.js.map": held})
        for file in ("js/app.js", "b.js"):
            found = run(["resolve", "--raw", "--maps", "maps", "--root", "public"], folder, f"f@http://h/{file}:1:14\n")[:2]
            check(found == (0, "f@src/a.ts:1:14\n"), f"--maps, {file}: {found}")
        os.mkfifo(f"{folder}/pipe.js")
        os.mkfifo(f"{folder}/app.js.map")
        write(folder, {"app.js": CODE})
        for file in ("pipe.js", "app.js"):
            found = run(["resolve"], folder, f"f@{file}:1:14\n")[:2]
            check(found == (1, f"f@{file}:1:14\n"), f"{file}: {found}")


def tried(run, write, check, vlq, program):
    places(run, write, check, vlq)
    sources(run, write, check, vlq)
    functions(run, write, check, vlq)
    waiting(run, write, check, vlq, program)
    contexts(run, write, check, vlq)
    ignored(run, write, check, vlq, program)
    followed(run, write, check, vlq)
