"""Debug ids that `sourcemap debug-id` gives random codes and their maps. For tools/check/sourcemap."""

import hashlib
import json
import random
import subprocess
import tempfile
import uuid
from pathlib import Path

OTHER = str(uuid.UUID(int=7))
# Lines before the last code, and what may follow that.
LINES = ["f();", "", "  ", "// c", "/* c */", "`", '"\\', f"//# debugId={OTHER}", "//# debugId=7 ", "f(); //# sourceMappingURL=y.map", "/*"]
LAST = ["", "END//# sourceMappingURL=NAME.map", "END /*# sourceMappingURL=NAME.map */ ", "//@ sourceMappingURL=NAME.map"]
MEMBERS = {"version": 3, "sources": ['}\\"'], "names": [], "mappings": "AAAA", "x": {"debugId": [OTHER]}}


def made_of(text):
    """The debug id that is made for the text of a map."""
    made = bytearray(hashlib.sha256(text.encode()).digest()[:16])
    made[6], made[8] = made[6] & 15 | 128, made[8] & 63 | 128
    return str(uuid.UUID(bytes=bytes(made)))


def random_code(chance, name):
    """A code, and how much of it is up to the end of its last code."""
    end = chance.choice(["\n", "\r\n", "\r", "\u2028"])
    code = end.join([*chance.choices(LINES, k=chance.randrange(5)), "f();"])
    return code + chance.choice(LAST).replace("END", end).replace("NAME", name) + end * chance.randrange(3), len(code)


def random_map(chance):
    members = chance.sample([*MEMBERS.items()], len(MEMBERS))
    text = json.dumps(dict(members), indent=chance.choice([None, 1]))
    return chance.choice(["", ")]}'\n"]) + text + chance.choice(["", "\n"])


def without(code, comment):
    """What a code may have been before a comment came on a line of its own."""
    front, _, back = code.rpartition(comment)
    for end in ("\n", "\r\n"):
        yield from (it + back.removeprefix(end) for it in (front, front.removesuffix(end)) if back.startswith(end))


def held(folder):
    """The text of each file of a folder."""
    return {it.name: it.read_bytes().decode() for it in Path(folder).iterdir()}


def written(run, check, full):
    """Where the code cannot be written, its map stays; and `check` compares the debug ids of a code and of its compiled map."""
    with tempfile.TemporaryDirectory() as folder:
        Path(folder, "a.js").write_text("x" * 5000 + f"\n//# debugId={OTHER}")
        Path(folder, "a.js.map").write_text(json.dumps({**MEMBERS, "debugId": str(uuid.UUID(int=8))}))
        run(["compile", "a.js.map"], folder)
        found = run(["check", "a.js.map.smc"], folder)
        check(found[0] == 1 and f"the code has the debug id {OTHER}, and the map " in found[1], f"debug ids of a compiled map: {found}")
        Path(folder, "a.js.map.smc").unlink()
        Path(folder, "a.js.map").write_text(json.dumps(MEMBERS))
        Path(folder, "a.js").write_text("x" * 5000)
        was = held(folder)
        found = run(["debug-id", "--inject", "a.js"], folder, preexec_fn=full)
        check(found[0] == 2 and held(folder) == was, f"a full disk: {found}, {[*held(folder)]}")


def tried(run, check, full):
    """Gives 300 codes and maps debug ids: all that was there stays, no code moves, and a second time nothing changes."""
    written(run, check, full)
    chance, names = random.Random(49), [f"c{k}.js" for k in range(300)]
    codes = {name: random_code(chance, name) for name in names}
    maps = {name: random_map(chance) for name in names}
    with tempfile.TemporaryDirectory() as folder:
        for name in names:
            Path(folder, name).write_bytes(codes[name][0].encode())
            Path(folder, f"{name}.map").write_bytes(maps[name].encode())
        status, out, err = run(["debug-id", "--inject", *names], folder)
        check(status == 0 and out.count("\n") == len(names), f"debug ids of {len(names)} codes: {status}, {err[:300]}")
        found = held(folder)
        for name in names:
            (code, end), made, text = codes[name], made_of(maps[name]), found[f"{name}.map"]
            was = code in without(found[name], f"//# debugId={made}") and found[name].startswith(code[:end])
            check(was, f"a debug id in {code!r}: {found[name]!r}")
            read = json.loads(text[text.index("{") :])
            was = text.replace(f',"debugId":"{made}"', "") == maps[name] and read == {**MEMBERS, "debugId": made}
            check(was, f"a debug id in {maps[name]!r}: {text!r}")
        check(run(["debug-id", *names], folder)[0] == 0, "debug ids that were injected are the same")
        status = run(["debug-id", "--inject", "--force", *names], folder)[0]
        check((status, held(folder)) == (0, found), f"debug ids a second time: {status}")


def answers(program, folder, lines):
    """Starts `resolve` on a log in a folder, whose maps are named by debug ids, and answers each line that it is given with what it prints."""
    words = [program, "resolve", "--maps", "maps", "--debug-id-map", "ids.json"]
    pipes = {"stdin": subprocess.PIPE, "stdout": subprocess.PIPE, "stderr": subprocess.DEVNULL}
    with subprocess.Popen(words, cwd=folder, text=True, bufsize=1, **pipes) as ran:
        for line in lines:
            ran.stdin.write(line)
            ran.stdin.flush()
            yield ran.stdout.readline()


def followed(program, check):
    """In a log that is followed, a map that was replaced, or moved, since the maps were listed is found by its id all the same."""
    ids = [str(uuid.UUID(int=k, version=4)) for k in range(4)]

    def put(name, source, number):
        held = {"version": 3, "sources": [source], "names": [], "mappings": "AAAA", "debugId": ids[number]}
        Path(folder, "maps", name).write_text(json.dumps(held))

    with tempfile.TemporaryDirectory() as folder:
        Path(folder, "maps").mkdir()
        Path(folder, "ids.json").write_text(json.dumps({f"http://h/{k}.js": ids[k] for k in range(3)}))
        for number, name in enumerate(("one.map", "two.map", "three.map")):
            put(name, f"{number}.ts", number)
        told = answers(program, folder, [f"    at f (http://h/{k}.js:1:1)\n" for k in range(3)])
        check("0.ts" in (line := next(told)), f"a map by its debug id: {line}")
        put("two.map", "wrong.ts", 3)
        put("four.map", "1.ts", 1)
        check("1.ts" in (line := next(told)), f"a map that was replaced, whose id is of another: {line}")
        Path(folder, "maps/three.map").rename(Path(folder, "maps/five.map"))
        check("2.ts" in (line := next(told)), f"a map that was moved: {line}")
        told.close()
