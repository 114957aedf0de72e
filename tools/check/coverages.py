"""What `sourcemap coverage` prints, beside the reference, which counts each unit by itself. For tools/check/sourcemap."""

import html.parser
import json
import os
import random
import re
import tempfile
from pathlib import Path

DATA = Path(__file__).resolve().parents[2] / "tests/coverage"
CODES = ("bundle.js", "bundle.min.js")
# What random codes are made of.
WORDS = ["f", "g", "f2", "\u00e9", "if", "(", ")", "{", "}", ";", " ", "\n", "\U0001f600", "=>"]


def v8(url, *reports):
    """Reports on one script."""
    return json.dumps({"result": [{"url": url, "functions": functions} for functions in reports]})


def objects(run, words, folder):
    """The objects of a run, by their sources, and its status."""
    status, out, err = run(["coverage", "--json", *words], folder)
    return status, {it["source"]: it for it in map(json.loads, out.splitlines())}, err


def wanted(ref, units, reports, held):
    """What the reference says of each source that has lines."""
    all_lines = [ref.lines_of(units, functions, ref.tokens_by_line(held["mappings"])) for functions in reports]
    called, branches = ref.parts_of(units, reports, held)
    found = {}
    for source, name in enumerate(held["sources"]):
        own = {}
        for (of, line), (ran, _) in sorted(it for lines in all_lines for it in lines.items()):
            if of == source:
                own[line] = own.get(line, 0) + ran
        if own:
            missed = [line + 1 for line, ran in own.items() if not ran]
            found[name] = {
                "source": name,
                "ran": len(own) - len(missed),
                "missed": len(missed),
                "lines": missed,
                "functions": [{"line": k[1] + 1, "count": n, "name": k[3]} for k, n in sorted(called.items()) if k[0] == source],
                "branches": [{"line": k[1] + 1, "count": n} for k, n in sorted(branches.items()) if k[0] == source],
            }
    return found


def of_bundles(run, write, check, ref):
    """Of a bundle, plain and minified. Both have the same functions, by the names of the sources."""
    names = []
    for name in CODES:
        with tempfile.TemporaryDirectory() as folder:
            write(folder, {it: (DATA / it).read_bytes() for it in (name, f"{name}.map")})
            entry = json.loads((DATA / f"{name}.coverage.json").read_text())
            write(folder, {"v8.json": v8(f"file:///somewhere/{name}", entry["functions"])})
            status, told, err = objects(run, ["--prefix", "/somewhere=.", "v8.json"], folder)
            units, held, functions = ref.read(DATA, name)
            hoped = wanted(ref, units, [functions], held)
            check(told == hoped, f"coverage of {name}: {status}, {told}, not {hoped}, {err}")
            names.append({source: it["functions"] for source, it in told.items()})
            page = run(["coverage", "--prefix", "/somewhere=.", "--html", "v8.json"], folder)[1]
            of_page(check, page, held, told)
    check(names[0] == names[1], f"functions of the plain and of the minified bundle: {names}")


class Page(html.parser.HTMLParser):
    """The cells of the rows of a page, by its headings."""

    def __init__(self, page):
        super().__init__()
        self.rows, self.open, self.heading, self.text = {}, [], "", ""
        self.feed(page)

    def handle_starttag(self, tag, attrs):
        self.text = ""
        self.open.append(tag)
        if tag == "tr":
            self.rows.setdefault(self.heading, []).append([])

    def handle_data(self, data):
        self.text += data

    def handle_endtag(self, tag):
        if tag == "h2":
            self.heading = self.text
        elif tag in ("td", "th"):
            self.rows[self.heading][-1].append(self.text)
        while self.open and self.open.pop() != tag:
            pass


def of_page(check, page, held, told):
    """The page has each line of each source, and those that did not run have the count 0; and the functions that did not run."""
    rows = Page(page).rows
    missed = [f"{it['name']} (line {it['line']})" for name in told for it in told[name]["functions"] if not it["count"]]
    found = [it for text in re.findall("<p>Functions that did not run: (.*)</p>", page) for it in text.split(", ")]
    check(found == missed, f"functions on a page: {found}, not {missed}")
    for name, content in zip(held["sources"], held["sourcesContent"]):
        lines = content.removesuffix("\n").split("\n")
        shown = [(int(number), text) for number, _, text in rows.get(name, [])]
        check(shown == [*enumerate(lines, 1)], f"the page of {name}: {shown[:9]}, not {lines[:9]}")
        zeros = [int(number) for number, count, _ in rows.get(name, []) if count == "0"]
        ran = sum(count not in ("", "0") for _, count, _ in rows.get(name, []))
        check((zeros, ran) == (told[name]["lines"], told[name]["ran"]), f"counts on the page of {name}: {zeros}, {ran}")


def nested(chance, places, depth):
    """Ranges in one another: each with those in it, from its start to its end."""
    cuts = sorted(chance.sample(places, min(len(places), 2 * chance.randrange(1, 4)) // 2 * 2))
    for start, end in zip(cuts[::2], cuts[1::2]):
        inner = [it for it in places if start <= it <= end]
        yield (start, end), [*nested(chance, inner, depth - 1)] if depth and len(inner) < len(places) else []


def reports(chance, ranges, functions):
    """Functions with some of the ranges in them as their blocks, and the others as functions."""
    for (start, end), inner in ranges:
        blocks = [it for it in inner if chance.random() < 0.5]
        counts = [{"startOffset": a, "endOffset": b, "count": chance.randrange(3)} for a, b in [(start, end), *(it for it, _ in blocks)]]
        name = chance.choice(["", "f", "g", "f2", "\u00e9"])
        functions.append({"functionName": name, "isBlockCoverage": chance.random() < 0.7, "ranges": counts})
        reports(chance, [it for it in inner if it not in blocks] + [it for _, own in blocks for it in own], functions)
    return functions


def again(chance, function):
    """What V8 might report of a function in another process: without some of its blocks."""
    ranges = [it for number, it in enumerate(function["ranges"]) if number == 0 or chance.random() < 0.6]
    return {**function, "ranges": [{**it, "count": chance.randrange(3)} for it in ranges]}


def random_case(chance, vlq):
    """A code, a map of it and what V8 might report, once or twice."""
    words = chance.choices(WORDS, k=chance.randrange(1, 60))
    code, places = "".join(words), [0]
    for word in words:
        places.append(places[-1] + len(word.encode("utf-16-le")) // 2)
    whole = {"functionName": "", "isBlockCoverage": True, "ranges": [{"startOffset": 0, "endOffset": places[-1], "count": 1}]}
    found = [reports(chance, nested(chance, places, 3), [whole])]
    if chance.random() < 0.5:
        found.append([again(chance, it) for it in found[0]])
    rows, last = [], [0, 0, 0, 0]
    for line in re.split("\n", code):
        column, segments = 0, []
        starts = [len(line[:k].encode("utf-16-le")) // 2 for k in range(len(line) + 1)]
        columns = [chance.choice([*starts, starts[-1] + 1]) for _ in range(chance.randrange(6))]
        # (of two tokens at one column the second is that of the second half of a pair, which is no position)
        for at in sorted(set(columns) if "\U0001f600" in code else columns):
            fields, column = [at - column], at
            if chance.random() < 0.85:
                now = [chance.randrange(2), chance.randrange(5), chance.randrange(9), last[3]]
                if named := chance.random() < 0.5:
                    now[3] = chance.randrange(3)
                fields += [a - b for a, b in zip(now, last)][: 4 if named else 3]
                last = now
            segments.append("".join(map(vlq, fields)))
        rows.append(",".join(segments))
    return code, {"version": 3, "sources": ["s.ts", "t.ts"], "names": ["first", "second", "third"], "mappings": ";".join(rows)}, found


def of_random(run, write, check, ref, vlq):
    """Of 200 random codes."""
    chance = random.Random(73)
    with tempfile.TemporaryDirectory() as folder:
        for _ in range(200):
            code, held, found = random_case(chance, vlq)
            write(folder, {"v.js": code, "v.js.map": json.dumps(held), "v8.json": v8("http://h/v.js", *found)})
            _, told, err = objects(run, ["v8.json"], folder)
            hoped = wanted(ref, ref.units_of(code), found, held)
            check(told == hoped, f"coverage of {code!r}, {held}, {found}: {told}, not {hoped}, {err}")


def of_paths(run, write, check):
    """Sources by URLs and by paths from the root; and many codes without a map."""
    with tempfile.TemporaryDirectory() as folder:
        here = os.path.realpath(folder)
        held = {"version": 3, "sources": [f"file://{here}/src/s.ts", f"{here}/t/../src/t.ts"], "names": [], "mappings": "AAAA,ECAA"}
        write(folder, {"d/v.js": "a;b\n", "d/v.js.map": json.dumps(held)})
        ran = [{"ranges": [{"startOffset": 0, "endOffset": 4, "count": 1}]}]
        write(folder, {"v8.json": v8(f"file://{here}/d/v.js", ran)})
        _, told, _ = objects(run, ["v8.json"], folder)
        check([*told] == ["src/s.ts", "src/t.ts"], f"sources by URLs and paths from the root, in the current folder: {told}")
        write(folder, {f"{k}.js": "x" for k in range(10, 22)})
        write(folder, {"v8.json": json.dumps({"result": [{"url": f"http://h/{k}.js", "functions": []} for k in [*range(10, 22)] * 2]})})
        status, _, err = run(["coverage", "v8.json"], folder)
        told = [f"left out: {k}.js names no map, and {k}.js.map is not there" for k in range(10, 18)]
        told += ["4 more codes are left out", "no line of an original is found in V8's coverage"]
        check((status, err) == (1, "".join(f"sourcemap: {it}\n" for it in told)), f"many codes without a map: {status}, {err}")


def of_hostile_texts(run, write, check):
    """Texts and names of sources and functions are no HTML, and no line of lcov."""
    name, content = "<b>&\".ts", "<script>alert(1)</script>\t\u202e&amp;\r\n]]>"
    held = {"version": 3, "sources": [name], "sourcesContent": [content], "names": [], "mappings": "AAAA"}
    ran = [{"functionName": "f\nDA:9,9", "isBlockCoverage": False, "ranges": [{"startOffset": 0, "endOffset": 4, "count": 1}]}]
    with tempfile.TemporaryDirectory() as folder:
        write(folder, {"v.js": "f()\n", "v.js.map": json.dumps(held), "v8.json": v8("http://h/v.js", ran)})
        page = run(["coverage", "--html", "v8.json"], folder)[1]
        rows = Page(page).rows
        texts = [text for *_, text in rows.get(json.dumps(name), [])]
        check(texts == ["<script>alert(1)</script>\t\\u202e&amp;", "]]>"], f"a page of hostile texts: {page}")
        check("<script" not in page and "<b>" not in page, f"a page with tags of a content: {page}")
        out = run(["coverage", "--lcov", "v8.json"], folder)[1]
        check("FN:1,f\\u000aDA:9,9\n" in out and "\nDA:9,9\n" not in out, f"lcov with a hostile name: {out}")


def of_runs(run, write, check):
    """A function that was called twice, once by each of two processes; the one that took the branch has no block for it (as Node has it)."""
    code = "function f(x){if(x){g()}}\nfunction g(){}\nf(1)\n"
    held = {"version": 3, "sources": ["s.ts"], "names": [], "mappings": "AAAA,mBAAmB;AACA;AACA"}
    block = {"startOffset": 19, "endOffset": 24, "count": 0}
    whole, f = ({"functionName": name, "isBlockCoverage": True, "ranges": [{"startOffset": 0, "endOffset": end, "count": 1}]} for name, end in (("", 46), ("f", 25)))
    taken, not_taken = [whole, f], [whole, {**f, "ranges": [*f["ranges"], block]}]
    with tempfile.TemporaryDirectory() as folder:
        write(folder, {"v.js": code, "v.js.map": json.dumps(held)})
        write(folder, {"out/1.json": v8("http://h/v.js", taken), "out/2.json": v8("http://h/v.js", not_taken)})
        told = objects(run, ["out"], folder)[1]["s.ts"]["branches"]
        check([it["count"] for it in told] == [2, 2, 1], f"a branch that one of two processes took: {told}")
        late = {"offset": {"line": 4294967295, "column": 0}, "map": {**held, "mappings": "AAAA"}}
        write(folder, {"v.js.map": json.dumps({"version": 3, "sections": [late]})})
        status, out, err = run(["coverage", "out"], folder)
        check(status == 1 and out == "no lines\n", f"a map whose tokens are on the last line that there may be: {status}, {out}, {err}")


def of_builds(run, write, check):
    """Codes of other builds are left out; V8 sees no byte order mark of a module, but of a script; a report may lack the whole script."""
    code, held = "function f(x){if(x){g()}}\nf(1)\n", {"version": 3, "sources": ["s.ts"], "names": [], "mappings": "AAAA;AACA"}
    f = {"functionName": "f", "isBlockCoverage": True, "ranges": [{"startOffset": 0, "endOffset": 25, "count": 1}]}

    def whole(end):
        return {"functionName": "", "isBlockCoverage": True, "ranges": [{"startOffset": 0, "endOffset": end, "count": 1}]}

    with tempfile.TemporaryDirectory() as folder:
        write(folder, {"v.js": code, "v.js.map": json.dumps(held)})
        write(folder, {"v8.json": v8("http://h/v.js", [whole(31), f])})
        told = objects(run, ["v8.json"], folder)[1]
        for name, functions in (("a longer code", [whole(30), f]), ("a shorter code", [whole(32), f]), ("one without functions", [whole(25)])):
            write(folder, {"v8.json": v8("http://h/v.js", functions)})
            status, out, err = run(["coverage", "v8.json"], folder)
            end = functions[0]["ranges"][0]["endOffset"]
            why = f"left out: v.js is of another build: V8 saw {end} UTF-16 units, and it has 31"
            check((status, out) == (1, "no lines\n") and why in err, f"{name} than V8 saw: {status}, {out}, {err}")
        write(folder, {"v8.json": v8("http://h/v.js", [f])})
        status, lines, err = objects(run, ["v8.json"], folder)
        check(status == 0 and lines["s.ts"]["functions"] == told["s.ts"]["functions"], f"a report of a function alone: {status}, {lines}, {err}")
        write(folder, {"v.js": f"\ufeff{code}", "v8.json": v8("http://h/v.js", [whole(31), f])})
        found = objects(run, ["v8.json"], folder)[1]
        check(found == told, f"a module with a byte order mark: {found}, not {told}")
        first, second = whole(32), {**f, "ranges": [{**f["ranges"][0], "startOffset": 1, "endOffset": 26}]}
        write(folder, {"v8.json": v8("http://h/v.js", [first, second])})
        found = objects(run, ["v8.json"], folder)[1]
        check(found == told, f"a script with a byte order mark: {found}, not {told}")


def tried(run, write, check, ref, vlq):
    of_runs(run, write, check)
    of_builds(run, write, check)
    of_bundles(run, write, check, ref)
    of_random(run, write, check, ref, vlq)
    of_paths(run, write, check)
    of_hostile_texts(run, write, check)
