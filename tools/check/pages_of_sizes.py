"""Pages of `sourcemap size -o`: what each is to show of data that is made here, and what the program puts into them. For tools/check/page."""

import base64
import gzip
import json
import os
import shutil
import subprocess
import tempfile
from pathlib import Path

TOP = Path(__file__).resolve().parents[2]
MARK = "{{data}}"


def part(name, count, of, parts=0):
    """What is said of a part."""
    inside = f", in {parts} part{'' if parts == 1 else 's'}" if parts else ""
    return f"{name}: {count:,} byte{'' if count == 1 else 's'}, {1000 * count // of / 10:.1f} %{inside}"


def data_of(by, sizes, **others):
    """Data as the program puts it into a page: of names and kinds their bytes."""
    all_bytes = others.pop("of", None) or sum(sizes.values()) + sum(others.values())
    rows = [({"kind": by, "name": name}, count) for name, count in sizes.items()] + [({"kind": kind}, it) for kind, it in others.items()]
    rows.sort(key=lambda it: -it[1])
    return {"by": by, "bytes": all_bytes, "sizes": [{**names, "bytes": count, "of": all_bytes} for names, count in rows]}


def rows_of(data):
    """The rows of the table, as their texts."""
    names = [it.get("name", f"[{it['kind']}]") for it in data["sizes"]]
    return "|".join(f"{name}{it['bytes']:,}{1000 * it['bytes'] // data['bytes'] / 10:.1f} %" for name, it in zip(names, data["sizes"]))


def told(program, sourcemap, code, folder, names):
    """What the program tells of a code, as a page of `page` has it: `names` are the page's of sources, in the order of the map."""
    _, out, _ = sourcemap.run(program, ["size", "--json", code], folder)
    found, order = [json.loads(it) for it in out.splitlines()], [*names, None]
    found.sort(key=lambda it: (-it["bytes"], order.index(it.get("name"))))
    sizes = [{**it, **({"name": names[it["name"]]} if "name" in it else {})} for it in found]
    return {"bytes": found[0]["of"], "sizes": sizes}


def real(program, sourcemap, template, folder):
    """Writes the page of a real code. Gives what is to be done with it: its sizes are opened by keys, and sources chosen in them."""
    top, code = TOP / "tests/real-maps", "esbuild-min/main.js"
    sourcemap.run(program, ["page", code, "--template", template, "-o", str(Path(folder, "real.html"))], top)
    found = json.loads(Path(top, f"{code}.map").read_text())
    contents = dict(zip(found["sources"], found["sourcesContent"]))
    data = told(program, sourcemap, code, top, {it.removeprefix("../"): it for it in found["sources"]})
    of, unmapped = data["bytes"], next(it["bytes"] for it in data["sizes"] if "name" not in it)
    named = [it for it in data["sizes"] if "name" in it]
    parts = [part(it["name"], it["bytes"], of) for it in named]
    outer = [part("../sources/", of - unmapped, of, len(named)), part("[unmapped]", unmapped, of)]

    def shows(number):
        name = named[number]["name"]
        return {"option": name, "begin": contents[name].split("\n")[0][:20], "focus": parts[number], "answer": f"Source: {name}"}

    whole = {"rows": rows_of(data), "sum": f"total{of:,}100.0 %", "path": "All", "parts": "|".join(outer)}
    steps = [
        {"wants": {"rows": "", "sum": "", "parts": "", "focus": "code"}},
        {"key": "Tab", "shift": True, "wants": {"focus": "Sizes"}},
        {"key": "Enter", "wants": {**whole, "focus": "Sizes", "said": part("All", of, of, 2)}},
        {"click": ["../sources/"], "wants": {"parts": "|".join(parts), "path": "All|../sources/", "focus": parts[0]}},
        {"key": "End", "wants": {"focus": parts[-1]}},
        {"key": "Enter", "wants": shows(-1)},
        {"click": [named[0]["name"].removeprefix("../sources/")], "wants": shows(0)},
        {"key": "ArrowRight"},
        {"key": "Enter", "wants": shows(1)},
        {"key": "Escape", "wants": {**whole, "focus": outer[0]}},
        {"key": "End", "wants": {"focus": outer[1]}},
        {"key": "Enter", "wants": {**whole, **shows(1), "focus": outer[1]}},
        {"key": "Home"},
        {"key": "Enter", "wants": {**shows(1), "focus": parts[0], "rows": whole["rows"]}},
    ]
    return {"page": "real.html", "probe": "sides", "steps": steps}


def sources():
    """Sources in folders, one of them in folders that have nothing else; every key, and the mouse."""
    sizes = {"src/a.ts": 4000, "node_modules/x/lib/i.js": 2000, "src/b.ts": 1000, "node_modules/y/i.js": 1000, "webpack:///./w.js": 500}
    data = data_of("source", sizes, unmapped=1500)
    src, modules, lib = part("src/", 5000, 10000, 2), part("node_modules/", 3000, 10000, 2), part("node_modules/x/lib/", 2000, 10000, 1)
    unmapped, pack = part("[unmapped]", 1500, 10000), part("webpack:///", 500, 10000, 1)
    a, b = part("src/a.ts", 4000, 10000), part("src/b.ts", 1000, 10000)
    whole = {"parts": "|".join([src, modules, unmapped, pack]), "path": "All"}
    first = {"said": part("All", 10000, 10000, 4), "rows": rows_of(data), "sum": "total10,000100.0 %", "title": "Bytes by source", "inside": 7}
    legend = "Sky blue: src/, 50.0 %|Orange: node_modules/, 30.0 %|Hatched: [unmapped], 15.0 %|Yellow: webpack:///, 5.0 %"
    steps = [
        {"wants": {**whole, **first, "legend": legend, "chosen": 0}},
        {"key": "Tab", "wants": {"focus": "All"}},
        {"key": "Tab", "wants": {"focus": src, "said": src}},
        {"key": "ArrowLeft", "wants": {"focus": src}},
        {"key": "ArrowRight", "wants": {"focus": modules, "said": modules, "chosen": 1}},
        {"key": "End", "wants": {"focus": pack}},
        {"key": "ArrowDown", "wants": {"focus": pack}},
        {"key": "ArrowUp", "wants": {"focus": unmapped}},
        {"key": "Home", "wants": {"focus": src}},
        {"key": "Enter", "wants": {"parts": f"{a}|{b}", "focus": a, "said": a, "path": "All|src/", "rows": first["rows"]}},
        {"key": "Enter", "wants": {"parts": f"{a}|{b}", "focus": a}},
        {"key": "ArrowRight", "wants": {"focus": b}},
        {"key": "Escape", "wants": {**whole, "focus": src}},
        {"key": "Escape", "wants": {**whole, "focus": src}},
        {"key": "ArrowDown", "wants": {"focus": modules}},
        {"key": "Enter", "wants": {"parts": f"{lib}|{part('node_modules/y/', 1000, 10000, 1)}", "focus": lib}},
        {"key": "Enter", "wants": {"path": "All|node_modules/|x/lib/", "focus": part("node_modules/x/lib/i.js", 2000, 10000)}},
        {"key": "Backspace", "wants": {"focus": lib, "path": "All|node_modules/"}},
        {"key": "Backspace", "wants": {**whole, "focus": modules}},
        {"hover": ["[unmapped]"], "wants": {"said": unmapped}},
        {"hover": ["b.ts"], "wants": {"said": b}},
        {"click": ["[unmapped]"], "wants": {**whole, "focus": unmapped, "chosen": 2}},
        {"click": ["b.ts"], "wants": {"parts": f"{a}|{b}", "focus": a}},
        {"key": "Tab", "shift": True, "wants": {"focus": "src/"}},
        {"key": "Tab", "shift": True, "wants": {"focus": "All"}},
        {"key": "Enter", "wants": whole},
    ]
    return data, steps


def hostile():
    """Names that HTML would take for its own, that turn the text around them, or that objects have."""
    image = "<img src=x onerror=alert(1)>"
    sizes = {image: 600, "</b><i>.ts": 300, "a\u202eb\u0007.ts": 200, "[unmapped]": 150, "constructor": 100, "__proto__": 50}
    data = data_of("source", sizes, unmapped=100)
    names = {"a\u202eb\u0007.ts": "a\\u202eb\\u0007.ts"}
    told = {**data, "sizes": [{**it, **({"name": names.get(it["name"], it["name"])} if "name" in it else {})} for it in data["sizes"]]}
    parts = [part("</", 300, 1500, 1) if "</" in it.get("name", "") else part(it.get("name", "[unmapped]"), it["bytes"], 1500) for it in told["sizes"]]
    steps = [
        {"wants": {"parts": "|".join(parts), "rows": rows_of(told)}},
        {"hover": [image], "wants": {"said": part(image, 600, 1500)}},
        {"hover": ["</"], "wants": {"said": part("</", 300, 1500, 1)}},
        {"click": ["</"], "wants": {"parts": part("</b><i>.ts", 300, 1500), "labels": "b><i>.ts|300 bytes|20.0 %", "path": "All|</"}},
    ]
    return data, steps


def folders():
    """Folders, each with the bytes of those in it."""
    deep = "node_modules/x/node_modules/"
    sizes = {"./": 16, "src/": 6, "my_node_modules/": 5, "my_node_modules/z/": 5, "node_modules/": 5, "node_modules/x/": 5}
    sizes |= {f"webpack:///{it}": 4 for it in ("", "./node_modules/", "./node_modules/x/")}
    data = data_of("folder", sizes | {f"{deep}{it}": 3 for it in ("", "@s/", "@s/y/", "@s/y/lib/")}, of=20)
    here, pack = part("./", 16, 20, 3), part("webpack:///./node_modules/", 4, 20, 1)
    inner = [part("src/", 6, 20), part("my_node_modules/", 5, 20, 1), part("node_modules/x/", 5, 20, 2)]
    steps = [
        {"wants": {"parts": f"{here}|{pack}", "rows": rows_of(data), "sum": "total20100.0 %", "title": "Bytes by folder"}},
        {"click": ["./"], "wants": {"parts": "|".join(inner), "focus": inner[0]}},
        {"click": ["node_modules/x/"], "wants": {"parts": f"{part(f'{deep}@s/y/', 3, 20, 1)}|{part('files in node_modules/x/', 2, 20)}"}},
        {"key": "Escape", "wants": {"focus": inner[2]}},
    ]
    return data, steps


def above():
    """Folders above the current one."""
    data = data_of("folder", {"../../": 10, "../": 8, "./": 5, "../../lib/": 2}, of=10)
    steps = [
        {"wants": {"parts": part("../../", 10, 10, 2)}},
        {"click": ["../../"], "wants": {"parts": f"{part('../', 8, 10, 2)}|{part('../../lib/', 2, 10)}"}},
        {"click": ["../"], "wants": {"parts": f"{part('./', 5, 10)}|{part('files in ../', 3, 10)}", "path": "All|../../|../"}},
    ]
    return data, steps


def packages():
    data = {**data_of("package", {"x": 6, "@s/y": 3}, own=11), "gzip": True}
    labels = "[own]|11 bytes|55.0 %|x|6 bytes|30.0 %|@s/y|3 bytes|15.0 %"
    parts = "|".join([part("[own]", 11, 20), part("x", 6, 20), part("@s/y", 3, 20)])
    return data, [{"wants": {"parts": parts, "labels": labels, "rows": rows_of(data), "title": "Gzipped bytes by package"}}]


def many():
    """3,000 sources in 40 folders, and a path of a thousand folders."""
    sizes = {f"d{i}/s{j}.ts": 10 + i * (j % 7) for i in range(40) for j in range(75)}
    sizes = dict(sorted(sizes.items(), key=lambda it: -it[1])) | {f"{'a/' * 1000}z": 9}
    data, of = data_of("source", sizes), sum(sizes.values())
    greatest = part("d39/", sum(it for name, it in sizes.items() if name.startswith("d39/")), of, 75)
    steps = [
        {"wants": {"said": part("All", of, of, 41), "rows": rows_of(data)}},
        {"click": ["d39/"], "wants": {"path": "All|d39/"}},
        {"key": "Escape", "wants": {"focus": greatest}},
    ]
    return data, steps


def empty():
    data = data_of("source", {})
    return data, [{"wants": {"said": "There are no bytes to show.", "parts": "", "rows": "", "sum": "total00.0 %"}}]


BOOK = {"sources": sources, "hostile": hostile, "folders": folders, "above": above, "packages": packages, "many": many, "empty": empty}


def template_beside(template, folder):
    """The template of these pages: beside that of the other ones, or else, with Node, made anew. None without either."""
    beside, made = Path(template).with_name("size.html"), Path(folder, "template.html")
    if not beside.exists() and shutil.which("node"):
        subprocess.run([TOP / "bindings/wasm/page/build", made], check=True)
        return made
    return beside if beside.exists() else None


def cases(template, folder):
    """Writes the pages. Gives what is to be done with each: with the first in each look, with the others in one, by turns."""
    text, found = template.read_text(), []
    for number, (name, make) in enumerate(BOOK.items()):
        data, steps = make()
        page = text.replace(MARK, base64.b64encode(json.dumps(data).encode()).decode())
        Path(folder, f"size-{name}.html").write_text(page)
        looks = {"looks": [number % 6]} if number else {}
        found.append({"page": f"size-{name}.html", "probe": "areas", "steps": steps, **looks})
    return found


def environment(variable=None):
    """That of a run, in which a variable names the template, or none does."""
    clean = {name: it for name, it in os.environ.items() if name != "SOURCEMAP_SIZE"}
    return {**clean, "SOURCEMAP_SIZE": variable} if variable else clean


def tried(program, sourcemap, tally):
    """Where the program finds the template, and what it puts into it: what it prints as objects."""
    codes = [str(TOP / "tests/real-maps" / it) for it in ("esbuild/main.js", "rollup/main.js")]
    with tempfile.TemporaryDirectory() as folder:
        sourcemap.write(folder, {"t.html": f"a{MARK}b", "bin/x": "", "share/sourcemap/size.html": f"beside{MARK}"})
        for by in ("source", "folder", "package"):
            words = ["size", "--by", by, *codes]
            sizes = [json.loads(it) for it in sourcemap.run(program, [*words, "--json"], folder)[1].splitlines()]
            status, page, err = sourcemap.run(program, [*words, "-o", "-"], folder, env=environment(str(Path(folder, "t.html"))))
            found = json.loads(base64.b64decode(page[1:-1])) if status == 0 else err
            tally.check(found == {"by": by, "bytes": sizes[0]["of"], "sizes": sizes}, f"the page of sizes by {by}: {status}, {str(found)[:300]}")
        files = {"c.js": "ab", "c.js.gz": gzip.compress(b"ab"), "c.js.map": '{"version":3,"sources":["s"],"names":[],"mappings":"AAAA"}'}
        sourcemap.write(folder, files)
        _, page, err = sourcemap.run(program, ["size", "--gzip", "c.js", "--template", "t.html", "-o", "-"], folder)
        found, of = json.loads(base64.b64decode(page[1:-1]) or b"{}"), len(files["c.js.gz"])
        wanted = {"by": "source", "bytes": of, "gzip": True, "sizes": [{"kind": "source", "name": "s", "bytes": of, "of": of}]}
        tally.check(found == wanted, f"the page of a gzip file: {found}, {err}")
        status, _, err = sourcemap.run(program, [*words, "-o", "o.html"], folder, env=environment())
        wanted = "share/sourcemap/size.html: the template of pages is not there: name it by --template or SOURCEMAP_SIZE"
        tally.check(status == 2 and wanted in err and not Path(folder, "o.html").exists(), f"no template of sizes: {status}, {err}")
        shutil.copy(program, Path(folder, "bin/sourcemap"))
        status, page, err = sourcemap.run(Path(folder, "bin/sourcemap"), [*words, "-o", "-"], folder, env=environment())
        tally.check(status == 0 and page.startswith("beside"), f"the template of sizes beside the program: {status}, {err}")
