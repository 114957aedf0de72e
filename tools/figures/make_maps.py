#!/usr/bin/env python3
"""Makes the maps that tools/compare/run and performance.py read, from packages of Debian 12.

    tools/figures/make_maps.py FOLDER

Needs the commands of the packages esbuild, node-typescript, terser, rollup, sassc and nodejs. The packages in PACKAGES, whose files
are compiled or whose maps are copied, are downloaded with apt-get and unpacked in FOLDER/packages; none is installed.

FOLDER/maps gets the single maps, and maps.json says how each was made. FOLDER/pipelines gets a folder for each pipeline of
pipelines.json, with the code and the map of each step, 1.js and 1.js.map nearest to the sources; no step reads the map of the
step before. FOLDER/modules gets the map of each module of lodash, and modules.json the lines of their codes. FOLDER/bundles
gets a folder for each bundle of modules that tsc compiled: the map of each module, numbered as the source that it is for,
bundle.js with its map, and minified/bundle.js with its map; bundles.json has the files of the modules' maps by their paths.
FOLDER/as-one gets for each bundle what composition alone can do: 1.js.map joins the maps of its modules, one below the other, and
2.js.map is the bundle's, whose sources are one file in the same way.
"""

import glob
import json
import os
import shutil
import subprocess
import sys
from pathlib import Path

sys.path.insert(0, str(Path(__file__).resolve().parents[2] / "tests/reference"))
import peer

PACKAGES = [
    "node-typescript",
    "node-lodash",
    "libjs-three",
    "libjs-pdf",
    "libjs-bootstrap5",
    "libjs-olm",
    "libjs-moment",
    "libjs-jquery",
    "libjs-underscore",
    "node-ampproject-remapping",
    "node-commander",
    "node-terser",
    "phpmyadmin",
]
NODEJS, SCRIPTS = "packages/usr/share/nodejs", "packages/usr/share/javascript"
TYPESCRIPT = f"{NODEJS}/typescript/lib/typescript.js"
LODASH = f"{NODEJS}/lodash-es/lodash.js"
THREE = f"{SCRIPTS}/three/three.module.js"
MOMENT = f"{SCRIPTS}/moment/moment.js"
CODEC = f"{NODEJS}/@jridgewell/sourcemap-codec/dist/sourcemap-codec.mjs"
GEN_MAPPING = f"{NODEJS}/@jridgewell/gen-mapping/dist/gen-mapping.mjs"
COMMANDER = f"{NODEJS}/commander/index.js"
TERSER = f"{NODEJS}/terser/main.js"
THEME = "packages/usr/share/phpmyadmin/themes/pmahomme"
INLINE = ["--sourceMap", "--inlineSources", "--allowJs"]
ESM, NODE, BANNER = ["--bundle", "--format=esm"], ["--bundle", "--platform=node"], "--banner:js=/* three */"

ACCENTS = """// é, ü and 😀 stand before code
export interface Größe { readonly länge: number }
export const größer = (a: Größe, b: Größe): boolean => { const é = "😀 é"; return é.length > 0 && a.länge > b.länge };
export class Liste<T> { constructor(private readonly werte: T[] = []) {} async jede(f: (wert: T) => Promise<void>) {
  for (const wert of this.werte) await f(wert); } }
"""
MAIN = 'import { größer, Liste } from "./accents";\nnew Liste([1, 2]).jede(async (l) => console.log(größer({ länge: l }, { länge: 1 })));\n'


def run(command, **options):
    return subprocess.run(command, check=True, capture_output=True, **options)


def unpack():
    os.makedirs("packages", exist_ok=True)
    for package in PACKAGES:
        if not glob.glob(f"packages/{package}_*.deb"):
            run(["apt-get", "download", package], cwd="packages")
            run(["dpkg-deb", "-x", glob.glob(f"packages/{package}_*.deb")[0], "packages"])


def without_link(code):
    """Removes the comment that names the map, so that the next step does not read that map."""
    lines = open(code, encoding="utf-8", newline="").read().split("\n")
    kept = [line for line in lines if not line.startswith(("//# sourceMappingURL=", "/*# sourceMappingURL="))]
    open(code, "w", encoding="utf-8", newline="").write("\n".join(kept))


def esbuild(options, inputs, code):
    run(["esbuild", *inputs, f"--outfile={code}", "--sourcemap=external", "--log-level=error", *options])


def tsc(options, inputs, code):
    """tsc writes its output also where a type is wrong, and its status then says so."""
    made = f"{code}.d"
    subprocess.run(["tsc", "--skipLibCheck", "--noResolve", "--outDir", made, *options, *inputs], capture_output=True)
    ending = ".d.ts" if "--declarationMap" in options else "js"
    (made_code,) = [path for path in glob.glob(f"{made}/**", recursive=True) if path.endswith(ending)]
    shutil.move(made_code, code)
    shutil.move(f"{made_code}.map", f"{code}.map")
    shutil.rmtree(made)


def terser(options, inputs, code):
    run(["terser", *inputs, "-o", code, *options])


def sassc(options, inputs, code):
    run(["sassc", "-m", *options, *inputs, code])


def make(tool, options, inputs, code):
    """Makes a code and its map, unless an earlier run has."""
    if not os.path.exists(f"{code}.map"):
        print(code, file=sys.stderr)
        tool(options, inputs, code)
        without_link(code)


def over(made, *options):
    """Options of terser for a code whose map it also reads."""
    return ["--source-map", ",".join([*options, f"content=code/{made}.js.map"])]


MADE = [
    ("esbuild-typescript", esbuild, NODE, [TYPESCRIPT]),
    ("esbuild-typescript-min", esbuild, [*NODE, "--minify", "--sources-content=false"], [TYPESCRIPT]),
    ("esbuild-lodash", esbuild, ESM, [LODASH]),
    ("esbuild-lodash-min", esbuild, [*ESM, "--minify", "--charset=utf8"], [LODASH]),
    ("esbuild-three-root", esbuild, [*ESM, "--source-root=https://example.org/source/", "--legal-comments=linked", BANNER], [THREE]),
    ("esbuild-accents", esbuild, ["--bundle", "--format=esm", "--target=es2018"], ["input/main.ts"]),
    ("esbuild-css", esbuild, ["--bundle", "--external:*.png", "--external:*.gif", "--external:*.svg"], [f"{THEME}/css/theme.css"]),
    ("esbuild-css-min", esbuild, ["--minify", "--sources-content=false"], [f"{THEME}/css/theme.css"]),
    ("tsc-plain", tsc, ["--sourceMap", "--target", "es5"], ["input/accents.ts"]),
    ("tsc-inline", tsc, ["--sourceMap", "--inlineSources", "--target", "es2015"], ["input/accents.ts"]),
    ("tsc-roots", tsc, ["--sourceMap", "--sourceRoot", "https://example.org/é/"], ["input/accents.ts"]),
    ("tsc-declaration", tsc, ["--declaration", "--declarationMap"], ["input/accents.ts"]),
    ("tsc-three", tsc, [*INLINE, "--target", "es5"], [THREE]),
    ("terser-three", terser, ["-c", "-m", "--source-map", "includeSources,filename=three.js"], [f"{SCRIPTS}/three/three.js"]),
    ("terser-two-root", terser, ["-m", "--source-map", "root=https://example.org/"], [MOMENT, f"{SCRIPTS}/underscore/underscore.js"]),
    ("terser-over-esbuild-lodash", terser, ["-c", "-m", *over("esbuild-lodash", "includeSources")], ["code/esbuild-lodash.js"]),
    ("terser-over-esbuild-beautified", terser, ["-b", *over("esbuild-lodash-min")], ["code/esbuild-lodash-min.js"]),
    ("terser-over-tsc", terser, ["-c", "-m", "--module", *over("tsc-inline", "includeSources")], ["code/tsc-inline.js"]),
    ("sassc-icons", sassc, ["-t", "compressed"], ["packages/usr/share/phpmyadmin/themes/bootstrap/scss/_icons.scss"]),
]
SHIPPED = [
    ("pdf.js", "libjs-pdf", f"{SCRIPTS}/pdf/build/pdf.js.map"),
    ("pdf.worker", "libjs-pdf", f"{SCRIPTS}/pdf/build/pdf.worker.js.map"),
    ("OpenLayers", "phpmyadmin", "packages/usr/share/phpmyadmin/js/vendor/openlayers/OpenLayers.js.map"),
    ("theme.css", "phpmyadmin", f"{THEME}/css/theme.css.map"),
    ("olm_legacy.min", "libjs-olm", f"{SCRIPTS}/olm/olm_legacy.min.js.map"),
    ("bootstrap.bundle", "libjs-bootstrap5", "packages/usr/share/bootstrap-html/js/bootstrap.bundle.js.map"),
    ("bootstrap.bundle.min", "libjs-bootstrap5", "packages/usr/share/bootstrap-html/js/bootstrap.bundle.min.js.map"),
    ("bootstrap.css", "libjs-bootstrap5", "packages/usr/share/bootstrap-html/css/bootstrap.css.map"),
    ("bootstrap.min.css", "libjs-bootstrap5", "packages/usr/share/bootstrap-html/css/bootstrap.min.css.map"),
    ("trace-mapping", "node-ampproject-remapping", f"{NODEJS}/@jridgewell/trace-mapping/dist/trace-mapping.umd.js.map"),
]
ES5 = ("tsc es5", tsc, [*INLINE, "--target", "es5"])
ESNEXT = ("tsc esnext", tsc, [*INLINE, "--target", "esnext"])
ES2016 = ("esbuild es2016", esbuild, ["--target=es2016"])
BUNDLE = ("esbuild --bundle", esbuild, ["--bundle", "--platform=node", "--format=esm", "--external:acorn"])
MINIFY = ("esbuild --minify", esbuild, ["--minify"])
TERSER_CM = ("terser -c -m", terser, ["-c", "-m", "--module", "--source-map", "includeSources"])
PIPELINES = [
    ("codec-2", CODEC, [ES5, MINIFY]),
    ("codec-3", CODEC, [ES5, MINIFY, TERSER_CM]),
    ("gen-mapping-2", GEN_MAPPING, [ES5, TERSER_CM]),
    ("gen-mapping-5", GEN_MAPPING, [ESNEXT, ES2016, ES5, MINIFY, TERSER_CM]),
    ("commander-3", COMMANDER, [BUNDLE, ES5, TERSER_CM]),
    ("terser-2", TERSER, [BUNDLE, TERSER_CM]),
    ("lodash-2", LODASH, [BUNDLE, MINIFY]),
    ("three-2", THREE, [BUNDLE, TERSER_CM]),
    ("typescript-2", TYPESCRIPT, [BUNDLE, TERSER_CM]),
]

# The modules of a folder, compiled by tsc, and the one that rollup bundles with all that it imports.
BUNDLES = [("lodash", f"{NODEJS}/lodash-es", "lodash.js"), ("terser", f"{NODEJS}/terser", "main.js")]


def edited(name, made, change):
    value = json.load(open(f"maps/{made}.map", encoding="utf-8"))
    change(value)
    json.dump(value, open(f"maps/{name}.map", "w", encoding="utf-8"), ensure_ascii=False, separators=(",", ":"))
    return {"name": name, "tool": "edited", "how": f"{made}: {change.__doc__}"}


def with_google(value):
    "x_google_ignoreList added"
    value["x_google_ignoreList"] = [0]


def with_both(value):
    "ignoreList, x_google_ignoreList, debugId and a null file added"
    value.update({"debugId": "85314830-023f-4cf1-a267-535f4e37bb17", "ignoreList": [0], "x_google_ignoreList": [], "file": None})


def with_some(value):
    "each third content null"
    value["sourcesContent"] = [None if i % 3 == 0 else text for i, text in enumerate(value["sourcesContent"])]


def with_none(value):
    "all contents null, sourceRoot null, an unknown key"
    value.update({"sourcesContent": [None] * len(value["sources"]), "sourceRoot": None, "unknown": [1]})


def make_maps():
    for folder in ["maps", "code", "input"]:
        os.makedirs(folder, exist_ok=True)
    open("input/accents.ts", "w", encoding="utf-8").write(ACCENTS)
    open("input/main.ts", "w", encoding="utf-8").write(MAIN)
    made = []
    for name, tool, options, inputs in MADE:
        ending = ".css" if "css" in name or tool is sassc else ".js"
        make(tool, options, inputs, f"code/{name}{ending}")
        shutil.copy(f"code/{name}{ending}.map", f"maps/{name}.map")
        made.append({"name": name, "tool": tool.__name__, "how": " ".join([*options, *map(os.path.basename, inputs)])})
    for name, package, path in SHIPPED:
        shutil.copy(path, f"maps/{name}.map")
        made.append({"name": name, "tool": package, "how": "as it came in the package"})
    made += [
        edited("edited-google-ignore", "esbuild-three-root", with_google),
        edited("edited-ignore-debugid", "esbuild-three-root", with_both),
        edited("edited-some-content", "esbuild-lodash", with_some),
        edited("edited-no-content", "tsc-inline", with_none),
    ]
    json.dump(made, open("maps.json", "w"), indent=1)


def make_pipelines():
    how = {name: ", ".join(step for step, _, _ in steps) for name, _, steps in PIPELINES}
    json.dump(how, open("pipelines.json", "w"), indent=1)
    for name, source, steps in PIPELINES:
        folder = f"pipelines/{name}"
        os.makedirs(folder, exist_ok=True)
        for k, (_, tool, options) in enumerate(steps, 1):
            make(tool, options, [source], f"{folder}/{k}.js")
            source = f"{folder}/{k}.js"


def make_modules():
    modules = sorted(glob.glob(f"{NODEJS}/lodash-es/[a-z]*.js"))
    run(["esbuild", *modules, "--minify", "--sourcemap=external", "--outdir=modules", "--log-level=error"])
    codes = sorted(glob.glob("modules/*.js"))
    lines = {os.path.basename(code): open(code, encoding="utf-8").read().count("\n") for code in codes}
    json.dump(lines, open("modules.json", "w"), indent=1)


def compile_modules(modules, code):
    """Compiles each module of a folder by itself; without its dependencies, a wrong type is no matter."""
    inputs = sorted(glob.glob(f"{modules}/**/*.js", recursive=True))
    options = [*INLINE, "--target", "es5", "--module", "es2015", "--skipLibCheck", "--noResolve"]
    subprocess.run(["tsc", *options, "--rootDir", modules, "--outDir", code, *inputs], capture_output=True)


def rollup(options, inputs, code):
    run(["rollup", *inputs, "-o", code, "--silent", "--format=es", "--sourcemap", *options])


def make_bundle(folder, modules, entry):
    """Makes a bundle, and returns the files of the maps of its modules by the paths that it has for them."""
    os.makedirs(f"{folder}/minified", exist_ok=True)
    if not os.path.exists(f"{folder}/code"):
        compile_modules(modules, f"{folder}/code")
    make(rollup, [], [f"{folder}/code/{entry}"], f"{folder}/bundle.js")
    make(terser, TERSER_CM[2], [f"{folder}/bundle.js"], f"{folder}/minified/bundle.js")
    paths = json.load(open(f"{folder}/bundle.js.map", encoding="utf-8"))["sources"]
    files = {path: f"{id:03}.js.map" for id, path in enumerate(paths)}
    for path, file in files.items():
        shutil.copy(f"{folder}/{path}.map", f"{folder}/{file}")
    return files


def make_as_one(bundle, folder):
    """Makes the two maps of a bundle over one file, which is all its modules, one below the other."""
    value, tokens = peer.read(json.load(open(f"{bundle}/bundle.js.map", encoding="utf-8")))
    modules = [peer.read(json.load(open(file, encoding="utf-8"))) for file in sorted(glob.glob(f"{bundle}/[0-9]*.js.map"))]
    lines = [module[-1][0] for _, module in modules]
    for token in tokens:
        lines[token[2]] = max(lines[token[2]], token[3])
    starts = [sum(lines[:id]) + id for id in range(len(lines))]
    shifted = [(*token[:2], 0, token[3] + starts[token[2]], *token[4:]) for token in tokens]
    one = {**value, "sources": ["modules.js"], "sourcesContent": [None]}
    os.makedirs(folder, exist_ok=True)
    open(f"{folder}/1.js.map", "w").write(peer.to_text(*peer.join([(*module, start) for module, start in zip(modules, starts)])))
    open(f"{folder}/2.js.map", "w").write(peer.to_text(one, shifted))


def make_bundles():
    made = {name: make_bundle(f"bundles/{name}", modules, entry) for name, modules, entry in BUNDLES}
    json.dump(made, open("bundles.json", "w"), indent=1)
    for name in made:
        make_as_one(f"bundles/{name}", f"as-one/{name}")


def main():
    if len(sys.argv) != 2:
        sys.exit(__doc__)
    os.environ.setdefault("NODE_PATH", "/usr/share/nodejs")  # for a Node that is not Debian's
    os.makedirs(sys.argv[1], exist_ok=True)
    os.chdir(sys.argv[1])
    unpack()
    make_maps()
    make_pipelines()
    make_modules()
    make_bundles()


if __name__ == "__main__":
    main()
