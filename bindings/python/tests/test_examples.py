"""The examples, with their output compared. The data is that of the examples in C, and of tests/coverage."""

import json
import os
import resource
import subprocess
import sys
import tempfile
import unittest
from pathlib import Path

from support import TOP

import oxc_sourcemap

EXAMPLES = TOP / "bindings/python/examples"
DATA = TOP / "bindings/c/examples"


def ran(name: str, *words: object, given: bytes = b"", folder: Path = TOP) -> bytes:
    """What an example writes."""
    package = Path(oxc_sourcemap.__file__).parents[1]
    env = {**os.environ, "PYTHONPATH": str(package), "PYTHONIOENCODING": "utf-8"}
    command = [sys.executable, str(EXAMPLES / name), *map(str, words)]
    return subprocess.run(command, input=given, stdout=subprocess.PIPE, check=True, env=env, cwd=folder).stdout


class Examples(unittest.TestCase):
    def test_stack(self):
        said = ran("resolve_stack.py", DATA / "stack/maps", given=(DATA / "stack/stack.txt").read_bytes())
        self.assertEqual(said.decode(), (DATA / "stack/resolved.txt").read_text(encoding="utf-8"))

    def test_stack_by_maps_as_they_are_found(self):
        with tempfile.TemporaryDirectory() as room:
            Path(room, "a.js.map").write_text('\ufeff{"version":"3","sources":["a.ts",null],"mappings":"AAEA"}', encoding="utf-8")
            said = ran("resolve_stack.py", room, given=b"    at f (/x/a.js:1:5)\n")
        self.assertEqual(said, b"    at f (a.ts:3:1)\n")

    def test_coverage(self):
        folder = TOP / "tests/coverage"
        said = ran("coverage.py", "bundle.js", "bundle.min.js", folder=folder)
        self.assertEqual(said.decode(), (folder / "covered.txt").read_text(encoding="utf-8"))

    def test_coverage_of_many_functions(self):
        # Each on a line of its own, and every other one does not run. (That takes half a second, and a minute if time grows with the
        # square.)
        count = 8000
        line, ranges = "function f(){}\n", [{"startOffset": 0, "endOffset": 15 * count, "count": 1}]
        ranges += [{"startOffset": 15 * at, "endOffset": 15 * at + 14, "count": at % 2} for at in range(count)]
        map = {"version": 3, "sources": ["a.ts"], "names": [], "mappings": "AAAA" + ";AACA" * (count - 1)}
        with tempfile.TemporaryDirectory() as room:
            for ending, text in (("", line * count), (".map", json.dumps(map)), (".coverage.json", json.dumps({"functions": [{"ranges": ranges}]}))):
                Path(room, "a.js" + ending).write_text(text, encoding="utf-8")
            before = resource.getrusage(resource.RUSAGE_CHILDREN).ru_utime
            said = ran("coverage.py", f"{room}/a.js").decode()
            self.assertLess(resource.getrusage(resource.RUSAGE_CHILDREN).ru_utime - before, 15)
        self.assertEqual(said, f"a.js: 4000 lines ran, 4000 did not\n  a.ts: 4000 lines ran, 4000 did not: {list(range(1, count, 2))}\n")

    def test_bundler(self):
        with tempfile.TemporaryDirectory() as room:
            ran("bundler.py", f"{room}/bundle.js", DATA / "bundle/greet.js", DATA / "bundle/main.js", DATA / "bundle/tail.js")
            for name in ("bundle.js", "bundle.js.map"):
                said, wanted = (Path(it, name).read_text(encoding="utf-8") for it in (room, DATA / "bundle/expected"))
                self.assertEqual(said, wanted)


if __name__ == "__main__":
    unittest.main()
