"""The examples in docstrings, and that each public thing has a docstring."""

import ast
import doctest
import importlib
import inspect
import unittest

import support
import oxc_sourcemap
from oxc_sourcemap import CompiledMap, Scopes, SourceMap, SourceMapBuilder, SourceMapJoin

MODULES = ("", "._compiled", "._contents", "._contexts", "._errors", "._finding", "._handle", "._lookups", "._making", "._map", "._stores")
MODULES += ("._scopes", "._texts", "._traces", "._values", ".distributed", ".resolver")


def load_tests(loader: unittest.TestLoader, tests: unittest.TestSuite, pattern: object) -> unittest.TestSuite:
    public = {name: getattr(oxc_sourcemap, name) for name in oxc_sourcemap.__all__}
    for name in MODULES:
        tests.addTests(doctest.DocTestSuite(importlib.import_module(f"oxc_sourcemap{name}"), extraglobs=public))
    return tests


class Docs(unittest.TestCase):
    def test_all_is_described(self):
        for name in oxc_sourcemap.__all__:
            value = getattr(oxc_sourcemap, name)
            self.assertTrue(name == "NO_ID" or value.__doc__, name)
        for type in (CompiledMap, Scopes, SourceMap, SourceMapBuilder, SourceMapJoin):
            for name, value in inspect.getmembers(type):
                if not name.startswith("_"):
                    self.assertIn(">>>", value.__doc__, name)

    def test_all_is_annotated(self):
        python = support.TOP / "bindings/python"
        for path in [python / "backend.py", *(python / "src/oxc_sourcemap").glob("*.py"), *(python / "examples").glob("*.py")]:
            for node in ast.walk(ast.parse(path.read_text(encoding="utf-8"))):
                if isinstance(node, ast.FunctionDef):
                    given = [*node.args.posonlyargs, *node.args.args, *node.args.kwonlyargs, node.args.vararg, node.args.kwarg]
                    bare = [it.arg for it in given if it and it.arg != "self" and it.annotation is None]
                    self.assertEqual((bare, node.returns is None), ([], False), f"{path.name}: {node.name}")

    def test_version(self):
        heading = next(it for it in (support.TOP / "docs/CHANGELOG.md").read_text(encoding="utf-8").splitlines() if it.startswith("## "))
        self.assertEqual(heading, f"## {oxc_sourcemap.__version__}")


if __name__ == "__main__":
    unittest.main()
