"""The program of a wheel, as a script of the shell stands in its place; a wheel without it says so."""

import os
import subprocess
import sys
import tempfile
import unittest
import zipfile
from pathlib import Path

from support import TOP

from oxc_sourcemap import _library

BACKEND = TOP / "bindings/python/backend.py"
SCRIPT = '#!/bin/sh\necho "$# $2 $SOURCEMAP_PAGE $SOURCEMAP_SIZE"\nexit 7\n'
LIBRARY = str(Path(_library.__file__).with_name("liboxc_sourcemap.so"))


def without(*names: str) -> dict[str, str]:
    return {name: it for name, it in os.environ.items() if name not in names}


class Program(unittest.TestCase):
    def setUp(self):
        room = tempfile.TemporaryDirectory()
        self.addCleanup(room.cleanup)
        self.room = Path(room.name)

    def made(self, **named: str) -> zipfile.ZipFile:
        """A wheel over the library of this one, and its files in the room, as installers leave them."""
        if not Path(LIBRARY).is_file():
            self.skipTest("the library is not that of a wheel")
        environment = {**without("OXC_SOURCEMAP_PROGRAM", "OXC_SOURCEMAP_PAGE", "OXC_SOURCEMAP_SIZE"), "OXC_SOURCEMAP_LIB": LIBRARY, "OXC_SOURCEMAP_CC": "", **named}
        said = subprocess.run([sys.executable, BACKEND, self.room], env=environment, check=True, capture_output=True, text=True).stdout
        wheel = zipfile.ZipFile(self.room / said.strip())
        self.addCleanup(wheel.close)
        for it in wheel.infolist():
            os.chmod(wheel.extract(it, self.room), it.external_attr >> 16)
        return wheel

    def ran(self, *words: str, **more: str) -> "subprocess.CompletedProcess[str]":
        environment = {**without("SOURCEMAP_PAGE", "SOURCEMAP_SIZE", "OXC_SOURCEMAP_LIB"), "PYTHONPATH": str(self.room), "PYTHONDONTWRITEBYTECODE": "1", **more}
        return subprocess.run([sys.executable, "-m", "oxc_sourcemap", *words], env=environment, capture_output=True, text=True)

    def test_with_a_program_and_templates(self):
        program, page = self.room / "it", self.room / "it.html"
        program.write_text(SCRIPT)
        page.write_text("page")
        wheel = self.made(OXC_SOURCEMAP_PROGRAM=str(program), OXC_SOURCEMAP_PAGE=str(page), OXC_SOURCEMAP_SIZE=str(page))
        ran, inside = self.ran("a", "b c"), self.room.resolve() / "oxc_sourcemap"
        self.assertEqual((ran.returncode, ran.stdout), (7, f"2 b c {inside}/page.html {inside}/size.html\n"))
        self.assertEqual(self.ran("a", "b", SOURCEMAP_PAGE="mine.html").stdout, f"2 b mine.html {inside}/size.html\n")
        points = next(it for it in wheel.namelist() if it.endswith(".dist-info/entry_points.txt"))
        self.assertIn("[console_scripts]\nsourcemap = oxc_sourcemap.__main__:main\n", wheel.read(points).decode())

    def test_without_a_program(self):
        wheel = self.made()
        self.assertFalse([it for it in wheel.namelist() if it.endswith(("entry_points.txt", "/sourcemap", ".html"))])
        ran = self.ran("--version")
        self.assertEqual((ran.returncode, ran.stdout), (1, ""))
        self.assertRegex(ran.stderr, r"^oxc_sourcemap: the program sourcemap is in the wheel for Linux on x86-64 alone(.|\n)*SourceMap")

    def test_a_program_that_does_not_run(self):
        program = self.room / "it"
        program.write_text("#!/nowhere/loader\n")
        self.made(OXC_SOURCEMAP_PROGRAM=str(program))
        ran = self.ran("--version")
        self.assertEqual(ran.returncode, 1)
        self.assertRegex(ran.stderr, r"does not run on this machine \(No such file or directory\)\.")


if __name__ == "__main__":
    unittest.main()
