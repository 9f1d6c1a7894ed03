"""The launchers of a clone: where RAZOR names no program, they run the one that is built of its sources."""
import os
import pathlib
import shutil
import subprocess
import tempfile
import unittest

from tests.calling import PACKAGE, with_program
from tests.test_program import LAB, OFFICE

TOOLS = PACKAGE.parent / "tools"
CALLS = {"razor-export": ["ios", "old.list"], "razor-json": ["equiv", "old.list", "new.list"], "report": ["--fail-on", "any", "old.list", "new.list"]}


@unittest.skipUnless(TOOLS.exists(), "the package stands by itself")
@with_program
class Launchers(unittest.TestCase):
    def setUp(self):
        folder = tempfile.TemporaryDirectory()
        self.addCleanup(folder.cleanup)
        self.folder = pathlib.Path(folder.name)
        for source in (TOOLS, PACKAGE / "tcam_razor"):
            shutil.copytree(source, self.folder / source.relative_to(PACKAGE.parent), ignore=shutil.ignore_patterns("__pycache__"))
        (self.folder / "old.list").write_text(LAB.text)
        (self.folder / "new.list").write_text(OFFICE.text)

    def ended(self, name, building):
        """How a launcher ends where this script stands for the one that builds a program."""
        (self.folder / "tools/program").write_text(f"#!/bin/sh\n{building}\n")
        environment = {key: value for key, value in os.environ.items() if key != "RAZOR"}
        return subprocess.run([self.folder / "tools" / name, *CALLS[name]], cwd=self.folder, env=environment, capture_output=True, text=True)

    def test_the_program_of_the_clone_is_run(self):
        program = shutil.which(os.environ.get("RAZOR", "razor"))
        for name, status in (("razor-export", 0), ("razor-json", 1), ("report", 1)):
            with self.subTest(name=name):
                ended = self.ended(name, f"echo '{program}'")
                self.assertEqual((status, True), (ended.returncode, bool(ended.stdout)), ended.stderr)

    def test_what_cant_be_built_has_its_own_words(self):
        for name in CALLS:
            with self.subTest(name=name):
                ended = self.ended(name, "echo 'no rt' >&2; exit 127")
                self.assertEqual((127, "", "no rt\n"), (ended.returncode, ended.stdout, ended.stderr))


if __name__ == "__main__":
    unittest.main()
