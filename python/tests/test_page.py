"""The page about configurations: its commands run as they stand, and write what it shows; and the manual has all their options."""
import os
import pathlib
import re
import subprocess
import tempfile
import unittest

from tests.calling import PACKAGE, call, with_program
from tests.test_exporting import with_nft

ROOT = PACKAGE.parent
PAGE = ROOT / "docs/CONFIGURATIONS.md"
EXAMPLE = re.compile(r"```sh\n(.*?)```\n\n```text\n(.*?)```", re.DOTALL)


MANUAL = ROOT / "docs/man/razor-import.1"
CALLS = (["importing"], ["exporting"], ["lines"], ["data", "equiv"], ["data", "audit"], ["judge"])


@unittest.skipUnless(MANUAL.exists(), "the package stands by itself")
class Manual(unittest.TestCase):
    def test_it_has_the_options_of_all_commands(self):
        helped = "".join(call(*words, "--help").stdout for words in CALLS)
        options = set(re.findall(r"(?<![\w-])--([a-z]+)", helped)) - {"help"}
        self.assertEqual(options, set(re.findall(r"^\.It Fl -([a-z]+)", MANUAL.read_text(), re.MULTILINE)))


@unittest.skipUnless(PAGE.exists(), "the package stands by itself")
@with_program
class Page(unittest.TestCase):
    def expect(self, number):
        commands, shown = EXAMPLE.findall(PAGE.read_text())[number]
        with tempfile.TemporaryDirectory() as folder:
            for name in ("examples", "python", "tools"):
                pathlib.Path(folder, name).symlink_to(ROOT / name)
            pathlib.Path(folder, "razor").symlink_to(pathlib.Path(os.environ["RAZOR"]).resolve())
            ended = subprocess.run(["bash", "-e", "-o", "pipefail", "-c", commands.replace("./razor equiv", "! ./razor equiv")], cwd=folder, capture_output=True, text=True)
        self.assertEqual((0, shown), (ended.returncode, ended.stdout), ended.stderr)

    def test_an_access_list_of_ios(self):
        self.expect(0)

    def test_calls_from_python(self):
        self.expect(2)

    @with_nft
    def test_a_chain_of_nftables(self):
        self.expect(1)


if __name__ == "__main__":
    unittest.main()
