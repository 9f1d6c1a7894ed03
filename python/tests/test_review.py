"""The whole way of an access list of 60 lines: to a short table, its dead lines, a change that is reviewed, and back."""
import pathlib
import tempfile
import unittest

import tcam_razor as razor
from tests.calling import PACKAGE, call, with_program

CONFIGURATION = PACKAGE.parent / "examples/edge.conf"


@unittest.skipUnless(CONFIGURATION.exists(), "the package stands by itself")
@with_program
class Review(unittest.TestCase):
    def setUp(self):
        folder = tempfile.TemporaryDirectory()
        self.addCleanup(folder.cleanup)
        self.folder = pathlib.Path(folder.name)
        self.text = CONFIGURATION.read_text()
        self.edge = self.imported("edge", self.text)

    def imported(self, name, text):
        """Imports a configuration as a user does; the path of its list."""
        ended = call("importing", "ios", "--assume", "state=new", "--map", self.folder / f"{name}.map", "-", given=text)
        self.assertEqual(0, ended.returncode, ended.stderr)
        (self.folder / f"{name}.list").write_text(ended.stdout)
        return self.folder / f"{name}.list"

    def test_its_table_is_shorter_than_its_rules(self):
        table = razor.shorten(razor.List.load(self.edge))
        self.assertLess(table.entries, table.rules)
        self.assertIsInstance(razor.cert(razor.List.load(self.edge), table), razor.Certificate)

    def test_lines_that_never_match_first_are_told_by_their_numbers(self):
        states = "".join(f"rule {rule.number} {rule.state}{f' {rule.header}' if rule.header else ''}\n" for rule in razor.audit(razor.List.load(self.edge)))
        told = call("lines", self.folder / "edge.map", given=states).stdout.splitlines()
        # Line 35 permits the web already, line 46 denies secure shell, line 53 permits all ICMP there, and line 56 denies the rest.
        self.assertEqual(["dead  line 37: permit tcp any host 192.0.2.10 eq www", "dead  line 47: permit tcp host 10.20.0.5 any eq 22",
                          "dead  line 54: deny icmp any host 192.0.2.10", "dead  at the end: implicit deny"], [line for line in told if not line.startswith("rule")])

    def test_a_change_that_permits_more_fails_its_review(self):
        wider = self.imported("wider", self.text.replace("range 5000 5010", "range 5000 5020"))
        ended = call("report", "--fail-on", "permits", self.edge, wider)
        self.assertEqual(1, ended.returncode)
        self.assertIn("permits: 10.20.0.0:0 > 0.0.0.0:5011 tcp: deny before, permit now", ended.stderr)
        narrower = self.imported("narrower", self.text.replace("range 5000 5010", "range 5000 5005"))
        self.assertEqual(0, call("report", "--fail-on", "permits", self.edge, narrower).returncode)

    def test_it_goes_back_to_a_configuration(self):
        ended = call("exporting", "ios", "--name", "EDGE-IN", self.edge)
        self.assertEqual(0, ended.returncode, ended.stderr)
        back = self.imported("back", ended.stdout)
        self.assertIsNone(razor.equiv(razor.List.load(self.edge), razor.List.load(back)))


if __name__ == "__main__":
    unittest.main()
