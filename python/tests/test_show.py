"""The script that shows texts, and what decides a header."""
import pathlib
import tempfile
import unittest

from tests.calling import call
from tests.test_texts import TABLE

LIST = "# lab\n@10.0.0.0/8 0.0.0.0/0 0 : 65535 22 : 22 0x06/0xFF deny\n@0.0.0.0/0 0.0.0.0/0 0 : 65535 0 : 65535 0x00/0x00\n"
HEADER = ("10.0.0.1", "192.168.1.5", "1024", "22", "tcp")
SHOWN = "10.0.0.1:1024 > 192.168.1.5:22 tcp"
DIFFER = "differ 167772161 3232235781 1024 22 6 deny #2"


class Show(unittest.TestCase):
    def setUp(self):
        folder = tempfile.TemporaryDirectory()
        self.addCleanup(folder.cleanup)
        self.list, self.table = (pathlib.Path(folder.name, name) for name in ("list", "table"))
        self.list.write_text(LIST)
        self.table.write_text(TABLE)

    def test_the_first_rule_that_matches_is_named_without_a_table(self):
        ended = call("show", self.list, *HEADER)
        self.assertEqual(ended.returncode, 0)
        self.assertEqual(ended.stdout.splitlines(), [SHOWN, f"{self.list}: rule 1, line 2: @10.0.0.0/8 0.0.0.0/0 0 : 65535 22 : 22 0x06/0xFF deny", "it decides deny"])

    def test_a_rule_without_a_decision_has_its_number(self):
        self.assertIn("it decides #2\n", call("show", self.list, *HEADER[:4], "udp").stdout)

    def test_list_and_table_that_differ_end_with_1(self):
        ended = call("show", self.list, self.table, *HEADER)
        self.assertEqual((ended.returncode, ended.stdout.splitlines()[-1]), (1, "they differ: deny, accept"))

    def test_a_line_on_a_difference_stands_for_its_header(self):
        self.assertEqual(call("show", self.list, *DIFFER.split()).stdout.splitlines()[0], SHOWN)
        self.assertEqual(call("show", self.list, self.table, *DIFFER.split()).returncode, 1)

    def test_a_text_with_a_difference_ends_with_1_and_names_the_rule(self):
        ended = call("show", "--list", self.list, given=f"{DIFFER}\n")
        self.assertEqual((ended.returncode, ended.stdout), (1, f"differ {SHOWN} deny #2  line 2: @10.0.0.0/8 0.0.0.0/0 0 : 65535 22 : 22 0x06/0xFF deny\n"))
        self.assertEqual(call("show", given="equal\n").returncode, 0)
        self.assertEqual(call("show", given=f"valid {DIFFER} pairs=1\n").stdout, f"valid differ {SHOWN} deny #2 pairs=1\n")

    def test_a_proof_is_shown_as_it_is(self):
        proof = "proof 1 rules 1 entries 1 before 0 0 0 0 6\ne 9 8 7 6 5 r1 r1 r1 r1 r1 r1\nr e2\np 1 1 4 3 2 > - e1 e1\npairs 1\n"
        ended = call("show", given=proof)
        self.assertEqual((ended.returncode, ended.stdout), (0, proof))

    def test_faults_have_the_statuses_of_the_program(self):
        for status, words in (
            (2, (self.list, "1", "2")),
            (2, (self.list, *HEADER[:4], "nothing")),
            (2, (self.list, *HEADER[:4], "256")),
            (2, (self.list, "differ", "1", "2")),
            (3, (self.table, *HEADER)),
            (3, (self.list, self.list, *HEADER)),
            (3, ("--list", self.table, self.table)),
            (5, ("/nowhere",)),
            (5, ("/nowhere", *HEADER)),
        ):
            ended = call("show", *words)
            self.assertEqual((ended.returncode, ended.stdout), (status, ""), words)
