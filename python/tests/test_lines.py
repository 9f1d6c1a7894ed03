"""The command razor-lines: an audit, told by the lines of a configuration."""
import unittest

from tcam_razor import lines
from tests.calling import SAMPLES, call, sample

# Of the sample's list: rules 1 and 2 decide first; 3 can go, since the last rule decides its headers alike; the others are hidden.
AUDIT = """rule 1 live 167772160 0 0 22 6
rule 2 live 3232235520 0 0 0 0
rule 3 droppable 167837696 0 0 23 6
rule 4 never
rule 5 never
rule 6 never
rule 7 never
rule 8 never
rule 9 live 0 0 0 0 0
"""


class Lines(unittest.TestCase):
    def test_each_rule_has_its_line_and_dead_lines_are_summed_up(self):
        ended = call("lines", SAMPLES / "dead.map", given=AUDIT)
        told = ended.stdout.splitlines()
        self.assertEqual((0, "", 11), (ended.returncode, ended.stderr, len(told)))
        self.assertEqual("rule 4 never  line 5: 40 deny tcp 10.1.0.0 0.0.255.255 any eq 22", told[3])
        self.assertEqual("rule 9 live 0 0 0 0 0  end: implicit deny", told[8])
        self.assertEqual(["dead  line 5: 40 deny tcp 10.1.0.0 0.0.255.255 any eq 22", "dead  line 6: 50 permit udp 192.168.4.0 0.0.3.0 any eq 53"], told[9:])

    def test_a_line_of_which_some_rules_decide_isnt_dead(self):
        ended = call("lines", SAMPLES / "dead.map", given=AUDIT.replace("rule 6 never", "rule 6 live 0 0 0 0 0"))
        self.assertEqual("3 of 4 rules never match first  line 6: 50 permit udp 192.168.4.0 0.0.3.0 any eq 53", ended.stdout.splitlines()[-1])

    def test_a_line_at_two_places_is_dead_where_all_its_rules_are(self):
        found = lines.parsed("map 1 rules 2 rows 3\n1-1\tline 4\t\tx\n2-2\tline 4\t\tx\n-\tline 5\treturn\ty\n")
        self.assertEqual(["rule 1 live 0 0 0 0 0  line 4: x", "rule 2 never  line 4: x", "1 of 2 rules never match first  line 4: x"],
                         lines.told(found, ["rule 1 live 0 0 0 0 0", "rule 2 never"]))

    def test_an_audit_of_another_list_is_refused(self):
        for audit in ("", AUDIT.replace("rule 9 live 0 0 0 0 0\n", ""), AUDIT + "rule 10 never\n", AUDIT.replace("rule 3", "rule 4"), "equal\n", AUDIT.replace("never", "maybe")):
            ended = call("lines", SAMPLES / "dead.map", given=audit)
            self.assertEqual((3, ""), (ended.returncode, ended.stdout))

    def test_what_is_no_map_is_refused(self):
        text = sample("dead.map")
        for spoiled in ("", "map 2 rules 9 rows 6\n", text.replace("rows 6", "rows 7"), text.replace("1-1\t", "1-2\t"), text.replace("2-2\t", "-\t"), text.replace("\t\t", "\t", 1), text.replace("5-8", "8-5")):
            with self.subTest(text=spoiled[:60]), self.assertRaises(ValueError):
                lines.parsed(spoiled)
        self.assertEqual(3, call("lines", SAMPLES / "dead.conf", given=AUDIT).returncode)
        self.assertEqual(5, call("lines", SAMPLES / "nowhere", given=AUDIT).returncode)
        self.assertEqual(2, call("lines", given=AUDIT).returncode)


if __name__ == "__main__":
    unittest.main()
