"""Rules and entries as values: which headers they hold, and how they are shown. The lines are those of docs/razor-formats.5.md."""
import unittest

from tcam_razor import lists, script, tables
from tcam_razor.headers import header

RULES = """# a comment
@10.0.0.0/8 0.0.0.0/0 0 : 65535 22 : 22,80 : 90 0x06/0xFF 0x1000/0x1000 accept

@0.0.0.0/0 0.0.0.0/0 0 : 65535 0 : 65535 0x00/0x00
"""
TABLE = """table 2 slot 144 composed 3 entries 2
0A000000/FF000000 00000000/00000000 0000/0000 0014/FFFC 06/FF accept
00000000/00000000 00000000/00000000 0000/0000 0000/0000 00/00 deny
"""


class Rules(unittest.TestCase):
    def setUp(self):
        self.first, self.last = lists.rules_of("list", RULES.splitlines(keepends=True))

    def test_rules_are_counted_and_know_their_lines(self):
        self.assertEqual([(rule.number, rule.line) for rule in (self.first, self.last)], [(1, 2), (2, 4)])

    def test_a_rule_without_a_decision_word_is_named_by_its_number(self):
        self.assertEqual([self.first.decision, self.last.decision], ["accept", "#2"])

    def test_a_flags_mask_is_seen(self):
        self.assertEqual([self.first.is_flagged, self.last.is_flagged], [True, False])

    def test_a_rule_holds_the_headers_in_its_spans(self):
        held = {words: self.first.holds(header(words.split())) for words in ("10.1.2.3 0.0.0.0 1 22 tcp", "10.1.2.3 0.0.0.0 1 85 tcp", "10.1.2.3 0.0.0.0 1 23 tcp", "11.0.0.0 0.0.0.0 1 22 tcp", "10.1.2.3 0.0.0.0 1 22 udp")}
        self.assertEqual(list(held.values()), [True, True, False, False, False])

    def test_the_open_rule_covers_the_other(self):
        self.assertEqual([self.last.covers(self.first), self.first.covers(self.last)], [True, False])


class Entries(unittest.TestCase):
    def setUp(self):
        self.first, self.last = tables.entries_of("table", TABLE.splitlines(keepends=True))

    def test_an_entry_is_shown_as_an_engineer_writes_it(self):
        self.assertEqual(self.first.columns(), ("10.0.0.0/8", "*", "*", "20-23", "tcp", "accept"))
        self.assertEqual(self.last.columns(), ("*", "*", "*", "*", "*", "deny"))

    def test_an_entry_matches_where_its_masked_bits_are_equal(self):
        matched = [self.first.matches(header(words.split())) for words in ("10.0.0.1 1.2.3.4 9 20 6", "10.0.0.1 1.2.3.4 9 24 6", "10.0.0.1 1.2.3.4 9 20 17")]
        self.assertEqual(matched, [True, False, False])


class Shown(unittest.TestCase):
    def test_what_a_terminal_would_obey_is_escaped(self):
        self.assertEqual(script.shown("a\x1b[31m\n\udcff\u202e"), "a\\x1b[31m\\x0a\\xff\\u202e")
