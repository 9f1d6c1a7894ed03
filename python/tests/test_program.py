"""The program as calls of Python: values from its answers, and exceptions from its statuses."""
import os
import pathlib
import tempfile
import unittest
from unittest import mock

import tcam_razor as razor
from tests.calling import with_program

# Secure shell from the lab alone: the list and the answers of the manual's examples.
LAB = razor.List("@10.0.0.0/8 0.0.0.0/0 0 : 65535 20 : 22 0x06/0xFF accept\n@0.0.0.0/0 0.0.0.0/0 0 : 65535 0 : 65535 0x00/0x00 deny\n", "lab.list")
OFFICE = razor.List(LAB.text.replace("20 : 22", "20 : 21"), "office.list")
EDGE = razor.List("""@10.0.0.0/8 192.168.1.10/32 0 : 65535 443 : 443 0x06/0xFF accept
@10.1.0.0/16 192.168.1.10/32 0 : 65535 443 : 443 0x06/0xFF deny
@10.0.0.0/8 192.168.1.10/32 0 : 65535 22 : 22 0x06/0xFF deny
@0.0.0.0/0 192.168.1.10/32 0 : 65535 0 : 65535 0x06/0xFF deny
""", "edge.list")
FLAGGED = razor.List("# 0x06/0xFF 0x1/0x1\n@0.0.0.0/0 0.0.0.0/0 0 : 1 0 : 1 0x06/0xFF 0x0/0x0 a\n@0.0.0.0/0 0.0.0.0/0 0 : 1 0 : 1 0x06/0xFF 0x1/0x1 a\n", "mine")
EMPTY = razor.Table("table 2 slot 144 composed 0 entries 0\n")
HOST = (3232235786, 3232235786)


@with_program
class Program(unittest.TestCase):
    def test_tables_are_made(self):
        table = razor.compile(LAB)
        self.assertEqual((2, 3, 5, 144), (table.rules, table.entries, table.composed, table.slot))
        self.assertEqual(104, razor.compile(LAB, slot=104).slot)
        for call in (razor.shorten, razor.arrange, razor.expand):
            self.assertEqual((2, 3), (call(LAB).rules, call(LAB).entries))
        self.assertEqual(3, razor.shorten(LAB, order="best").entries)
        for call in (razor.trim, razor.merge, razor.migrate):
            self.assertEqual(3, call(table).entries)

    def test_a_difference_has_its_header(self):
        self.assertIsNone(razor.equiv(LAB, LAB))
        self.assertEqual(razor.Difference(razor.Header(167772160, 0, 0, 22, 6), "accept", "deny"), razor.equiv(LAB, OFFICE))
        self.assertEqual((0, 0, 0, 0, 0), razor.equiv(LAB, razor.List("")).header)
        self.assertEqual(("deny", None), (razor.equiv(LAB, razor.List("")).left, razor.equiv(LAB, razor.List("")).right))

    def test_certificates_are_made_and_checked(self):
        table = razor.compile(LAB)
        certificate = razor.cert(LAB, table)
        self.assertIsNone(razor.check(LAB, table, certificate))
        self.assertEqual(certificate.text.count("\n") - 1, certificate.rows)
        self.assertEqual(razor.Difference(razor.Header(167772160, 0, 0, 22, 6), "deny", "accept"), razor.cert(OFFICE, table))
        self.assertEqual(razor.WrongRow(1, "form"), razor.check(LAB, table, razor.Certificate("none\n")))

    def test_list_and_table_are_compared(self):
        table = razor.merge(razor.compile(LAB))
        self.assertIsNone(razor.verify(LAB, table))
        self.assertEqual(razor.Difference(razor.Header(167772160, 0, 0, 22, 6), "deny", "accept"), razor.verify(OFFICE, table))
        self.assertEqual(("deny", None), (razor.verify(LAB, EMPTY).left, razor.verify(LAB, EMPTY).right))

    def test_proofs_are_made_and_checked(self):
        table = razor.compile(LAB)
        proof = razor.prove(LAB, table)
        self.assertIsNone(razor.check(LAB, table, proof))
        self.assertEqual((None, f"pairs {proof.pairs}"), (proof.header, proof.text.splitlines()[-1]))
        other = razor.prove(OFFICE, table)
        self.assertEqual(razor.Header(167772160, 0, 0, 22, 6), other.header)
        self.assertEqual(razor.verify(OFFICE, table), razor.check(OFFICE, table, other))
        self.assertEqual(razor.WrongLine(1, "decisions do not differ"), razor.check(LAB, table, other))
        self.assertEqual(razor.WrongRow(1, "form"), razor.check(LAB, table, razor.Proof("none\n")))

    def test_rules_have_states(self):
        self.assertEqual(["live", "never", "droppable", "live"], [rule.state for rule in razor.audit(EDGE)])
        self.assertEqual(razor.RuleState(1, "live", razor.Header(167772160, 3232235786, 0, 443, 6)), razor.audit(EDGE)[0])
        self.assertIsNone(razor.audit(EDGE)[1].header)

    def test_boxes_are_asked_for(self):
        self.assertEqual([((167772160, 184549375), HOST, (0, 65535), (443, 443), (6, 6))],
                         razor.query(EDGE, "accept", (None, HOST, None, (443, 443), (6, 6))))
        self.assertEqual([(0, 5), (7, 255)], [box[4] for box in razor.query(EDGE, None, (None, HOST, None, None, None))])
        self.assertEqual([], razor.query(EDGE, "-e"))

    def test_headers_are_decided(self):
        table = razor.compile(EDGE)
        answers = razor.trace(table, [razor.Header(167772161, HOST[0], 40000, 443, 6), (0, HOST[0], 0, 0, 6), (0, 0, 0, 0, 0)])
        self.assertEqual(["accept", "deny", None], answers)
        self.assertEqual([], razor.trace(table, []))

    def test_memories_are_changed_by_plans(self):
        memory = razor.place(razor.compile(LAB), 5)
        plan = razor.patch(memory, razor.compile(OFFICE))
        self.assertEqual((5, 3, 5, 3), (memory.slots, memory.entries, plan.slots, plan.writes))
        after = razor.apply(memory, plan)
        self.assertEqual(razor.compile(OFFICE).entries, after.entries)
        self.assertIsInstance(razor.cert(OFFICE, razor.dump(after)), razor.Certificate)

    def test_lists_are_drawn(self):
        self.assertEqual(3, razor.gen(1, 3).text.count("\n"))

    def test_a_bad_line_is_told_by_the_name_of_its_text(self):
        with self.assertRaises(razor.BadText) as told:
            razor.shorten(razor.List("# first\n@1.2.3.4/33\n", "mine"))
        self.assertEqual(("mine", 2, "length", "mine: line 2: length"), (told.exception.file, told.exception.line, told.exception.reason, str(told.exception)))
        with self.assertRaises(razor.BadText) as told:
            razor.equiv(LAB, razor.List("bad", "second: list"))
        self.assertEqual(("second: list", 1, "no @"), (told.exception.file, told.exception.line, told.exception.reason))

    def test_flags_masks_are_refused(self):
        for call in (razor.shorten, razor.compile, razor.arrange, razor.expand, razor.audit):
            with self.assertRaises(razor.Flagged) as told:
                call(FLAGGED)
            self.assertEqual(("mine", 3, "flags"), (told.exception.file, told.exception.line, told.exception.reason))
            call(FLAGGED, flags=True)
        with self.assertRaises(razor.Flagged):
            razor.equiv(LAB, FLAGGED)
        for call in (razor.verify, razor.prove):
            with self.assertRaises(razor.Flagged):
                call(FLAGGED, EMPTY)
        with self.assertRaises(razor.Flagged):
            razor.query(FLAGGED, "a")
        with self.assertRaises(razor.BadText) as told:
            razor.audit(razor.List(FLAGGED.text + "bad"))
        self.assertEqual("no @", told.exception.reason)

    def test_other_statuses(self):
        with self.assertRaisesRegex(razor.TooMany, "3 entries needed, limit 1"):
            razor.shorten(LAB, limit=1)
        with self.assertRaises(razor.Misuse):
            razor.shorten(LAB, limit=0)
        with self.assertRaises(razor.Misuse):
            razor.query(LAB, "a b")

    def test_texts_of_files(self):
        with tempfile.TemporaryDirectory() as folder:
            file = pathlib.Path(folder) / "x.list"
            file.write_bytes(b"# \xff\n" + LAB.text.encode())
            rules = razor.List.load(file)
            self.assertEqual(str(file), rules.name)
            self.assertIsNone(razor.equiv(rules, LAB))


class Missing(unittest.TestCase):
    def test_no_program(self):
        for variables in ({"RAZOR": "", "PATH": ""}, {"RAZOR": "/nowhere/razor"}, {"RAZOR": "/"}):
            with mock.patch.dict(os.environ, variables), self.assertRaises(razor.NotFound):
                razor.audit(LAB)


if __name__ == "__main__":
    unittest.main()
