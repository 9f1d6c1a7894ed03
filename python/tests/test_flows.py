"""The script that writes flows: which it writes, and which texts and words it refuses."""
import argparse
import pathlib
import tempfile
import unittest

from tcam_razor import flows
from tests.calling import call
from tests.test_texts import MEMORY, PLAN, TABLE


class Flows(unittest.TestCase):
    def call(self, text, *words):
        with tempfile.TemporaryDirectory() as folder:
            path = pathlib.Path(folder, "text")
            path.write_bytes(text.encode())
            ended = call("flows", *words, path)
            return ended.returncode, ended.stdout, ended.stderr.replace(f"{folder}/", "")

    def refused(self, status, says, text, *words):
        ended = self.call(text, *words)
        self.assertEqual((ended[0], ended[1]), (status, ""))
        self.assertTrue(ended[2].endswith(f"{says}\n"), ended[2])

    def test_a_memory_whose_slots_do_not_rise_is_refused(self):
        self.refused(3, "text: line 3: slot", MEMORY.replace("2 0A", "5 0A"))

    def test_carriage_returns_are_refused(self):
        for text in (MEMORY, PLAN, TABLE):
            self.refused(3, "text: line 1: first line", text.replace("\n", "\r\n"))

    def test_more_slots_than_a_memory_has_are_refused(self):
        for text in (MEMORY, PLAN):
            self.refused(3, "text: line 1: first line", text.replace("slots 6", "slots 262145"))

    def test_words_have_a_status_of_their_own(self):
        for words in (("--table", "255"), ("--match", "in_port=1,ip"), ("--match", "in_port"), ("--match", "in_port=1", "--match", "in_port=2")):
            self.assertEqual(self.call(MEMORY, *words)[:2], (2, ""), words)
        self.refused(2, "there is no write 4: the plan has 3", PLAN, "--write", "4")

    def test_matches_that_a_switch_would_drop_are_refused(self):
        for word in ("tcp_flags=+ack", "arp_op=1", "arp_sha=0:0:0:0:0:1", "nd_target=::1", "mpls_label=1", "ct_tp_dst=22", "tcp=1", "nw_src=1.1.1.1", "actions=drop", "reg16=1", "vlan_vid=10"):
            with self.assertRaisesRegex(argparse.ArgumentTypeError, "isn't taken", msg=word):
                flows.match(word)
        for word, says in (("dl_vlan=4096", "4096 is no VLAN"), ("in_port=*", "NAME=VALUE is wanted")):
            with self.assertRaisesRegex(argparse.ArgumentTypeError, says):
                flows.match(word)
        for word in ("dl_vlan=4095", "dl_vlan=0xffff", "reg15=1/3", "ct_state=+trk+est"):
            self.assertEqual(flows.match(word), word)
        self.refused(2, f"tcp_flags isn't taken: it must hold for every packet of IPv4, as {', '.join(flows.MATCHES)} and reg0 to reg15", MEMORY, "--match", "tcp_flags=+ack")

    def test_what_cannot_be_read_or_written_has_a_status_of_its_own(self):
        self.assertEqual(call("flows", "/nowhere").returncode, 5)
        self.assertEqual(call("flows", "/").returncode, 5)

    def test_flows_lie_in_a_table_and_have_a_match(self):
        status, out, _ = self.call(MEMORY, "--mark", "1", "--replace", "2", "--table", "3", "--match", "in_port=4", "--priority", "100")
        self.assertEqual(status, 0)
        self.assertEqual(
            out.splitlines(),
            [
                "delete cookie=0x200000000/0xffffffff00000000,table=3,ip,in_port=4",
                "cookie=0x100000002,table=3,priority=99,tcp,in_port=4,nw_src=10.0.0.0/255.0.0.0,tcp_dst=0x16/0xffff,actions=drop",
                "cookie=0x100000004,table=3,priority=97,tcp,in_port=4,nw_src=10.0.0.0/255.0.0.0,tcp_dst=0x16/0xffff,actions=normal",
                "cookie=0x100000006,table=3,priority=95,tcp,in_port=4,nw_src=10.0.0.0/255.0.0.0,tcp_dst=0x16/0xffff,actions=drop",
            ],
        )

    def test_changes_of_a_plan_are_those_of_its_place(self):
        status, out, _ = self.call(PLAN, "--table", "3", "--match", "in_port=4", "--write", "2")
        self.assertEqual((status, out), (0, "delete cookie=0x4/0xffffffffffffffff,table=3,ip,in_port=4\n"))
