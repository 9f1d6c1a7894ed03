"""The command razor-export: configurations, what has no exact form, and that what is written is compared with the list."""
import pathlib
import shutil
import subprocess
import tempfile
import unittest
from unittest import mock

import tcam_razor as razor
from tcam_razor import exporting
from tests.calling import SAMPLES, call, sample, with_program

EVERY = "0.0.0.0/0 0.0.0.0/0 0 : 65535 0 : 65535"
LAST = f"@{EVERY} 0x00/0x00 deny\n"
WEB = f"@10.0.0.0/8 192.168.1.10/32 0 : 65535 22 : 22,80 : 90 0x06/0xFF permit\n@10.0.0.1/32 0.0.0.0/0 1 : 9 0 : 65535 0x11/0xFF drop\n@{EVERY} 0x2F/0xFF accept\n" + LAST

IOS = """ip access-list extended WEB
 10 permit tcp 10.0.0.0 0.255.255.255 host 192.168.1.10 eq 22
 20 permit tcp 10.0.0.0 0.255.255.255 host 192.168.1.10 range 80 90
 30 deny udp host 10.0.0.1 range 1 9 any
 40 permit 47 any any
 50 deny ip any any
!
"""
EOS = IOS.replace("access-list extended", "access-list").replace("10.0.0.0 0.255.255.255", "10.0.0.0/8")
NFT = """table ip WEB {
 chain filter {
  type filter hook forward priority 0; policy drop;
  ip saddr 10.0.0.0/8 ip daddr 192.168.1.10/32 tcp dport { 22, 80-90 } accept
  ip saddr 10.0.0.1/32 udp sport { 1-9 } drop
  meta l4proto 47 accept
 }
}
"""

# A list's first line, the dialects, and what is told of it.
REFUSED = [
    (f"@{EVERY} 0x06/0xFF 0x1/0x1 permit\n", ("ios", "eos", "nft"), "line 1: has a flags mask"),
    ("@0.0.0.0/0 0.0.0.0/0 0 : 65535 22 : 22 0x00/0x00 permit\n", ("ios", "eos", "nft"), "line 1: ports of every protocol, or of one that has none"),
    ("@0.0.0.0/0 0.0.0.0/0 0 : 65535 22 : 22 0x01/0xFF permit\n", ("ios", "eos", "nft"), "line 1: ports of every protocol, or of one that has none"),
    (f"@{EVERY} 0x00/0xFF permit\n", ("ios", "eos", "nft"), "line 1: protocol 0"),
    ("@0.0.0.0/0 0.0.0.0/0 0 : 65535 22 : 22 0x21/0xFF permit\n", ("ios", "eos"), "line 1: ports of protocol 33"),
    ("@0.0.0.0/0 0.0.0.0/0 22 : 22 0 : 65535 0x88/0xFF permit\n", ("ios", "eos"), "line 1: ports of protocol 136"),
    (f"@{EVERY} 0x06/0xFF log\n", ("ios", "eos", "nft"), "line 1: decision log: say --call log="),
    (f"@{EVERY} 0x06/0xFF\n", ("ios", "eos", "nft"), "line 1: decision #1: say --call #1="),
]
NAMESPACE = shutil.which("nft", path=exporting.FOLDERS) and subprocess.run([*exporting.NAMESPACE, "true"], capture_output=True).returncode == 0
with_nft = unittest.skipUnless(NAMESPACE, "there is no nft, which Debian's package nftables has, or no namespace by unshare")


class Text(unittest.TestCase):
    def test_rules_become_lines(self):
        for dialect, text in (("ios", IOS), ("eos", EOS), ("nft", NFT)):
            self.assertEqual(text, razor.exported(dialect, razor.List(WEB), name="WEB", unchecked=True))

    def test_what_has_no_form_is_refused_by_its_line(self):
        for line, dialects, reason in REFUSED:
            for dialect in dialects:
                with self.subTest(line=line, dialect=dialect), self.assertRaises(razor.NotExported) as told:
                    razor.exported(dialect, razor.List(line + LAST), unchecked=True)
                self.assertEqual(1, len(told.exception.faults))
                self.assertTrue(told.exception.faults[0].startswith(reason), told.exception.faults)
        self.assertIn("udplite sport { 22 }", razor.exported("nft", razor.List(REFUSED[5][0] + LAST), unchecked=True))

    def test_every_header_has_to_be_decided(self):
        for text in ("", WEB.replace(LAST, ""), LAST + WEB.replace(LAST, "")):
            with self.assertRaisesRegex(razor.NotExported, "the last rule doesn't match every header"):
                razor.exported("ios", razor.List(text), unchecked=True)

    def test_all_refused_lines_are_told(self):
        ended = call("exporting", "ios", "-", given=REFUSED[0][0] + REFUSED[1][0] + LAST)
        self.assertEqual((3, "", 2), (ended.returncode, ended.stdout, len(ended.stderr.splitlines())))

    def test_decisions_get_verdicts(self):
        self.assertIn("10 deny tcp any any\n", razor.exported("ios", razor.List(f"@{EVERY} 0x06/0xFF log\n" + LAST), call={"log": "drop"}, unchecked=True))
        self.assertIn("10 permit tcp any any\n", razor.exported("ios", razor.List(f"@{EVERY} 0x06/0xFF\n" + LAST), call={"#1": "accept"}, unchecked=True))
        for words in ({"call": {"log": "maybe"}}, {"name": "a b"}, {"name": "9"}):
            with self.assertRaises(ValueError):
                razor.exported("ios", razor.List(LAST), unchecked=True, **words)

    def test_assumptions_that_are_lost_are_told(self):
        conf = "ip access-list extended EDGE\n 10 permit icmp any any echo\n 20 permit tcp any any established\n 30 permit udp any any\n"
        edge = razor.imported("ios", conf, assume={"icmp": "8/0", "state": "new"}).list
        ended = call("exporting", "ios", "--unchecked", "-", given=edge.text)
        self.assertEqual((0, True, False), (ended.returncode, "permit icmp any any\n" in ended.stdout, "tcp" in ended.stdout))
        self.assertEqual(["-: notice: made for icmp=8/0, state=new alone, which the text doesn't ask for: don't load it in the place of the one imported",
                          "-: notice: the text wasn't compared with the list"], ended.stderr.splitlines())
        for first, assumed in (("# ios A, state=new\r\n", "state=new"), ("# nft inet t input, in=eth0, state=new\n", "in=eth0, state=new"),
                               ("# ios A\n", None), ("# my list, state=new\n", None), ("", None)):
            self.assertEqual(assumed, exporting.assumptions(razor.List(first + LAST)), first)

    def test_words_and_files(self):
        self.assertEqual(2, call("exporting", "iptables", "-", given=LAST).returncode)
        self.assertEqual(2, call("exporting", "ios", "--call", "deny", "-", given=LAST).returncode)
        self.assertEqual(5, call("exporting", "ios", SAMPLES / "nowhere").returncode)
        ended = call("exporting", "ios", "-", given="#\nbad\n", variables={"RAZOR": "/nowhere/razor"})
        self.assertEqual((3, "-: line 2: no rule of a list\n"), (ended.returncode, ended.stderr))


class Comparison(unittest.TestCase):
    @with_program
    def test_access_lists_go_there_and_back(self):
        for name in ("ios", "dead"):
            for dialect in ("ios", "eos"):
                text = razor.exported(dialect, razor.List(sample(f"{name}.list")))
                self.assertIsNone(razor.equiv(razor.List(sample(f"{name}.list")), razor.imported(dialect, text).list))

    @with_program
    @with_nft
    def test_chains_go_there_and_back_through_nft(self):
        self.assertEqual(NFT, razor.exported("nft", razor.List(WEB), name="WEB"))
        self.assertIn("policy drop", razor.exported("nft", razor.List(sample("vmap.list")), call={"reject-icmpx-admin-prohibited": "drop"}))

    @with_program
    def test_a_text_that_decides_otherwise_isnt_written(self):
        with mock.patch.object(exporting, "operators", lambda ports: [""]), self.assertRaises(razor.NotExported) as told:
            razor.exported("ios", razor.List(WEB, "web.list"))
        # Without its ports the first entry permits the least header of its addresses.
        self.assertEqual("web.list: the text decides 167772160 3232235786 0 0 6 otherwise", str(told.exception))

    @with_program
    def test_a_text_that_isnt_read_back_isnt_written(self):
        with mock.patch.object(exporting, "address", lambda dialect, prefix: "host web"), self.assertRaisesRegex(razor.NotExported, "isn't read back"):
            razor.exported("ios", razor.List(WEB))

    @with_program
    def test_a_bad_list_is_told_as_the_program_does(self):
        with self.assertRaisesRegex(razor.BadText, "mine: line 1: length"):
            razor.exported("ios", razor.List("@0.0.0.0/33 0.0.0.0/0 0 : 65535 0 : 65535 0x06/0xFF deny\n" + LAST, "mine"))

    def test_what_compares_may_be_missing(self):
        with tempfile.TemporaryDirectory() as folder:
            file = pathlib.Path(folder) / "web.list"
            file.write_text(WEB)
            ended = call("exporting", "ios", file, variables={"RAZOR": "/nowhere/razor"})
            self.assertEqual((126, ""), (ended.returncode, ended.stdout))
            ended = call("exporting", "ios", "--unchecked", "--name", "WEB", file, variables={"RAZOR": "/nowhere/razor"})
            self.assertEqual((0, IOS), (ended.returncode, ended.stdout))
            self.assertIn("notice: the text wasn't compared", ended.stderr)
            with mock.patch.object(exporting, "FOLDERS", folder), self.assertRaisesRegex(razor.NotFound, "no program unshare"):
                razor.exported("nft", razor.List(WEB))


if __name__ == "__main__":
    unittest.main()
