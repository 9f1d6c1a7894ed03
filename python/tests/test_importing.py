"""The command razor-import: lists, maps, what it tells, and how it ends."""
import pathlib
import tempfile
import unittest

from tcam_razor import importing
from tests.calling import SAMPLES, call, sample

LIST = "ip access-list extended A\n permit tcp any any eq 22 log\n deny ip any any\n"
TWO = LIST + "ip access-list extended B\n permit ip any any\n"
SAVE = "*filter\n:INPUT DROP [0:0]\n-A INPUT -j ACCEPT\nCOMMIT\n*mangle\n:INPUT ACCEPT [0:0]\n-A INPUT -p tcp -j DROP\nCOMMIT\n"


class Importing(unittest.TestCase):
    def test_samples_become_their_lists_and_maps(self):
        everything = {"ios": {"state": "new", "icmp": "8/0", "fragments": "no"}, "dead": {}, "vmap": {"in": "eth0", "state": "new", "icmp": "8/0"}}
        for name, assume in everything.items():
            dialect, file = ("nft", "vmap.json") if name == "vmap" else ("ios", f"{name}.conf")
            reading = importing.read(dialect, sample(file), assume=assume)
            self.assertEqual({}, reading.listing.faults)
            self.assertEqual(sample(f"{name}.list"), reading.text)
            self.assertEqual(sample(f"{name}.map"), reading.listing.map())

    def test_the_list_goes_out_and_its_notices_are_told(self):
        ended = call("importing", "ios", "-", given=LIST)
        self.assertEqual("# ios A\n@0.0.0.0/0 0.0.0.0/0 0 : 65535 22 : 22 0x06/0xFF permit\n"
                         "@0.0.0.0/0 0.0.0.0/0 0 : 65535 0 : 65535 0x00/0x00 deny\n@0.0.0.0/0 0.0.0.0/0 0 : 65535 0 : 65535 0x00/0x00 deny\n", ended.stdout)
        self.assertEqual("-: notice: line 2: log takes no part: permit tcp any any eq 22 log\nA: rules 3, notices 1\n", ended.stderr)
        self.assertEqual(0, ended.returncode)

    def test_all_refused_lines_are_told_and_no_list_is_written(self):
        ended = call("importing", "ios", "-", given="ip access-list extended A\n permit frob any any\n permit ip any any\n permit tcp any any ack\n")
        self.assertEqual("", ended.stdout)
        self.assertEqual("-: line 2: unknown protocol frob: permit frob any any\n-: line 4: ack isn't one of the five fields: permit tcp any any ack\n"
                         "-: no list written, 2 faults\n", ended.stderr)
        self.assertEqual(3, ended.returncode)

    def test_what_is_told_moves_no_terminal(self):
        for text in ("permit tcp any any \x1b[31m\n", "ip access-list extended A\n permit \x1b[31m any any\n"):
            ended = call("importing", "ios", "-", given=text)
            self.assertIn("\\x1b[31m", ended.stderr)
            self.assertNotIn("\x1b", ended.stderr)

    def test_lists_and_chains_are_picked(self):
        for dialect, text, pick, name, rules in (("ios", TWO, "B", "B", 2), ("iptables", SAVE, "INPUT", "filter INPUT", 2), ("iptables", SAVE, None, "filter INPUT", 2),
                                                 ("iptables", SAVE, "mangle INPUT", "mangle INPUT", 2), ("nft", sample("vmap.json"), "inet t input", "inet t input", 15),
                                                 ("nft", sample("vmap.json"), "input", "inet t input", 15)):
            assume = {"in": "eth0", "state": "new", "icmp": "8/0"} if dialect == "nft" else {}
            reading = importing.read(dialect, text, pick, assume)
            self.assertEqual((name, rules, {}), (reading.name, len(reading.listing.rules), reading.listing.faults))

    def test_what_cannot_be_picked_is_told_with_what_can(self):
        for dialect, text, pick, fault in (("ios", TWO, "C", "no list C, only A, B"), ("ios", TWO, None, "several lists, pick one of: A, B"),
                                           ("nft", sample("vmap.json"), "web", "pick one base chain of type filter: inet t input"),
                                           ("iptables", SAVE, "OUTPUT", "no chain OUTPUT with a policy in table filter: pick one of INPUT"),
                                           ("iptables", SAVE, "nat INPUT", "no table nat, only filter, mangle")):
            self.assertEqual([fault], list(importing.read(dialect, text, pick).listing.faults))

    def test_decisions_get_other_words(self):
        text = importing.read("ios", TWO, "B", call={"permit": "accept", "deny": "drop"}).text
        self.assertEqual(["# ios B", "accept", "drop"], [line if line[0] == "#" else line.split()[-1] for line in text.splitlines()])

    def test_rejections_have_one_name_by_words_and_by_numbers(self):
        for kind, expr in (("icmp", "host-prohibited"), ("icmp", 10)):
            text = sample("vmap.json").replace('"icmpx"', f'"{kind}"').replace('"admin-prohibited"', f'"{expr}"' if isinstance(expr, str) else str(expr))
            reading = importing.read("nft", text, assume={"in": "eth0", "state": "new", "icmp": "8/0"})
            self.assertIn("reject-icmp-host-prohibited", reading.text)

    def test_limits_of_a_line_and_of_all(self):
        negated = "*filter\n:INPUT DROP [0:0]\n-A INPUT ! -p tcp -j DROP\nCOMMIT\n"
        self.assertEqual(["line 3: 255 rules needed, limit 254: -A INPUT ! -p tcp -j DROP"], list(importing.read("iptables", negated, most=254).listing.faults))
        many = negated.replace("-A INPUT ! -p tcp -j DROP\n", "-A INPUT ! -p tcp -j DROP\n" * 257)
        self.assertEqual(257 * 255 + 1, len(importing.read("iptables", many).listing.rules))
        more = importing.read("iptables", many.replace("COMMIT", "-A INPUT ! -p tcp -j DROP\nCOMMIT")).listing
        self.assertEqual(["line 260: more than 65536 rules in all: -A INPUT ! -p tcp -j DROP"], list(more.faults))

    def test_wrong_words(self):
        for words in ((), ("ios",), ("junos", "-"), ("ios", "--assume", "state=related", "-"), ("ios", "--assume", "in=eth0", "-"), ("nft", "--assume", "fragments=yes", "-"),
                      ("nft", "--assume", "icmp=8", "-"), ("nft", "--assume", "icmp=8/256", "-"), ("ios", "--assume", "state=new", "--assume", "state=new", "-"),
                      ("ios", "--call", "permit", "-"), ("ios", "--call", "permit=miss", "-"), ("ios", "--call", "permit=a b", "-"), ("ios", "--most", "0", "-"),
                      ("ios", "--most", "65537", "-"), ("ios", "--frob", "-"), ("ios", "-", "-")):
            with self.subTest(words=words):
                ended = call("importing", *words, given=LIST)
                self.assertEqual((2, ""), (ended.returncode, ended.stdout))

    def test_faults_of_reading_and_writing(self):
        with tempfile.TemporaryDirectory() as folder:
            nowhere = pathlib.Path(folder) / "nowhere/file"
            ended = call("importing", "ios", nowhere)
            self.assertEqual((5, "", f"{nowhere}: read fault\n"), (ended.returncode, ended.stdout, ended.stderr))
            ended = call("importing", "ios", "--map", nowhere, SAMPLES / "dead.conf")
            self.assertEqual((6, "", f"{nowhere}: write fault\n"), (ended.returncode, ended.stdout, ended.stderr))

    def test_bytes_that_are_no_text_and_other_ends_of_lines(self):
        with tempfile.TemporaryDirectory() as folder:
            file = pathlib.Path(folder) / "conf"
            file.write_bytes(b"\xef\xbb\xbfip access-list extended A\r\n remark \xff \xe2\x80\xa8 x\ty\r\n permit ip any any\r\n")
            ended = call("importing", "ios", "--map", f"{file}.map", file)
            self.assertEqual(0, ended.returncode, ended.stderr)
            self.assertEqual([b"-\tline 2\tremark\tremark \xff x y", b"1-1\tline 3\t\tpermit ip any any", b"2-2\tend\t\timplicit deny"],
                             pathlib.Path(f"{file}.map").read_bytes().split(b"\n")[1:-1])


if __name__ == "__main__":
    unittest.main()
