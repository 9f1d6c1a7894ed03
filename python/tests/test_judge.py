"""The command razor-judge, where a namespace can be had."""
import shutil
import subprocess
import unittest
from unittest import mock

from tcam_razor import exporting, importing, judge
from tests.calling import SAMPLES, call, sample

THERE = shutil.which("nft", path=exporting.FOLDERS) and subprocess.run([*exporting.NAMESPACE, "true"], capture_output=True).returncode == 0
ASSUMED = {"in": "eth0", "state": "new", "icmp": "8/0"}
WORDS = [f"--assume={key}={value}" for key, value in ASSUMED.items()]
SAVE = """*filter
:INPUT DROP [0:0]
:OUTPUT DROP [0:0]
-A INPUT -i eth0 -s 10.0.0.0/8 -p tcp -m tcp --dport 22 -j ACCEPT
-A INPUT -p udp -m multiport --dports 53,123 -j REJECT
COMMIT
"""


@unittest.skipUnless(THERE, "there is no nft, which Debian's package nftables has, or no namespace by unshare")
class Judge(unittest.TestCase):
    def test_the_kernel_decides_as_the_list(self):
        for words, given, name in (((*WORDS, SAMPLES / "vmap.nft"), "", "inet t input"), ((*WORDS, "--pick", "FORWARD", "-"), SAVE.replace("INPUT", "FORWARD"), "filter FORWARD"),
                                   ((*WORDS, "-"), SAVE, "filter INPUT"), ((*WORDS, "-"), sample("vmap.json"), "inet t input")):
            if given.startswith("*") and not shutil.which("iptables-nft-restore", path=exporting.FOLDERS):
                continue
            with self.subTest(name=name):
                ended = call("judge", *words, "--packets", 200, given=given)
                self.assertEqual((0, ""), (ended.returncode, ended.stderr), ended.stdout)
                self.assertRegex(ended.stdout, rf"^{name}: packets 200, not delivered \d+, alike [1-9]\d*, otherwise 0\n$")

    def test_a_list_of_another_ruleset_is_told_by_its_first_header(self):
        wrong = importing.read("nft", sample("vmap.json").replace("22, ", "23, "), assume=ASSUMED)
        self.assertEqual({}, wrong.listing.faults)
        with mock.patch.object(judge.Ruleset, "imported", lambda ruleset, kernel: wrong):
            reading, verdicts = judge.judged(judge.Ruleset(sample("vmap.nft"), None, ASSUMED), 2000, 1)
        others = {it.header.destination_port for it in verdicts if not it.is_alike}
        self.assertTrue(others and others <= {22, 23}, others)
        lines = judge.told(reading, verdicts).splitlines()
        self.assertEqual(2, len(lines))
        self.assertRegex(lines[1], r"^differ \d+ \d+ \d+ 2[23] 6 (accept drop|\S+ accept)  \S.* rule \d+: ")

    def test_what_isnt_judged_is_told(self):
        ruleset = "table ip t {\n chain c {\n  type filter hook HOOK priority 0; policy drop;\n  tcp dport 5 accept\n }\n}\n"
        for words, given, told in ((["-"], ruleset.replace("HOOK", "output"), "hook output"), (["--assume", "state=established", "-"], ruleset, "no such packets"),
                                   (["--assume", "in=lo", "-"], ruleset, "in=lo"), (["--assume", "out=eth1", "-"], ruleset.replace("HOOK", "input"), "no interface to go out"),
                                   (["-"], "table ip {", "nft -f -"), (["-"], ruleset.replace("HOOK", "input").replace("tcp dport 5", "ip ttl 5"), "ip ttl isn't one of the five fields")):
            with self.subTest(told=told):
                ended = call("judge", *words, given=given)
                self.assertEqual((3, ""), (ended.returncode, ended.stdout))
                self.assertIn(told, ended.stderr)

    def test_statuses(self):
        self.assertEqual(2, call("judge").returncode)
        self.assertEqual(2, call("judge", "--assume", "state=maybe", "-", given=sample("vmap.nft")).returncode)
        self.assertEqual(5, call("judge", "nowhere").returncode)


class Missing(unittest.TestCase):
    def test_no_namespace(self):
        with mock.patch("subprocess.Popen", side_effect=FileNotFoundError), self.assertRaises(judge.Unavailable):
            judge.judged(judge.Ruleset(sample("vmap.nft"), None, ASSUMED), 1, 1)


if __name__ == "__main__":
    unittest.main()
