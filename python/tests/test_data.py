"""The command razor-json."""
import json
import pathlib
import tempfile
import unittest

from tests.calling import SAMPLES, call, with_program
from tests.test_program import FLAGGED, LAB, OFFICE


@with_program
class Data(unittest.TestCase):
    def setUp(self):
        folder = tempfile.TemporaryDirectory()
        self.addCleanup(folder.cleanup)
        self.folder = pathlib.Path(folder.name)

    def put(self, name, text):
        (self.folder / name).write_text(text)
        return self.folder / name

    def test_a_difference(self):
        ended = call("data", "equiv", self.put("lab", LAB.text), self.put("office", OFFICE.text))
        self.assertEqual(1, ended.returncode)
        self.assertEqual({"version": 1, "equal": False, "header": {"source": "10.0.0.0", "destination": "0.0.0.0", "source_port": 0, "destination_port": 22, "protocol": 6},
                          "left": "accept", "right": "deny"}, json.loads(ended.stdout))

    def test_no_difference_and_no_decision(self):
        ended = call("data", "equiv", "-", self.put("lab", LAB.text), given=LAB.text)
        self.assertEqual((0, {"version": 1, "equal": True, "header": None, "left": None, "right": None}), (ended.returncode, json.loads(ended.stdout)))
        self.assertIsNone(json.loads(call("data", "equiv", self.put("none", ""), self.put("lab", LAB.text)).stdout)["left"])

    def test_states_of_rules(self):
        rules = json.loads(call("data", "audit", SAMPLES / "dead.list").stdout)["rules"]
        self.assertEqual([1, 2, 3, 4, 5, 6, 7, 8, 9], [rule["number"] for rule in rules])
        self.assertEqual({"number": 4, "state": "never", "header": None, "source": None}, rules[3])
        self.assertEqual({"source": "10.0.0.0", "destination": "0.0.0.0", "source_port": 0, "destination_port": 22, "protocol": 6}, rules[0]["header"])

    def test_rules_have_their_lines_by_a_map(self):
        rules = json.loads(call("data", "audit", "--map", SAMPLES / "dead.map", SAMPLES / "dead.list").stdout)["rules"]
        self.assertEqual({"place": "line 5", "text": "40 deny tcp 10.1.0.0 0.0.255.255 any eq 22"}, rules[3]["source"])

    def test_statuses(self):
        for words, given, status in ((("audit", "-"), "bad", 3), (("audit", "nowhere"), "", 5), (("audit",), "", 2), ((), "", 2), (("equiv", "-"), "", 2),
                                     (("audit", "--map", SAMPLES / "dead.list", "-"), LAB.text, 3), (("audit", "--map", SAMPLES / "dead.map", "-"), LAB.text, 3),
                                     (("audit", "-"), FLAGGED.text, 3), (("audit", "--flags", "count", "-"), FLAGGED.text, 0)):
            with self.subTest(words=words):
                ended = call("data", *words, given=given)
                self.assertEqual(status, ended.returncode, ended.stderr)
                self.assertEqual(status in (0, 1), bool(ended.stdout))
        self.assertEqual("-: line 1: no @\n", call("data", "audit", "-", given="bad").stderr)
        self.assertEqual(126, call("data", "audit", "-", given=LAB.text, variables={"RAZOR": "/nowhere/razor"}).returncode)


if __name__ == "__main__":
    unittest.main()
