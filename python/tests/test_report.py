"""The page on a change: what a pipeline may fail on, the data of the page, and how lists without a name are called."""
import json
import os
import pathlib
import re
import shutil
import subprocess
import sys
import tempfile
import unittest

from tcam_razor.report.change import Change, Size, Version
from tcam_razor.report.failing import CONDITIONS, Answer, condition
from tcam_razor.report.findings import Deciding, Entries, Example, Findings, Idle, Kind, Piece, Side, Writes, plain
from tcam_razor.report.page import page
from tcam_razor.headers import WHOLE, Header
from tcam_razor.razor import Ended
from tests.calling import PACKAGE, call, with_program

ROOT = PACKAGE.parent
REVIEW = ROOT / "docs/REVIEW.md"
EXAMPLE = re.compile(r"```sh\n(.*?)```.*?```text\n(.*?)```", re.DOTALL)

OLD = "@10.0.0.0/8 0.0.0.0/0 0 : 65535 22 : 22 0x06/0xFF deny\n@0.0.0.0/0 0.0.0.0/0 0 : 65535 0 : 65535 0x00/0x00 accept\n"
# Port 22 is permitted now, and port 23 denied.
NEW = OLD.replace("22 : 22", "23 : 23")
# Its second rule is never first.
DEAD = OLD.replace("@0.0.0.0/0", "@10.1.0.0/16 0.0.0.0/0 0 : 65535 22 : 22 0x06/0xFF accept\n@0.0.0.0/0", 1)
# Two halves of what the old list denies come before it, and with them a part of the second one.
HALVES = "".join(f"@{address} 0.0.0.0/0 0 : 65535 22 : 22 0x06/0xFF accept\n" for address in ("10.0.0.0/9", "10.128.0.0/9", "10.130.0.0/16")) + OLD
FLAGGED = OLD.replace("0xFF deny", "0xFF 0x02/0x02 deny")
HEADER = Header(10 << 24, 0, 0, 22, 6)
NOTHING = Kind((), None, True)
LATE = Kind((), None, False)


def findings(**parts):
    """What is found where nothing changes, but for these parts."""
    side = Side("a.list", "a.list", 2, 0, True, "0")
    usual = dict(version=1, program_sha256="0", seconds=60, deny=("deny",), old=side, new=side, is_alike=True, difference=None, permitted=NOTHING, denied=NOTHING, others=NOTHING)
    rest = dict(put_in=0, taken_out=0, hunks=(), idle=(), entries=(Entries("shorten", Size(5), Size(6)),), writes=Writes(8, ("clear 1",), None), validation=None)
    return Findings(**(usual | rest | parts))


def changed(old, new):
    box = (*WHOLE[:3], (22, 22), (6, 6))
    return Kind((Piece(box, old, new),), Example(HEADER, Deciding(old, 1, "a rule"), Deciding(new, 2, "another")), True)


class Conditions(unittest.TestCase):
    def expect(self, holds, word, **parts):
        self.assertEqual(condition(word).answer(findings(**parts)).holds, holds, (word, parts))

    def test_each_holds_where_its_part_says_so_and_not_else(self):
        example = changed("deny", "accept").first
        for word, parts in (
            ("permits", {"permitted": changed("deny", "accept")}),
            ("denies", {"denied": changed("accept", "deny")}),
            ("any", {"is_alike": False, "difference": example}),
            ("dead", {"idle": (Idle(3, "a rule", None, "never", None, (1,)),)}),
            ("entries=5", {}),
            ("writes=0", {}),
            ("writes=9", {"writes": Writes(8, (), 11)}),
            ("flags", {"new": Side("b.list", "b.list", 2, 1, True, "0")}),
        ):
            self.expect(True, word, **parts)
        for word in ("permits", "denies", "any", "dead", "entries=6", "writes=1", "flags"):
            self.expect(False, word)
        self.expect(False, "dead", idle=(Idle(3, "a rule", "live", "droppable", HEADER, ()),))

    def test_what_is_not_known_neither_holds_nor_not(self):
        for word, parts in (("permits", {"permitted": LATE}), ("denies", {"denied": LATE}), ("any", {"is_alike": None}), ("dead", {"idle": None}), ("writes=9", {"writes": None}), ("entries=9", {"entries": (Entries("shorten", Size(5), Size(0, False, "no table in 60 seconds")),)})):
            self.expect(None, word, **parts)

    def test_words_that_are_none_are_refused(self):
        for word in ("permit", "entries", "entries=", "entries=-1", "permits=1", "any ", ""):
            self.assertEqual(call("report", "--fail-on", word, "a", "b").returncode, 2, word)
        self.assertEqual(sorted(CONDITIONS), ["any", "dead", "denies", "entries", "flags", "permits", "writes"])
        self.assertEqual(Answer(True).says, "")


class Data(unittest.TestCase):
    def test_headers_and_boxes_have_addresses_in_points(self):
        self.assertEqual(plain(HEADER), {"source": "10.0.0.0", "destination": "0.0.0.0", "source_port": 0, "destination_port": 22, "protocol": 6})
        box = plain(changed("deny", "accept"))["boxes"][0]
        self.assertEqual(box["box"]["source"], ["0.0.0.0", "255.255.255.255"])
        self.assertEqual((box["box"]["destination_port"], box["old"], box["new"]), ([22, 22], "deny", "accept"))

    def test_what_is_newly_permitted_comes_first_on_the_page(self):
        text = page(findings(is_alike=False, difference=changed("accept", "deny").first, permitted=changed("deny", "accept"), denied=changed("accept", "deny")))
        titles = [part.partition("</h2>")[0] for part in text.split("<h2>")[1:]]
        self.assertEqual(titles[:2], ["What is newly permitted", "What is newly denied"])


class Slow:
    """A program that answers as it is told by command, and otherwise not in time; it notes what it was asked."""

    program, folder = "razor", pathlib.Path("/nowhere")

    def __init__(self, **answers):
        self.answers, self.asked = answers, []

    def put(self, name, text):
        pass

    def run(self, *words, given="", seconds=None):
        self.asked.append(words)
        answer = self.answers.get(words[0])
        if answer is None:
            raise subprocess.TimeoutExpired(words[0], seconds)
        return answer(*words[1:])


class Asked(unittest.TestCase):
    def change(self, slow, **words):
        return Change(*(Version(slow, name, name, OLD, 1) for name in ("old.list", "new.list")), **words)

    def test_a_comparison_that_takes_too_long_is_not_known(self):
        self.assertEqual(self.change(Slow()).compared, (False, None))

    def test_no_room_is_tried_again_in_as_many_slots_as_are_needed(self):
        table = Ended(0, "table 2 slot 144 composed 10 entries 10\n", "")

        def placed(_option, slots, _table):
            return Ended(0, slots, "")

        def patched(_memory, _table):
            wide = slow.asked[-2][2] == "17"
            return Ended(0, "plan 1 slots 17 width 144 writes 1\nclear 1\n", "") if wide else Ended(4, "", "17 entries needed, limit 13\n")

        slow = Slow(shorten=lambda _list: table, place=placed, patch=patched)
        plan = self.change(slow).plan
        self.assertEqual((plan.slots, plan.writes, plan.needed), (17, ["clear 1"], 0))
        self.assertEqual([words[2] for words in slow.asked if words[0] == "place"], ["13", "17"])
        # Slots that somebody asks for are kept.
        plan = self.change(slow, slots=13).plan
        self.assertEqual((plan.slots, plan.needed), (13, 17))


@with_program
class Report(unittest.TestCase):
    def setUp(self):
        folder = tempfile.TemporaryDirectory()
        self.addCleanup(folder.cleanup)
        self.folder = pathlib.Path(folder.name)
        for name, text in (("old", OLD), ("new", NEW), ("dead", DEAD), ("flagged", FLAGGED), ("halves", HALVES), ("bad", "@10.0.0.0/8\n")):
            (self.folder / name).write_text(text)

    def call(self, *words):
        *options, old, new = words
        return call("report", "--program", os.environ["RAZOR"], *options, self.folder / old, self.folder / new)

    def test_a_pipeline_fails_on_what_it_asks_for(self):
        for words, says in (
            (("--fail-on", "permits", "old", "new"), "permits: 10.0.0.0:0 > 0.0.0.0:22 tcp: deny before, accept now"),
            (("--fail-on", "denies", "--fail-on", "permits", "old", "new"), "denies: 10.0.0.0:0 > 0.0.0.0:23 tcp: accept before, deny now"),
            (("--fail-on", "any", "old", "new"), "any: 10.0.0.0:0 > 0.0.0.0:22 tcp: deny before, accept now"),
            (("--fail-on", "dead", "old", "dead"), "dead: line 2 is never first: @10.1.0.0/16 0.0.0.0/0 0 : 65535 22 : 22 0x06/0xFF accept"),
            (("--fail-on", "flags", "old", "flagged"), f"flags: in {self.folder}/flagged 1 rules ask for flags, which take no part"),
            (("--fail-on", "permits", "--deny", "accept", "old", "new"), "permits: 10.0.0.0:0 > 0.0.0.0:23 tcp: accept before, deny now"),
        ):
            ended = self.call(*words)
            self.assertEqual((ended.returncode, ended.stderr.partition(": ")[2]), (1, f"{says}\n"), words)
            self.assertTrue(ended.stdout.endswith("</html>\n"))
        for words in (("--fail-on", "permits", "old", "dead"), ("--fail-on", "dead", "old", "new"), ("--fail-on", "flags", "--fail-on", "any", "old", "old"), ("old", "new")):
            self.assertEqual(self.call(*words).returncode, 0, words)

    def test_a_bad_list_is_refused_in_the_words_of_the_program(self):
        ended = self.call("old", "bad")
        self.assertEqual((ended.returncode, ended.stdout), (3, ""))
        self.assertTrue(ended.stderr.endswith(f"{self.folder}/bad: line 1: address\n"), ended.stderr)
        self.assertEqual(self.call("old", "nowhere").returncode, 5)
        self.assertEqual(self.call("--json", "/nowhere/file", "old", "new").returncode, 6)

    def test_the_data_of_the_page_is_written_as_json(self):
        self.assertEqual(self.call("--json", self.folder / "data", "old", "new").returncode, 0)
        data = json.loads((self.folder / "data").read_text())
        self.assertEqual((data["version"], data["is_alike"], data["deny"]), (2, False, ["deny", "drop"]))
        self.assertEqual(data["permitted"]["boxes"], [{"box": {"source": ["10.0.0.0", "10.255.255.255"], "destination": ["0.0.0.0", "255.255.255.255"], "source_port": [0, 65535], "destination_port": [22, 22], "protocol": [6, 6]}, "old": "deny", "new": "accept"}])
        self.assertEqual(data["difference"]["new"], {"decision": "accept", "line": 2, "rule": "@0.0.0.0/0 0.0.0.0/0 0 : 65535 0 : 65535 0x00/0x00 accept"})
        self.assertEqual(data["validation"], {"is_valid": True, "says": "equal"})

    def test_the_rules_are_named_that_keep_another_one_from_being_first(self):
        ended = self.call("--json", self.folder / "data", "old", "halves")
        self.assertEqual([(3, [2]), (4, [1, 2])], [(it["line"], it["hidden_by"]) for it in json.loads((self.folder / "data").read_text())["idle"] if it["now"] == "never"])
        self.assertIn("lines 1 and 2 together match all that it matches", ended.stdout)
        self.assertIn("line 2 matches all that it matches", ended.stdout)

    def test_lists_without_a_name_have_a_title(self):
        code = f"exec {sys.executable} -B -c 'from tcam_razor import report; report.call()' <(cat old) <(cat new)"
        ended = subprocess.run(["bash", "-c", code], cwd=self.folder, capture_output=True, text=True, env=os.environ | {"PYTHONPATH": str(PACKAGE)})
        self.assertIn("<title>the old list → the new list</title>", ended.stdout)
        self.assertIn("razor equiv OLD NEW", ended.stdout)
        self.assertNotIn("/dev/fd", ended.stdout)


@unittest.skipUnless(REVIEW.exists() and shutil.which("git"), "the package stands by itself, or there is no git")
@with_program
class Review(unittest.TestCase):
    """The script for a pipeline in docs/REVIEW.md runs as it stands, and says what is shown."""

    def test_the_script_stops_a_change_that_permits_more(self):
        commands, shown = EXAMPLE.search(REVIEW.read_text()).groups()
        with tempfile.TemporaryDirectory() as name:
            folder = pathlib.Path(name)
            (folder / "tools").symlink_to(ROOT / "tools")
            lines = ["@10.9.0.0/16 0.0.0.0/0 0 : 65535 0 : 65535 0x00/0x00 deny\n", "@0.0.0.0/0 0.0.0.0/0 0 : 65535 0 : 65535 0x00/0x00 accept\n"]
            (folder / "edge.list").write_text("".join(lines))
            for words in (["init", "-q"], ["add", "edge.list"], ["-c", "user.name=a", "-c", "user.email=a@b", "commit", "-qm", "A list"]):
                subprocess.run(["git", *words], cwd=folder, check=True)
            (folder / "edge.list").write_text(lines[1])
            ended = subprocess.run(["bash", "-c", commands], cwd=folder, capture_output=True, text=True)
            self.assertEqual((ended.returncode, ended.stderr), (1, shown))
            self.assertEqual(json.loads((folder / "change.json").read_text())["permitted"]["is_all"], True)
            self.assertTrue((folder / "change.html").read_text().endswith("</html>\n"))
