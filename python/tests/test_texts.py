"""Tables, memories and plans are read as the program reads them: what it refuses is refused, at the same line and in its words."""
import random
import tempfile
import unittest

from tcam_razor import lists, memories, program, script, tables
from tcam_razor.errors import BadText, RazorError
from tests.calling import with_program

ENTRY = "0A000000/FF000000 00000000/00000000 0000/0000 0016/FFFF 06/FF"
TABLE = f"table 2 slot 144 composed 4 entries 2\n{ENTRY} accept\n00000000/00000000 00000000/00000000 0000/0000 0000/0000 00/00 #3\n"
MEMORY = f"memory 1 slots 6 width 144 entries 3\n2 {ENTRY} deny\n4 {ENTRY} accept\n6 {ENTRY} miss\n"
PLAN = f"plan 1 slots 6 width 144 writes 3\nset 3 {ENTRY} accept\nclear 4\nclear 2\n"

# A text, what in it is exchanged for what, and what the program's formats say of that: line and reason.
REFUSED = (
    (MEMORY, "2 0A", "5 0A", "line 3: slot"),
    (MEMORY, "4 0A", "2 0A", "line 3: slot"),
    (MEMORY, "6 0A", "7 0A", "line 4: slot"),
    (MEMORY, "2 0A", "0 0A", "line 2: slot"),
    (MEMORY, "2 0A", "02 0A", "line 2: slot"),
    (MEMORY, "slots 6", "slots 262145", "line 1: first line"),
    (MEMORY, "slots 6", "slots 2", "line 1: first line"),
    (MEMORY, "width 144", "width 145", "line 1: first line"),
    (MEMORY, "\n", "\r\n", "line 1: first line"),
    (MEMORY, "deny\n", "deny\r\n", "line 2: decision"),
    (MEMORY, "deny\n", "#65537\n", "line 2: decision"),
    (MEMORY, "0A000000/FF000000", "0A000000/FE000000 ", "line 2: field form"),
    (MEMORY, "0016/FFFF", "0016/FFF9", "line 2: value outside mask"),
    (MEMORY, "entries 3", "entries 4", "line 5: count of entries differs, stated 4 found 3"),
    (MEMORY, "entries 3", "entries 2", "line 4: count of entries differs, stated 2 found 3"),
    (PLAN, "set 3", "set 7", "line 2: slot"),
    (PLAN, "clear 4", "clear 4 ", "line 3: slot"),
    (PLAN, "clear 4\n", "clear 4\r\n", "line 3: slot"),
    (PLAN, "set 3", "put 3", "line 2: unknown write"),
    (PLAN, "writes 3", "writes 2", "line 4: count of writes differs, stated 2 found 3"),
    (PLAN, "slots 6", "slots 262145", "line 1: first line"),
    (PLAN, "writes 3", "writes 1048577", "line 1: first line"),
    (TABLE, "composed 4", "composed 262145", "line 1: first line"),
    (TABLE, "entries 2", "entries 3", "line 4: count of entries differs, stated 3 found 2"),
    (TABLE, "06/FF", "6/FF", "line 2: field form"),
    (TABLE, "accept", "acc*pt", "line 2: decision"),
)


def read(text):
    """Reads a text here, by its first word."""
    lines = text.splitlines(keepends=True) if "\r" not in text else [f"{line}\n" for line in text.split("\n")[:-1]]
    {"m": memories.memory_of, "p": memories.plan_of, "t": tables.entries_of}[text[0]]("text", lines)


def refusal(text):
    """What is said of a text that is refused here, or nothing."""
    try:
        read(text)
    except BadText as fault:
        return str(fault)
    return ""


def refusal_by_program(text):
    """What the program says of it."""
    reading = {
        "m": lambda: program.dump(program.Memory(text, "text")),
        "p": lambda: program.apply(program.Memory(MEMORY, "memory"), program.Plan(text, "text")),
        "t": lambda: program.migrate(program.Table(text, "text")),
    }
    try:
        reading[text[0]]()
    except RazorError as fault:
        return str(fault)
    return ""


def spoiled(rng):
    """A text with one to three places changed, taken out or put in; its first letter stays."""
    text = list(rng.choice((MEMORY, PLAN, TABLE)))
    for _ in range(rng.randrange(1, 4)):
        at = rng.randrange(1, len(text))
        text[at : at + rng.randrange(2)] = rng.choice(["", " ", "\n", "\r", "\t", "0", "7", "F", "x", "#", "/", "clear 3\n", f"5 {ENTRY} deny\n"])
    return "".join(text)


class Refused(unittest.TestCase):
    def test_as_the_formats_say(self):
        for text, old, new, says in REFUSED:
            with self.subTest(old=old, new=new):
                self.assertEqual(refusal(text), "")
                self.assertEqual(refusal(text.replace(old, new, 1) if new != "\r\n" else text.replace(old, new)), f"text: {says}")

    @with_program
    def test_as_the_program_does(self):
        rng = random.Random(1)
        texts = [text.replace(old, new, 1) for text, old, new, _ in REFUSED] + [spoiled(rng) for _ in range(60)]
        for text in texts:
            with self.subTest(text=text):
                self.assertEqual(refusal(text), refusal_by_program(text))


class Read(unittest.TestCase):
    def test_a_memory_holds_its_entries_by_slot(self):
        held = memories.memory_of("text", MEMORY.splitlines(keepends=True))
        self.assertEqual([entry and entry.decision for entry in held], [None, "deny", None, "accept", None, "miss"])

    def test_lines_end_with_a_line_feed_alone(self):
        with tempfile.NamedTemporaryFile() as file:
            file.write(b"a\r\nb\rc\n")
            file.flush()
            self.assertEqual(list(script.lines(file.name)), ["a\r\n", "b\rc\n"])

    def test_what_the_program_refuses_of_a_list_is_no_rule(self):
        rule = "@10.0.0.0/8 0.0.0.0/0 0 : 65535 22 : 22 0x06/0xFF accept\n"
        self.assertEqual(lists.rules_of("list", [rule])[0].decision, "accept")
        for old, new in (("22 : 22", "23 : 22"), ("22 : 22", "22 : 65536"), ("/8", "/33"), ("/8", "/255.0.0.0"), ("10.0", "256.0"), ("0xFF", "0x0F"), ("accept", "miss"), ("accept", "a:b"), ("accept", "accept # lab")):
            with self.subTest(new=new), self.assertRaises(BadText):
                lists.rules_of("list", [rule.replace(old, new)])
