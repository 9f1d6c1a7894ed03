"""That rows are refused which have another form or can't fail, and that a program that does otherwise fails a row.

python3 -m unittest discover -s tests -t tests
"""
import pathlib
import tempfile
import unittest

from running import rows, runs

GOOD = 'name = "it is right"\ncall = "gen 1 0"\nstatus = 0\n'

# What makes a row another one, and a part of what is said of it.
REFUSED = {
    'call = "gen 1 0"\nstatus = 0': "no name",
    'name = "a"\nstatus = 0': "not one of call",
    'name = "a"\ncall = "gen"\nwords = ["gen"]\nstatus = 0': "not one of call",
    'name = "a"\ncalls = []\nstatus = 0': "calls nothing",
    'name = "a"\ncall = "gen 1 0"': "no status",
    GOOD + 'output = "a"': "unknown: output",
    GOOD + 'out = "a"\nout-begins = "a"': "two outputs",
    GOOD + 'out-begins = ""': "begins and ends with nothing",
    GOOD + "room = 5": "no output that is cut",
    GOOD + "failing-read = 0": "counted from 1",
    GOOD + 'failing-read = "5 to 4"': "no numbers",
    GOOD + "failing-read = []": "no numbers",
    GOOD + "reads-at-most = true": "no numbers",
    GOOD + 'out = { text = "other" }': "no text has the name 'other'",
    GOOD + 'out = { from = "tests/none" }': "there is no file",
    GOOD + 'out = { repeat = "a" }': "no number of times",
    GOOD + 'out = { text = "own", front = "1 to 2" }': "only files are cut",
    GOOD + 'files."a/b" = ""': "no names of a folder's files",
}


class Forms(unittest.TestCase):
    def said(self, text):
        with tempfile.TemporaryDirectory() as folder:
            path, faults = pathlib.Path(folder, "rows.toml"), []
            path.write_text(text)
            rows.read(path, faults)
            return faults

    def test_a_row_is_read(self):
        self.assertEqual(self.said(f"[[row]]\n{GOOD}"), [])

    def test_rows_of_another_form_are_refused(self):
        for row, part in REFUSED.items():
            with self.subTest(part):
                faults = self.said(f'[texts]\nown = "abc"\n[[row]]\n{row}\n[[row]]\nname = "b"\ncall = "gen"\nstatus = 0\nout = {{ text = "own" }}\n')
                self.assertEqual(len(faults), 1, faults)
                self.assertIn(part, faults[0])

    def test_what_no_row_uses_is_refused(self):
        self.assertIn("no row uses it", self.said(f'[texts]\nown = "abc"\n[[row]]\n{GOOD}')[0])
        self.assertIn("two rows have this name", self.said(f"[[row]]\n{GOOD}[[row]]\n{GOOD}")[0])
        self.assertIn("it has no rows", self.said("")[0])

    def test_a_text_names_those_before_it(self):
        self.assertIn("text own: no text has the name 'own'", self.said(f'[texts]\nown = {{ text = "own" }}\n[[row]]\n{GOOD}')[0])


class Wrong(unittest.TestCase):
    """Programs that do something else than a row wants."""

    def fails(self, program, row):
        with tempfile.TemporaryDirectory() as folder:
            path = pathlib.Path(folder, "program")
            path.write_text(f"#!/bin/sh\n{program}\n")
            path.chmod(0o755)
            said = {"name": "a", "call": "gen 1 1", "status": 0, "out": "one\ntwo\n", "err": "said\n", **row}
            return [line for lines in runs.Runner(path, folder).result(rows.Row("rows", said, {})).faults for line in lines]

    def test_the_right_program_passes(self):
        self.assertEqual(self.fails("printf 'one\\ntwo\\n'; echo said >&2", {}), [])
        self.assertEqual(self.fails("echo said >&2; cat", {"given": "one\ntwo\n"}), [])

    def test_others_fail(self):
        self.assertIn("status: wanted 0, came 3", self.fails("printf 'one\\ntwo\\n'; echo said >&2; exit 3", {}))
        self.assertIn("out: line 2", self.fails("printf 'one\\nthree\\n'; echo said >&2", {}))
        self.assertIn("  came   no line", self.fails("echo one; echo said >&2", {}))
        self.assertIn("err: line 1", self.fails("printf 'one\\ntwo\\n'", {}))
        self.assertIn("status: wanted 0, came signal 9", self.fails("kill -9 $$", {}))

    def test_what_is_made_by_a_call_is_made(self):
        self.assertIn("nothing is wanted of out", self.fails("echo said >&2", {"out": {"call": "gen 1 1"}})[0])
        self.assertIn("not tried: gen 1 1 ended with 1", self.fails("exit 1", {"files": {"a": {"call": "gen 1 1"}}})[0])


if __name__ == "__main__":
    unittest.main()
