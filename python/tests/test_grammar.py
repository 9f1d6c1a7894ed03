"""Which words spell a command. What is wanted are the rules of docs/razor.1.md, and the worked rows of `command_words`."""
import pathlib
import unittest

try:
    import tomllib
except ModuleNotFoundError:
    raise unittest.SkipTest("tomllib came with Python 3.11") from None

from tcam_razor import grammar
from tcam_razor.grammar import File

ROWS = pathlib.Path(__file__).resolve().parents[2] / "tests/rows/words.toml"
FORMS = grammar.forms(tomllib.loads(ROWS.read_text())["texts"]["usage"])


def options(line):
    """The values of the options, where the line spells a command."""
    found = grammar.spelled(FORMS, line.split())
    return None if found is None else dict(found.options)


class Spelling(unittest.TestCase):
    def assert_spelled(self, *lines):
        for line in lines:
            with self.subTest(line):
                self.assertIsNotNone(grammar.spelled(FORMS, line.split()))

    def assert_unspelled(self, *lines):
        for line in lines:
            with self.subTest(line):
                self.assertIsNone(grammar.spelled(FORMS, line.split()))

    def test_the_first_word_is_the_name_of_a_command_whole(self):
        self.assert_spelled("cert list table", "check list table rows")
        self.assert_unspelled("", "compile", "comp in", "--help", "-- compile in")

    def test_an_option_stands_anywhere_behind_the_name(self):
        self.assertEqual(options("compile in"), {})
        for line in ("compile --limit 5 in", "compile --limit=5 in", "compile in --limit 5"):
            self.assertEqual(options(line), {"--limit": "5"})
        self.assertEqual(options("expand --slot 104 in --limit=7"), {"--slot": "104", "--limit": "7"})

    def test_an_option_stands_once_and_has_a_value(self):
        self.assert_unspelled("compile --limit -- in", "compile --slot --slot=104 in", "compile --limit==5 in", "compile --limit=5=5 in", "compile --limit= in")
        self.assert_unspelled("compile in --limit", "compile --limit 5 --limit 5 in", "compile --limit=5 --limit 5 in")

    def test_a_command_takes_its_own_options_alone(self):
        self.assert_unspelled("equiv --limit 5 a b", "compile --order 01234 in", "trim --slot 104 table", "place --slots=8 --slot=144 table")
        self.assert_unspelled("compile --lim 5 in", "compile --limits 5 in", "compile -x in", "compile --help in")

    def test_an_order_is_five_digits_or_best(self):
        self.assert_spelled("arrange in", "arrange --order=best in", "arrange --order 41032 in", "shorten --order best in")
        self.assert_unspelled(*(f"arrange --order={word} in" for word in ("01233", "01235", "0123", "/1234", "", "0000041032")))

    def test_two_dashes_end_the_options(self):
        self.assert_spelled("compile --limit 005 -- in", "compile -- --limit", "compile -- -x", "compile -- --", "compile in --")

    def test_files_are_as_many_as_the_command_has_and_no_two_are_equal(self):
        self.assert_spelled("compile -", "equiv - b")
        self.assertIsNotNone(grammar.spelled(FORMS, ["compile", ""]))
        self.assert_unspelled("equiv - -", "equiv a a", "compile a b", "check a b", "apply memory memory", "dump a b")

    def test_a_script_is_run_over_one_to_eight_tables(self):
        self.assert_spelled("drive --slots 4 s t", "drive s 1 2 3 4 5 6 7 8 --slots=262144")
        self.assert_unspelled("drive --slots 4 s 1 2 3 4 5 6 7 8 9", "drive --slots 4 s", "drive s t", "drive --slots 4 s t t", "drive --slots 4 s s", "drive --slots 0 s t")

    def test_a_session_says_how_tables_are_made_and_replaced(self):
        self.assert_spelled("session --slots 4 s in", "session --limit=1 --slot 104 s in --slots=262144", "session --slots 4 --swap patch s in")
        self.assert_spelled("session --order 41032 --slots 4 s in", "session --slots 4 --by=compile --order 41032 s in", "session --slots 4 s --by shorten --swap=patch in")
        self.assert_unspelled("session --order=best --slots 4 s in", "session --by shorten --order 41032 --slots 4 s in", "session --by arrange --slots 4 s in")
        self.assert_unspelled("session --slots 4 --swap block s in", "session s in", "session --slots 4 s", "session --slots 4 s s")

    def test_a_number_has_one_to_ten_digits_and_lies_in_its_range(self):
        self.assert_spelled("compile --limit 0000000005 in", "compile --limit 262144 in", "compile --slot 0144 in", "gen 2147483647 65536", "gen 7 7")
        self.assert_unspelled("compile --limit 00000000005 in", "compile --limit 0 in", "compile --limit 262145 in", "compile --limit +5 in", "compile --slot 128 in")
        self.assert_unspelled("gen 2147483648 1", "gen 1 65537", "place --slots 262145 table", "gen 1 -- -1")

    def test_a_query_asks_for_spans_and_a_decision(self):
        self.assert_spelled("query list * * * 443-443 6-6 accept", "query list 0-4294967295 * 0-65535 * 0-255 miss", "query list * * * * * #65536", "query list * * * * 0000000006-6 -- -x")
        self.assert_unspelled("query list * * * 443 6-6 accept", "query list * * * 9-8 * accept", "query list * * * * 0-256 accept", "query list * * * 0-65536 * accept")
        self.assert_unspelled("query list * * * * * #0", "query list * * * * * #65537", f"query list * * * * * {'x' * 33}", "query list 00000000000-0 * * * * accept", "query list * * * * accept")


class Forms(unittest.TestCase):
    def test_each_plain_word_is_of_its_kind(self):
        check = grammar.spelled(FORMS, "check list table rows".split())
        self.assertEqual(check.files, [("list", "list"), ("table", "table"), ("certificate", "rows")])
        session = grammar.spelled(FORMS, "session --slots 4 s in".split())
        self.assertEqual(session.files, [("session", "s"), ("list", "in")])
        self.assertEqual(FORMS["drive"].kinds(3), (File("script"), File("table"), File("table")))

    def test_a_label_of_which_nothing_is_known_is_refused(self):
        for line in ("  compile [--colour C] LIST", "  compile COLOUR", "  compile [--limit] LIST"):
            with self.assertRaises(ValueError):
                grammar.forms(f"usage: razor COMMAND\n{line}\n")

    def test_a_new_option_with_a_known_label_needs_nothing_more(self):
        forms = grammar.forms("usage: razor COMMAND\n  dump [--width W] MEMORY\n")
        self.assertIsNotNone(grammar.spelled(forms, "dump --width 288 memory".split()))
        self.assertIsNone(grammar.spelled(forms, "dump --width 289 memory".split()))
