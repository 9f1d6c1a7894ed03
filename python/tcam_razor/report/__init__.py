"""Writes one HTML page that shows what a change of a list does: tools/report OLD NEW > PAGE

    tools/report web.list web.new.list > change.html
    tools/report <(git show HEAD:web.list) web.list > change.html
    tools/report --fail-on permits --fail-on dead --json change.json OLD NEW > change.html

What is newly permitted comes first: headers that a word of --deny decided (`deny` and `drop` without it), and that another word
decides now, or none. Then come what is newly denied and what else is decided differently, box by box; the rules that were put
in and taken out; those that became shadowed or redundant; the sizes of both lists' tables by command; the writes that lead
from one table to the other in its slots beside those of a whole swap; and whether the new table decides as its list.
The page fetches nothing and runs nothing; the same lists and the same program give the same page. What the program doesn't
answer in --seconds is said not to be known. --json writes what the page is made of.

With --fail-on WHAT the status is 1 where it holds, and a line on standard error says so with the first header:

    permits    something is newly permitted        any        some header is decided differently
    denies     something is newly denied           dead       a rule became one that is never first
    entries=N  the shortened table has more        writes=N   the plan has more, or no room
    flags      a rule of the new list asks for flags, which take no part

The page and the JSON are written all the same. The status is 4 where none of them holds, and one isn't known. Else it is 0; 2
for words that are none, 3 for a bad list, 5 where one can't be read, 6 where something can't be written, 126 without a program.
"""
from __future__ import annotations

import argparse
import os
import pathlib
import re
import sys
import tempfile
from typing import Callable, Sequence

from tcam_razor import script
from tcam_razor.errors import ReadFault, TooMany, WriteFault
from tcam_razor.razor import Razor
from tcam_razor.razor import found as found_program
from tcam_razor.report.change import DENY, Change, Version
from tcam_razor.report.failing import Condition, condition
from tcam_razor.report.findings import Findings, as_json, found
from tcam_razor.report.page import page

# What a shell gives in the place of <(COMMAND), and standard input.
UNNAMED = re.compile(r"-|/dev/(stdin|fd/\d+)|/proc/(self|\d+)/fd/\d+")

# How a list is called that has no name of its own: on the page, and in a command.
CALLED = (("the old list", "OLD"), ("the new list", "NEW"))


def arguments() -> argparse.Namespace:
    words = script.words(__doc__)
    words.add_argument("--slots", type=int, metavar="N", help="the slots in which writes are planned; without it a fifth more than the longer table, or as many as are needed")
    words.add_argument("--seconds", type=seconds, default=60, metavar="N", help="how long a command may take; 60 without it")
    words.add_argument("--deny", action="append", metavar="WORD", help="a decision that denies; deny and drop without it")
    words.add_argument("--fail-on", action="append", default=[], type=condition, metavar="WHAT", help="end with 1 where it holds")
    words.add_argument("--json", metavar="FILE", help="write the data of the page too")
    words.add_argument("--program", metavar="RAZOR", help="razor, if not that of the variable RAZOR, or the one that lies beside this script or is found as commands are")
    words.add_argument("old", metavar="OLD", help="a list")
    words.add_argument("new", metavar="NEW", help="the list behind the change")
    return words.parse_args()


def seconds(word: str) -> float:
    value = float(word)
    if not 0 < value < 1e6:
        raise argparse.ArgumentTypeError("a time is more than 0 seconds")
    return value


def text_of(path: str) -> str:
    """The text of a list. It is read once, so that it may come from a pipe."""
    try:
        data = sys.stdin.buffer.read() if path == "-" else pathlib.Path(path).read_bytes()
    except OSError as fault:
        raise ReadFault(f"{script.title(path)}: {fault.strerror}") from None
    return data.decode("ascii", "replace")


def named(paths: Sequence[str]) -> list[tuple[str, str]]:
    """What each list is called on the page, and in a command."""
    return [called if UNNAMED.fullmatch(path) else (path, path) for path, called in zip(paths, CALLED)]


def findings_of(given: argparse.Namespace, program: str) -> Findings:
    """What the change does from the list OLD to the list NEW."""
    paths = (given.old, given.new)
    texts = [text_of(path) for path in paths]
    titles, commands = zip(*named(paths))
    with tempfile.TemporaryDirectory() as folder:
        razor = Razor(program, folder)
        old, new = (Version(razor, *each, given.seconds) for each in zip(("old.list", "new.list"), titles, texts))
        change = Change(old, new, given.slots, given.deny or DENY)
        return found(change, titles, commands, pathlib.Path(program).read_bytes())


def write_json(path: str, findings: Findings) -> None:
    try:
        pathlib.Path(path).write_text(as_json(findings))
    except OSError as fault:
        raise WriteFault(f"{script.title(path)}: {fault.strerror}") from None


def expect_none(findings: Findings, conditions: Sequence[Condition]) -> None:
    """Ends with 1 where a condition holds, and with 4 where it isn't known whether one does."""
    answers = [each.answer(findings) for each in conditions]
    for answer in answers:
        if answer.holds:
            script.end(answer.says)
    for answer in answers:
        if answer.holds is None:
            raise TooMany(answer.says)


def main(program_of: Callable[[str | None], str | os.PathLike[str]]) -> None:
    given = arguments()
    findings = findings_of(given, os.fspath(program_of(given.program)))
    if given.json is not None:
        write_json(given.json, findings)
    sys.stdout.write(page(findings))
    sys.stdout.flush()
    expect_none(findings, given.fail_on)


def call(program_of: Callable[[str | None], str | os.PathLike[str]] = found_program) -> None:
    """Runs the script; which program is run says a function of the one that is given, or none."""
    script.run(lambda: main(program_of))
