"""The program `razor` as calls: texts in, typed answers out. Nothing is decided here, the program decides.

    import tcam_razor as razor
    lab = razor.List.load("lab.list")
    table = razor.shorten(lab)                    # a Table
    razor.equiv(lab, office)                      # None where they decide alike, else a Difference
    dead = [rule.number for rule in razor.audit(lab) if rule.state == "never"]

RAZOR names the program; without it `razor` is looked for in PATH. Each call writes its texts to files of a folder of its own,
and goes through no shell. What the program refuses is raised as it says it, by the names of the texts. A list with a flags
mask is refused, unless a call is made with `flags=True`.
"""
from __future__ import annotations

import os
import pathlib
import re
import shutil
import subprocess
import tempfile
from typing import Callable, Iterable, Sequence, overload

from . import flags as masks
from .answers import Answered, Box, Certificate, Difference, List, Memory, Plan, Proof, RuleState, Span, State, Table, Text, WrongLine, WrongRow
from .errors import BY_STATUS, BadText, NotFound, RazorError
from .headers import Header

MISS = "miss"
VALID_DIFFERENCE = re.compile(r"valid (differ .*) pairs=\d+\n")
RULES = re.compile(r"rules (\d+), flagged \d+.*\n")


def in_path() -> str:
    """The program in a folder of PATH."""
    program = shutil.which("razor")
    if not program:
        raise NotFound("no program razor: set RAZOR to its path, or put it into a folder of PATH")
    return program


# Finds the program where RAZOR names none.
finder: Callable[[], str] = in_path


def find_by(other: Callable[[], str]) -> None:
    """Has the program found otherwise where RAZOR names none, as the commands of a clone do."""
    global finder
    finder = other


def found() -> str:
    """The program that is called."""
    return os.environ.get("RAZOR") or finder()


def run(command: str, *options: str, texts: Sequence[Text] = (), words: Sequence[str] = ()) -> Answered:
    """Runs a command over texts, with further words behind them. What is no answer is raised."""
    with tempfile.TemporaryDirectory(prefix="razor-") as folder:
        paths = [os.path.join(folder, str(number)) for number in range(len(texts))]
        for path, text in zip(paths, texts):
            pathlib.Path(path).write_bytes(text.text.encode("utf-8", "surrogateescape"))
        try:
            ended = subprocess.run([found(), command, *options, "--", *paths, *words], stdin=subprocess.DEVNULL, capture_output=True)
        except OSError as fault:
            raise NotFound(f"{found()}: {fault.strerror}") from None
    out, told = (stream.decode("utf-8", "surrogateescape") for stream in (ended.stdout, ended.stderr))
    if ended.returncode not in (0, 1):
        raise error(ended.returncode, told.strip(), {path: text.name for path, text in zip(paths, texts)})
    return Answered(ended.returncode, out, told)


def error(status: int, told: str, names: dict[str, str]) -> RazorError:
    """What the program says where it has no answer, with the names of the texts in place of their files."""
    path = next((path for path in names if told.startswith(f"{path}: ")), "")
    inner = told[len(path) + 2:] if path else told
    if status == BadText.status:
        return BadText(names.get(path, ""), inner)
    message = f"{names[path]}: {inner}" if path else inner or f"razor ended with {status}"
    return BY_STATUS.get(status, RazorError)(message)


def options_of(**values: int | str | None) -> list[str]:
    return [f"--{name}={value}" for name, value in values.items() if value is not None]


def expect_unflagged(flags: bool, *lists: List) -> None:
    if not flags:
        for rules in lists:
            masks.expect_none(rules)


def made(command: str, rules: List, options: list[str], flags: bool) -> Table:
    """The table that a command makes of a list."""
    answered = run(command, *options, texts=[rules])
    expect_unflagged(flags, rules)
    counted = RULES.fullmatch(answered.told)
    if counted is None:
        raise RazorError(answered.told.strip())
    return Table(answered.text, f"table of {rules.name}", int(counted[1]))


def shorten(rules: List, *, limit: int | None = None, slot: int | None = None, order: str | None = None, flags: bool = False) -> Table:
    """A short table of a list: mostly the shortest that the program makes."""
    return made("shorten", rules, options_of(limit=limit, slot=slot, order=order), flags)


def compile(rules: List, *, limit: int | None = None, slot: int | None = None, flags: bool = False) -> Table:
    """A table that is composed field by field."""
    return made("compile", rules, options_of(limit=limit, slot=slot), flags)


def arrange(rules: List, *, limit: int | None = None, slot: int | None = None, order: str | None = None, flags: bool = False) -> Table:
    """The same over the fields in another order: this one, or the best."""
    return made("arrange", rules, options_of(limit=limit, slot=slot, order=order), flags)


def expand(rules: List, *, limit: int | None = None, slot: int | None = None, flags: bool = False) -> Table:
    """The direct expansion of a list."""
    return made("expand", rules, options_of(limit=limit, slot=slot), flags)


def trim(table: Table) -> Table:
    """The table without redundant entries."""
    return Table(run("trim", texts=[table]).text, table.name, table.rules)


def merge(table: Table) -> Table:
    """The table with entries joined that differ in one bit; the words may then be no prefixes."""
    return Table(run("merge", texts=[table]).text, table.name, table.rules)


def migrate(table: Table) -> Table:
    """The table of either version, in the compact text."""
    return Table(run("migrate", texts=[table]).text, table.name, table.rules)


def equiv(left: List, right: List, *, flags: bool = False) -> Difference | None:
    """The least header that two lists decide differently, or None."""
    answered = run("equiv", texts=[left, right])
    expect_unflagged(flags, left, right)
    return difference(answered.text) if answered.status else None


def difference(line: str) -> Difference:
    _, *values, left, right = line.split()
    return Difference(header(values), decided(left), decided(right))


def header(words: list[str]) -> Header:
    return Header(*map(int, words))


def decided(word: str) -> str | None:
    return None if word == MISS else word


def verify(rules: List, table: Table, *, flags: bool = False) -> Difference | None:
    """The least header that a list and a table of any words decide differently, or None. It may take very long."""
    answered = run("verify", texts=[rules, table])
    expect_unflagged(flags, rules)
    return difference(answered.text) if answered.status else None


def prove(rules: List, table: Table, *, flags: bool = False) -> Proof:
    """The proof of what `verify` answers, for `check`. It may take very long."""
    answered = run("prove", texts=[rules, table])
    expect_unflagged(flags, rules)
    return Proof(answered.text)


def cert(rules: List, table: Table, *, flags: bool = False) -> Certificate | Difference:
    """The certificate that list and table decide every header alike, or the least header on which they don't."""
    answered = run("cert", texts=[rules, table])
    expect_unflagged(flags, rules)
    return difference(answered.text) if answered.status else Certificate(answered.text)


@overload
def check(rules: List, table: Table, shown: Certificate, *, flags: bool = False) -> WrongRow | None: ...


@overload
def check(rules: List, table: Table, shown: Certificate | Proof, *, flags: bool = False) -> Difference | WrongLine | WrongRow | None: ...


def check(rules: List, table: Table, shown: Certificate | Proof, *, flags: bool = False) -> Difference | WrongLine | WrongRow | None:
    """None where a certificate or a proof shows that list and table decide every header alike.

    Else the least header that they decide differently, where a proof shows that; or the first row or line that is wrong.
    """
    answered = run("check", texts=[rules, table, shown])
    expect_unflagged(flags, rules)
    if not answered.status:
        return None
    differing = VALID_DIFFERENCE.fullmatch(answered.text)
    return difference(differing[1]) if differing else wrong(answered.text.strip())


def wrong(told: str) -> WrongLine | WrongRow:
    """The row or the line that is told to be wrong."""
    place, reason = told.removeprefix("wrong ").split(": ", 1)
    kind, number = place.split()
    return WrongLine(int(number), reason) if kind == "line" else WrongRow(int(number), reason)


def audit(rules: List, *, flags: bool = False) -> list[RuleState]:
    """Of each rule whether the list needs it."""
    answered = run("audit", texts=[rules])
    expect_unflagged(flags, rules)
    return [rule_state(line.split()) for line in answered.text.splitlines()]


def rule_state(words: list[str]) -> RuleState:
    _, number, word, *values = words
    states: dict[str, State] = {"live": "live", "droppable": "droppable", "never": "never"}
    return RuleState(int(number), states[word], header(values) if values else None)


def query(rules: List, decision: str | None, box: Sequence[Span | None] = (None,) * 5, *, flags: bool = False) -> list[Box]:
    """Boxes, of which no two share a header, of the headers of a box that a list decides so; None is the whole of a field, or no decision."""
    spans = ["*" if span is None else f"{span[0]}-{span[1]}" for span in box]
    answered = run("query", texts=[rules], words=[*spans, MISS if decision is None else decision])
    expect_unflagged(flags, rules)
    return [box_of(line.split()) for line in answered.text.splitlines()[:-1]]


def box_of(words: list[str]) -> Box:
    source, destination, source_port, destination_port, protocol = (span_of(word) for word in words)
    return source, destination, source_port, destination_port, protocol


def span_of(word: str) -> Span:
    low, high = word.split("-")
    return int(low), int(high)


def trace(table: Table, headers: Iterable[Header]) -> list[str | None]:
    """What a table decides of each header."""
    asked = Text("".join(f"{Header(*values)}\n" for values in headers), "headers")
    return [decided(word) for word in run("trace", texts=[table, asked]).text.split()]


def place(table: Table, slots: int) -> Memory:
    """A memory of so many slots in which the table stands."""
    return Memory(run("place", *options_of(slots=slots), texts=[table]).text)


def patch(memory: Memory, table: Table) -> Plan:
    """The writes that lead from a memory to a table in the same slots."""
    return Plan(run("patch", texts=[memory, table]).text)


def apply(memory: Memory, plan: Plan) -> Memory:
    """The memory after the writes of a plan."""
    return Memory(run("apply", texts=[memory, plan]).text, memory.name)


def dump(memory: Memory) -> Table:
    """The table that stands in a memory."""
    return Table(run("dump", texts=[memory]).text)


def gen(seed: int, rules: int) -> List:
    """A list of so many rules that a seed gives."""
    return List(run("gen", words=[str(seed), str(rules)]).text, f"gen {seed} {rules}")
