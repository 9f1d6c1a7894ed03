"""What an audit says of a list, told by the lines of the configuration that it was imported from.

    razor audit LIST | razor-lines MAP

Behind the state of each rule stand the place and the text of the line that it comes from. Then a line follows for each line of
the configuration that has rules which never match first: `dead` where these are all its rules, at all places where it takes
part, and else how many they are. Rules that are `droppable` aren't summed up, since several may not go at once.

The status is 0, 2 for wrong words, 3 where the audit isn't one of the map's list, 5 and 6 for faults of reading and writing.
"""
from __future__ import annotations

import re
from dataclasses import dataclass

from . import commands, script
from .errors import BadText

FIRST = re.compile(r"map 1 rules (\d+) rows (\d+)")
# The place of what a configuration does with all that no line decides.
END = "end"
STATE = re.compile(r"rule ([1-9]\d*) (live|droppable|never)((?: \d+){5})?")


@dataclass(frozen=True)
class Row:
    """A line of a configuration, at a place where it takes part."""

    spans: tuple[tuple[int, int], ...]
    place: str
    note: str
    text: str


@dataclass(frozen=True)
class Map:
    """Which rules each line became."""

    rules: int
    rows: tuple[Row, ...]

    def owners(self) -> dict[int, Row]:
        """The row of each rule."""
        return {number: row for row in self.rows for first, last in row.spans for number in range(first, last + 1)}


def parsed(text: str) -> Map:
    """The map of a text; a ValueError says which line is none of a map."""
    first, *lines = text.removesuffix("\n").split("\n")
    heading = FIRST.fullmatch(first)
    if heading is None or int(heading[2]) != len(lines):
        raise ValueError("line 1: no map, or one of another number of rows")
    found = Map(int(heading[1]), tuple(row(number, line) for number, line in enumerate(lines, 2)))
    ruled = sorted(number for row in found.rows for first, last in row.spans for number in range(first, last + 1))
    if ruled != list(range(1, found.rules + 1)):
        raise ValueError("each rule stands in one row: not so in this map")
    return found


def row(number: int, line: str) -> Row:
    match line.split("\t"):
        case [spans, place, note, text] if spans == "-" or re.fullmatch(r"\d{1,5}-\d{1,5}(,\d{1,5}-\d{1,5})*", spans):
            pairs = [] if spans == "-" else [span.split("-") for span in spans.split(",")]
            return Row(tuple((int(first), int(last)) for first, last in pairs), place, note, text)
    raise ValueError(f"line {number}: no row of a map")


def told(found: Map, audit: list[str]) -> list[str]:
    """The lines of an audit with those of the configuration, and what is summed up."""
    owners = found.owners()
    lines = []
    never: dict[tuple[str, str], list[bool]] = {}
    for number, line in enumerate(audit, 1):
        state = STATE.fullmatch(line)
        if state is None or int(state[1]) != number or number not in owners:
            raise ValueError(f"{line}: no line of the audit of this map's list")
        owner = owners[number]
        lines.append(f"{line}  {owner.place}: {owner.text}")
        never.setdefault((owner.place, owner.text), []).append(state[2] == "never")
    if len(audit) != found.rules:
        raise ValueError(f"an audit of {len(audit)} rules, and a map of {found.rules}")
    return lines + [f"{summed(states)}  {'at the end' if place == END else place}: {text}" for (place, text), states in never.items() if any(states)]


def summed(states: list[bool]) -> str:
    return "dead" if all(states) else f"{sum(states)} of {len(states)} rules never match first"


def run(words: list[str]) -> int:
    parser = script.words(__doc__)
    parser.add_argument("map", metavar="MAP")
    asked = parser.parse_args(words)
    try:
        found = parsed(commands.read(asked.map))
    except ValueError as fault:
        raise BadText(asked.map, str(fault)) from None
    try:
        lines = told(found, commands.read("-").splitlines())
    except ValueError as fault:
        raise BadText("standard input", str(fault)) from None
    commands.answer("".join(f"{line}\n" for line in lines))
    return commands.DONE


def call() -> None:
    """Runs the command."""
    commands.call(run)
