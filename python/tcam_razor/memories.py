"""Memories and plans: what slots hold, and what is written to them. A bad text is refused in the program's words."""
import dataclasses
import os
import re
from typing import Iterable, Sequence

from tcam_razor import script, tables
from tcam_razor.errors import BadText
from tcam_razor.tables import COUNT, MOST_ENTRIES, SLOT_WIDTH, Entry

FIRST_OF_MEMORY = re.compile(rf"memory 1 slots {COUNT} width {SLOT_WIDTH} entries {COUNT}\n")
FIRST_OF_PLAN = re.compile(rf"plan 1 slots {COUNT} width {SLOT_WIDTH} writes {COUNT}\n")
MOST_WRITES = 1_048_576

KIND = re.compile(r"(set|clear)(?: |$)")
SLOT = re.compile(r"([1-9]\d{0,5})(?: |$)")

# What each slot holds, from slot 1 on.
Held = list[Entry | None]


@dataclasses.dataclass(frozen=True)
class Write:
    """What a slot, counted from 1, is made to hold: an entry, or none."""

    slot: int
    entry: Entry | None

    def __str__(self) -> str:
        return f"set {self.slot}" if self.entry else f"clear {self.slot}"


@dataclasses.dataclass(frozen=True)
class Plan:
    """Writes in order to a memory of so many slots."""

    slots: int
    writes: list[Write]


def memory(path: str | os.PathLike[str]) -> Held:
    return memory_of(script.title(path), list(script.lines(path)))


def plan(path: str | os.PathLike[str]) -> Plan:
    return plan_of(script.title(path), list(script.lines(path)))


def memory_of(name: str, lines: Sequence[str]) -> Held:
    """What each slot of a memory's text holds."""
    slots, stated = headed(name, lines, FIRST_OF_MEMORY, MOST_ENTRIES)
    if stated > slots:
        raise BadText(name, "line 1: first line")
    held: Held = [None] * slots
    last = 0
    for number, line in enumerate(lines[1 : stated + 1], 1):
        try:
            write = setting(number, line, last + 1, slots)
        except ValueError as fault:
            raise BadText(name, f"line {number + 1}: {fault}") from None
        last = write.slot
        held[last - 1] = write.entry
    tables.expect_count(name, "entries", stated, len(lines) - 1)
    return held


def plan_of(name: str, lines: Sequence[str]) -> Plan:
    """The plan of a plan's text."""
    slots, stated = headed(name, lines, FIRST_OF_PLAN, MOST_WRITES)
    writes = []
    for number, line in enumerate(lines[1 : stated + 1], 1):
        try:
            writes.append(write_of(number, line, slots))
        except ValueError as fault:
            raise BadText(name, f"line {number + 1}: {fault}") from None
    tables.expect_count(name, "writes", stated, len(lines) - 1)
    return Plan(slots, writes)


def headed(name: str, lines: Sequence[str], first: re.Pattern[str], most: int) -> tuple[int, int]:
    """How many slots the first line says, and how many lines stand behind it: so many at most."""
    found = first.fullmatch(lines[0]) if lines else None
    if found is None or not 1 <= int(found[1]) <= MOST_ENTRIES or int(found[3]) > most:
        raise BadText(name, "line 1: first line")
    return int(found[1]), int(found[3])


def write_of(number: int, line: str, slots: int = MOST_ENTRIES) -> Write:
    """The write of a plan's line; a ValueError with the reason where it is none."""
    kind = KIND.match(line)
    if kind is None:
        raise ValueError("unknown write")
    rest = line[kind.end() :]
    if kind[1] == "set":
        return setting(number, rest, 1, slots)
    slot, behind = slot_of(rest, 1, slots)
    if rest[behind - 1 : behind] == " ":
        raise ValueError("slot")
    if not rest.endswith("\n"):
        raise ValueError("decision")
    return Write(slot, None)


def setting(number: int, line: str, first: int, last: int) -> Write:
    """A slot between these, and the entry that is put there; a ValueError with the reason where they are none."""
    slot, behind = slot_of(line, first, last)
    return Write(slot, tables.entry_of(number, line[behind:]))


def slot_of(line: str, first: int, last: int) -> tuple[int, int]:
    """The slot with which a line begins, one between these, and where it goes on behind it."""
    found = SLOT.match(line)
    if found is None or not first <= int(found[1]) <= last:
        raise ValueError("slot")
    return int(found[1]), found.end()


def after(held: Held, writes: Iterable[Write]) -> Held:
    """What the slots hold after writes."""
    held = list(held)
    for write in writes:
        held[write.slot - 1] = write.entry
    return held


def entries_in(held: Iterable[Entry | None]) -> list[Entry]:
    """The entries by rising slot."""
    return [entry for entry in held if entry]


def answer(entries: Iterable[Entry], header: Sequence[int]) -> str | None:
    """The decision of the first entry that matches, or none."""
    return next((entry.decision for entry in entries if entry.matches(header)), None)
