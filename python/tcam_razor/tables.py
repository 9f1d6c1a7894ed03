"""Tables in the compact text: their entries, and which headers these match. A bad text is refused in the program's words."""
import dataclasses
import ipaddress
import os
import re
from typing import Iterable, Sequence

from tcam_razor import script
from tcam_razor.errors import BadText
from tcam_razor.headers import WIDTHS, protocol_name

# As many entries a table has at most, and as many slots a memory.
MOST_ENTRIES = 262_144
# As many rules a list has at most.
MOST_RULES = 65_536

SLOT_WIDTH = r"(104|144|288)"
COUNT = r"(0|[1-9]\d{0,6})"
FIRST = re.compile(rf"table 2 slot {SLOT_WIDTH} composed {COUNT} entries {COUNT}\n")
# A decision word, that of a rule without one, or that nothing is decided.
NAME = r"(?:miss|#[1-9]\d{0,4}|[A-Za-z0-9_.-]{1,32})"

FIELDS = re.compile(rf"{' '.join(rf'([0-9A-Fa-f]{{{width // 4}}})/([0-9A-Fa-f]{{{width // 4}}})' for width in WIDTHS)}(?: |$)")
DECISION = re.compile(rf"({NAME})\n")

COLUMNS = ("source", "destination", "source port", "destination port", "protocol", "decision")


@dataclasses.dataclass(frozen=True)
class Field:
    """What an entry asks of a field."""

    value: int
    mask: int
    width: int

    @property
    def length(self) -> int | None:
        """The length of the prefix that the field asks for; none where it asks for other bits than the first ones."""
        open_bits = self.mask ^ (1 << self.width) - 1
        return self.width - open_bits.bit_length() if open_bits & (open_bits + 1) == 0 else None

    @property
    def last(self) -> int:
        """The greatest value that matches."""
        return self.value | self.mask ^ (1 << self.width) - 1

    def matches(self, value: int) -> bool:
        return value & self.mask == self.value


@dataclasses.dataclass(frozen=True)
class Entry:
    """An entry: its number, its fields, and its decision."""

    number: int
    fields: tuple[Field, ...]
    decision: str

    def matches(self, header: Iterable[int]) -> bool:
        return all(field.matches(value) for field, value in zip(self.fields, header))

    @property
    def spans(self) -> tuple[tuple[tuple[int, int]], ...]:
        """For each field the span that the entry asks for; its words are prefixes."""
        return tuple(((field.value, field.last),) for field in self.fields)

    def columns(self) -> tuple[str, ...]:
        source, destination, source_port, destination_port, protocol = self.fields
        return (shown_address(source), shown_address(destination), shown_port(source_port), shown_port(destination_port), shown_protocol(protocol), self.decision)


def shown_address(field: Field) -> str:
    if field.mask == 0:
        return "*"
    if field.length is None:
        return f"{ipaddress.IPv4Address(field.value)} mask {ipaddress.IPv4Address(field.mask)}"
    network = ipaddress.IPv4Network((field.value, field.length))
    return str(network if field.length < field.width else network.network_address)


def shown_port(field: Field) -> str:
    if field.mask == 0:
        return "*"
    if field.length is None:
        return f"{field.value} mask 0x{field.mask:04X}"
    return str(field.value) if field.value == field.last else f"{field.value}-{field.last}"


def shown_protocol(field: Field) -> str:
    if field.mask == 0:
        return "*"
    return protocol_name(field.value) if field.value == field.last else f"0x{field.value:02X} mask 0x{field.mask:02X}"


def entries(path: str | os.PathLike[str]) -> list[Entry]:
    return entries_of(script.title(path), list(script.lines(path)))


def entries_of(name: str, lines: Sequence[str]) -> list[Entry]:
    """The entries of a table's lines."""
    first = FIRST.fullmatch(lines[0]) if lines else None
    if first is None and lines and lines[0].startswith("table 1 "):
        raise BadText(name, "line 1: no table of version 2; razor migrate makes one of version 1")
    if first is None or max(int(first[2]), int(first[3])) > MOST_ENTRIES:
        raise BadText(name, "line 1: first line")
    stated = int(first[3])
    found = [entry(name, number, line) for number, line in enumerate(lines[1 : stated + 1], 1)]
    expect_count(name, "entries", stated, len(lines) - 1)
    return found


def expect_count(name: str, things: str, stated: int, found: int) -> None:
    """Refuses a text whose first line states another number of lines behind it than there are."""
    if found != stated:
        raise BadText(name, f"line {min(stated, found) + 2}: count of {things} differs, stated {stated} found {found}")


def entry(name: str, number: int, line: str) -> Entry:
    try:
        return entry_of(number, line)
    except ValueError as fault:
        raise BadText(name, f"line {number + 1}: {fault}") from None


def entry_of(number: int, line: str) -> Entry:
    """The entry of a line; a ValueError with the reason where it is none."""
    found = FIELDS.match(line)
    if found is None:
        raise ValueError("field form")
    numbers = [int(word, 16) for word in found.groups()]
    fields = tuple(map(Field, numbers[::2], numbers[1::2], WIDTHS))
    if any(field.value & ~field.mask for field in fields):
        raise ValueError("value outside mask")
    decision = DECISION.fullmatch(line, found.end())
    if decision is None or decision[1].startswith("#") and int(decision[1][1:]) > MOST_RULES:
        raise ValueError("decision")
    return Entry(number, fields, decision[1])
