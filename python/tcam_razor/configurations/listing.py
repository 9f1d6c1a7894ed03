"""What an import makes: the rules of a list, and for each line of the source which rules are its own, or why it has none."""
from __future__ import annotations

import re
from dataclasses import dataclass, field
from typing import Iterator

from . import fields
from .fields import Box, Spans

MOST_RULES = 65536
# The most rules that a line may become, if nothing else is said.
MOST_OF_A_LINE = 4096
# The most ranges of a port column of a rule.
MOST_RANGES = 16

UNSEEN = re.compile(r"[\x00-\x1f\x7f]")


class Refused(Exception):
    """A line, or a whole configuration, that has no exact form as rules, and why."""

    def __init__(self, reason: str) -> None:
        super().__init__(reason)
        self.reason = reason


@dataclass(frozen=True)
class Assumed:
    """What is fixed of a packet beside its five fields. What is None was not said, so a line that asks for it is refused."""

    state: str | None = None
    has_no_fragments: bool = False
    incoming: str | None = None
    outgoing: str | None = None
    icmp: tuple[int, int] | None = None


@dataclass
class Source:
    """A line of the source at a place where it takes part: the spans of rules that are its own, and what is to be noted."""

    place: str
    text: str
    spans: list[tuple[int, int]] = field(default_factory=list)
    note: str = ""

    def row(self) -> str:
        """Its row in a map."""
        rules = ",".join(f"{first}-{last}" for first, last in self.spans) or "-"
        return "\t".join([rules, *(UNSEEN.sub(" ", part) for part in (self.place, self.note, self.text))])

    def told(self, what: str) -> str:
        """What is said of the line, in one line."""
        return f"{self.place}: {what}: {UNSEEN.sub(' ', self.text)}"


@dataclass
class Listing:
    """The list that an import makes; where it has faults, it is none."""

    most: int = MOST_OF_A_LINE
    words: dict[str, str] = field(default_factory=dict)  # in place of decisions
    rules: list[str] = field(default_factory=list)
    sources: list[Source] = field(default_factory=list)
    # In order, each once.
    notices: dict[str, None] = field(default_factory=dict)
    faults: dict[str, None] = field(default_factory=dict)

    def begin(self, place: str, text: str) -> Source:
        """A line of the source takes part here."""
        source = Source(place, text)
        self.sources.append(source)
        return source

    def add(self, source: Source, boxes: list[Box], decision: str) -> None:
        """Appends the rules by which a line decides these boxes."""
        made = sum(map(count, boxes))
        if made > self.most:
            raise Refused(f"{made} rules needed, limit {self.most}")
        if len(self.rules) + made > MOST_RULES:
            raise Refused(f"more than {MOST_RULES} rules in all")
        first = len(self.rules) + 1
        word = self.words.get(decision, decision)
        for box in boxes:
            self.rules += (f"{columns} {word}" for columns in columns_of(box))
        if len(self.rules) >= first:
            source.spans.append((first, len(self.rules)))
        elif not source.spans:
            source.note = source.note or "no header reaches it"

    def leave_out(self, source: Source, why: str) -> None:
        """A line becomes no rule."""
        source.note = why
        self.notice(source, why)

    def notice(self, source: Source, why: str) -> None:
        """A line takes part otherwise than as written."""
        self.notices[source.told(why)] = None

    def refuse(self, source: Source, reason: str) -> None:
        """A line has no exact form."""
        self.faults[source.told(reason)] = None

    def map(self) -> str:
        """Which rules each line became."""
        return f"map 1 rules {len(self.rules)} rows {len(self.sources)}\n" + "".join(f"{source.row()}\n" for source in self.sources)


def count(box: Box) -> int:
    """How many rules a box becomes."""
    addresses = len(fields.prefixes(box.source)) * len(fields.prefixes(box.destination))
    return addresses * len(port_columns(box.source_ports)) * len(port_columns(box.destination_ports)) * len(protocol_columns(box.protocols))


def columns_of(box: Box) -> Iterator[str]:
    """The columns of the rules that hold the headers of a box."""
    if box.has_ports and not are_ported(box.protocols):
        raise Refused("ports of protocols that have none")
    for source in address_columns(box.source):
        for destination in address_columns(box.destination):
            for source_ports in port_columns(box.source_ports):
                for destination_ports in port_columns(box.destination_ports):
                    for protocol in protocol_columns(box.protocols):
                        yield f"@{source} {destination} {source_ports} {destination_ports} {protocol}"


def are_ported(protocols: Spans) -> bool:
    """Whether all these protocols have ports."""
    return all(number in fields.PORTED for low, high in protocols for number in range(low, high + 1))


def address_columns(addresses: Spans) -> list[str]:
    return [f"{dotted(value)}/{length}" for value, length in fields.prefixes(addresses)]


def port_columns(ports: Spans) -> list[str]:
    return [",".join(f"{low} : {high}" for low, high in ports[at:at + MOST_RANGES]) for at in range(0, len(ports), MOST_RANGES)]


def protocol_columns(protocols: Spans) -> list[str]:
    if protocols == fields.EVERY_PROTOCOL:
        return ["0x00/0x00"]
    return [f"0x{number:02X}/0xFF" for low, high in protocols for number in range(low, high + 1)]


def dotted(address: int) -> str:
    """An address as four numbers with points."""
    return ".".join(str(address >> shift & 255) for shift in (24, 16, 8, 0))
