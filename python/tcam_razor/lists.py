"""Filter lists: their rules, and which headers these hold."""
import dataclasses
import ipaddress
import os
import re
from typing import Iterable

from tcam_razor import script
from tcam_razor.errors import BadText
from tcam_razor.headers import MISS, without_zeros

ADDRESS = r"(\d+\.\d+\.\d+\.\d+/\d+)"
PORTS = r"(\d+\s*:\s*\d+(?:\s*,\s*\d+\s*:\s*\d+)*)"
PROTOCOL = r"0[xX]([0-9A-Fa-f]{1,2})/0[xX]([0-9A-Fa-f]{1,2})"
FLAGS = r"0[xX][0-9A-Fa-f]{1,4}/0[xX]([0-9A-Fa-f]{1,4})"
DECISION = r"(?P<decision>[A-Za-z0-9_.-]{1,32})"
RULE = re.compile(rf"\s*@{ADDRESS}\s+{ADDRESS}\s+{PORTS}\s+{PORTS}\s+{PROTOCOL}(?:\s+{FLAGS})?(?:\s+{DECISION})?\s*")
SKIPPED = re.compile(r"[ \t]*(#.*)?\s*")

# As many ranges a column of ports has at most.
MOST_RANGES = 16
LAST_PORT = 65_535

Spans = tuple[tuple[int, int], ...]


@dataclasses.dataclass(frozen=True)
class Rule:
    """A rule: its number, its line, for each field the spans that it holds, its decision, and whether it asks for flags."""

    number: int
    line: int
    text: str
    spans: tuple[Spans, ...]
    decision: str
    is_flagged: bool

    @property
    def columns(self) -> str:
        """Its text without the word of its decision: such a rule decides its number."""
        return self.text if self.decision.startswith("#") else self.text.removesuffix(self.decision)

    def holds(self, header: Iterable[int]) -> bool:
        return all(any(low <= value <= high for low, high in spans) for spans, value in zip(self.spans, header))

    def covers(self, other: "Rule") -> bool:
        """Whether each span of the other rule lies in one of this rule, in every field."""
        return all(
            all(any(low <= first and last <= high for low, high in spans) for first, last in others)
            for spans, others in zip(self.spans, other.spans)
        )


def address_span(word: str) -> Spans:
    network = ipaddress.IPv4Network(without_zeros(word), strict=False)
    return ((int(network.network_address), int(network.broadcast_address)),)


def port_spans(text: str) -> Spans:
    pairs = (span.split(":") for span in text.split(","))
    spans = tuple((int(low), int(high)) for low, high in pairs)
    if len(spans) > MOST_RANGES or any(not low <= high <= LAST_PORT for low, high in spans):
        raise ValueError("no ports")
    return spans


def protocol_span(value: str, mask: str) -> Spans:
    if int(mask, 16) not in (0, 0xFF):
        raise ValueError("neither one protocol nor all")
    return ((int(value, 16),) * 2 if int(mask, 16) else (0, 255),)


def rules(path: str | os.PathLike[str]) -> list[Rule]:
    """The rules of a list, in order."""
    return rules_of(script.title(path), script.lines(path))


def rules_of(name: str, lines: Iterable[str]) -> list[Rule]:
    """The rules of a list's lines."""
    of_rules = ((number, text) for number, text in enumerate(lines, 1) if not SKIPPED.fullmatch(text))
    return [rule(name, number, *line) for number, line in enumerate(of_rules, 1)]


def rule(name: str, number: int, line: int, text: str) -> Rule:
    try:
        return parsed(number, line, text)
    except ValueError:
        raise BadText(name, f"line {line}: no rule of a list") from None


def parsed(number: int, line: int, text: str) -> Rule:
    """The rule of a line; a ValueError where it is none."""
    found = RULE.fullmatch(text)
    if found is None or found["decision"] == MISS:
        raise ValueError("another form")
    source, destination, source_ports, destination_ports, value, mask, flags, decision = found.groups()
    spans = (address_span(source), address_span(destination), port_spans(source_ports), port_spans(destination_ports), protocol_span(value, mask))
    return Rule(number, line, " ".join(text.split()), spans, decision or f"#{number}", int(flags or "0", 16) != 0)
