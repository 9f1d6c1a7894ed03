"""The lines that the program reads and writes, and how an engineer writes what they hold."""
import ipaddress
import re
from typing import Callable

from tcam_razor import headers, tables
from tcam_razor.script import shown

NAME = tables.NAME

Span = tuple[int, int]

# Five numbers with words before and behind them, five spans, and the states of rules.
HEADER = re.compile(r"((?:[a-z]{2,} +(?:(?:\d+ +)?[a-z]+ +)?)?)(\d+(?:\s+\d+){4})((?:\s.*)?)")
BOX = re.compile(r"(\d+-\d+(?: \d+-\d+){4})((?: (?:\d+|-) (?:\d+|-))?)")
STATE = re.compile(r"rule (\d+) (?:live|droppable|never)(?: .*)?")

# What `equiv`, `cert` and others say where a header is decided differently, and how.
DIFFER = re.compile(rf"(?:valid )?differ((?: \d+){{5}}) {NAME} {NAME}(?: pairs=\d+)?")

# An entry of a table in a slot, or a write of one.
SLOT = re.compile(r"((?:set )?\d+) (.*)")

# Lines in which there is nothing to show otherwise.
PLAIN = re.compile(
    r"[ \t]*(#.*)?"
    r"|[ \t]*(add[ \t]+\d+[ \t]+)?@.*"
    r"|(rows|boxes|rules|begun|begin|drop|clear|no place) +\d+"
    r"|no room \d+ \d+( \d+)?"
    r"|rule \d+ never"
    r"|equal|valid (rows|equal pairs)=\d+|wrong (row|line) \d+: .*"
    r"|proof 1 rules \d+ entries \d+( before( \d+){5})?|([er]|p \d+ \d+)( ([er]?\d+|-|>))+|pairs \d+"
    r"|busy|idle|device fault|list full|step|abort|stage|commit"
    r"|stage \d+ of \d+( back)?"
    r"|\d+ entries needed, limit \d+"
    rf"|{NAME}"
)


def is_state(line: str) -> int | None:
    """The number of the rule whose state the line tells, or none."""
    found = STATE.fullmatch(line)
    return int(found[1]) if found else None


def differing(line: str) -> headers.Header | None:
    """The header that a line says is decided differently, or none."""
    found = DIFFER.fullmatch(line)
    try:
        return headers.header(found[1].split()) if found else None
    except ValueError:
        return None


def shown_line(line: str) -> str | None:
    """A line as it is shown, or none where no text of the program has such a line."""
    for pattern, show in SHOWN:
        found = pattern.fullmatch(line)
        text = show(*found.groups()) if found else None
        if text:
            return seen(text)
    return seen(line) if PLAIN.fullmatch(line) else None


def seen(line: str) -> str:
    return shown(line.expandtabs())


def with_header(front: str, numbers: str, rest: str) -> str | None:
    try:
        return f"{front}{headers.header(numbers.split()).shown}{rest}"
    except ValueError:
        return None


def with_box(spans: str, claims: str) -> str | None:
    pairs = (span.split("-") for span in spans.split())
    ends = [(int(low), int(high)) for low, high in pairs]
    if any(low > high or high >> width for (low, high), width in zip(ends, headers.WIDTHS)):
        return None
    return "  ".join(map(shown_span, ends, headers.WIDTHS)) + claims


def with_entry(front: str, text: str) -> str | None:
    try:
        return f"{front}  {'  '.join(tables.entry_of(0, text + chr(10)).columns())}"
    except ValueError:
        return None


def shown_span(span: Span, width: int) -> str:
    """A span of a field: open, one value, a prefix of addresses, or its ends."""
    low, high = span
    if high - low == (1 << width) - 1:
        return "*"
    if width == 32:
        first, last = map(ipaddress.IPv4Address, span)
        prefixes = list(ipaddress.summarize_address_range(first, last))
        return str(first) if first == last else str(prefixes[0]) if len(prefixes) == 1 else f"{first}-{last}"
    if low == high:
        return headers.protocol_name(low) if width == 8 else str(low)
    return f"{low}-{high}"


# The lines that hold what is shown otherwise, and how it is shown of their parts.
SHOWN: tuple[tuple[re.Pattern[str], Callable[..., str | None]], ...] = ((HEADER, with_header), (BOX, with_box), (SLOT, with_entry))
