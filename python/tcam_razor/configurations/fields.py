"""The five fields of a header: sets of values of one field (`Spans`), and boxes of headers, which are a set in each field."""
from __future__ import annotations

from typing import NamedTuple

Span = tuple[int, int]
# Sorted, and apart from each other by at least one value.
Spans = tuple[Span, ...]

EVERY_ADDRESS: Spans = ((0, 0xFFFFFFFF),)
EVERY_PORT: Spans = ((0, 0xFFFF),)
EVERY_PROTOCOL: Spans = ((0, 0xFF),)

TCP, UDP, DCCP, SCTP, UDPLITE = 6, 17, 33, 132, 136
# The protocols that have ports.
PORTED = (TCP, UDP, DCCP, SCTP, UDPLITE)


class Box(NamedTuple):
    """The headers whose values lie in these sets."""

    source: Spans = EVERY_ADDRESS
    destination: Spans = EVERY_ADDRESS
    source_ports: Spans = EVERY_PORT
    destination_ports: Spans = EVERY_PORT
    protocols: Spans = EVERY_PROTOCOL

    @property
    def has_ports(self) -> bool:
        """Whether it asks for ports."""
        return self.source_ports != EVERY_PORT or self.destination_ports != EVERY_PORT


# Every header.
WHOLE = Box()


def union(pairs: list[Span]) -> Spans:
    """The values of all these spans."""
    joined: list[Span] = []
    for low, high in sorted(pairs):
        if joined and low <= joined[-1][1] + 1:
            joined[-1] = (joined[-1][0], max(joined[-1][1], high))
        else:
            joined.append((low, high))
    return tuple(joined)


def common(left: Spans, right: Spans) -> Spans:
    """The values of both sets."""
    return union([(max(a, c), min(b, d)) for a, b in left for c, d in right if max(a, c) <= min(b, d)])


def others(values: Spans, every: Spans) -> Spans:
    """The values of a field that aren't of this set."""
    rest: list[Span] = []
    (begin, last), = every
    for low, high in values:
        if begin < low:
            rest.append((begin, low - 1))
        begin = high + 1
    if begin <= last:
        rest.append((begin, last))
    return tuple(rest)


def holds(values: Spans, value: int) -> bool:
    """Whether a value is of this set."""
    return any(low <= value <= high for low, high in values)


def single(value: int) -> Spans:
    """The set of one value."""
    return ((value, value),)


def meet(left: list[Box], right: list[Box]) -> list[Box]:
    """Boxes of the headers that lie in a box of each side, in the order of the left side's boxes, then of the right side's."""
    both = (Box(*map(common, one, other)) for one in left for other in right)
    return [box for box in both if all(box)]


def prefixes(values: Spans) -> list[tuple[int, int]]:
    """The fewest prefixes of 32 bits that hold exactly these values, each as its first value and its length."""
    found = []
    for low, high in values:
        while low <= high:
            aligned = low & -low if low else 1 << 32
            size = min(aligned, 1 << (high - low + 1).bit_length() - 1)
            found.append((low, 33 - size.bit_length()))
            low += size
    return found


def agreeing(value: int, free: int, most: int) -> Spans | None:
    """The addresses that agree with a value in each bit that isn't free; None where these are more than so many spans."""
    tail = (free + 1 & ~free) - 1  # the free bits behind the last bit that is asked for
    above = free & ~tail
    if 1 << above.bit_count() > most:
        return None
    starts = [value & ~free & 0xFFFFFFFF]
    while above:
        bit = above & -above
        starts += [start | bit for start in starts]
        above ^= bit
    return union([(start, start | tail) for start in starts])
