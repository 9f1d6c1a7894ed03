"""Headers where the decisions of a list may change: at the ends of its rules' spans, and one beside."""
from __future__ import annotations

import random
from typing import Sequence

from ..configurations import fields
from ..headers import WIDTHS, Header
from ..lists import Rule, Spans

# Asked for where a rule speaks of every protocol.
USUAL = (6, 17, 1, 132)


def headers(rules: Sequence[Rule], rng: random.Random, count: int, protocols: Sequence[int] | None = None) -> list[Header]:
    """So many headers, of these protocols where they are given."""
    # The last rule of a list that was imported holds every header.
    return [header(rng.choice(rules[:-1] or rules), rng, protocols) for _ in range(count)]


def header(rule: Rule, rng: random.Random, protocols: Sequence[int] | None) -> Header:
    source, destination, source_port, destination_port, protocol = map(near, rule.spans, WIDTHS, [rng] * 5)
    if rule.spans[4] == ((0, 255),) or rng.random() < 0.1:
        protocol = rng.choice([*USUAL, rng.randrange(256)])
    if protocols and protocol not in protocols:
        protocol = rng.choice(protocols)
    if protocol not in fields.PORTED:
        source_port = destination_port = 0
    return Header(source, destination, source_port, destination_port, protocol)


def near(spans: Spans, width: int, rng: random.Random) -> int:
    """A value in one of these spans, mostly at an end, or beside it; of a whole field any value."""
    low, high = rng.choice(spans)
    if high - low + 1 == 1 << width and rng.random() < 0.9:
        return rng.randint(low, high)
    value = rng.choice([low, low, high, high, rng.randint(low, high), rng.randint(low, high), low - 1, high + 1])
    return min(max(value, 0), (1 << width) - 1)
