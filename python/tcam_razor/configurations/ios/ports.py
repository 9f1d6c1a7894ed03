"""Port operators of IOS and EOS: `eq` and `neq` with several ports, `gt`, `lt`, `range`."""
from __future__ import annotations

from .. import fields, names
from ..addresses import is_number
from ..fields import Spans
from ..listing import Refused
from ..words import Words

OPERATORS = ("eq", "neq", "gt", "lt", "range")
MOST_PORTS = 10
# The protocols whose ports these devices read.
PORTED = frozenset({fields.TCP, fields.UDP, fields.SCTP})


def operated(words: Words, dialect: str, protocols: frozenset[int]) -> Spans:
    """The ports that the operator asks for which stands next, with its ports."""
    operator = words.take()
    values = [number(words.take(), dialect, protocols)]
    if operator == "range":
        return ranged(values[0], number(words.take(), dialect, protocols))
    while operator in ("eq", "neq") and is_port(words.next, dialect, protocols):
        values.append(number(words.take(), dialect, protocols))
    if len(values) > MOST_PORTS:
        raise Refused(f"more than {MOST_PORTS} ports")
    return compared(operator, values)


def operated_alone(words: Words, dialect: str, protocols: frozenset[int]) -> Spans:
    """Likewise in a group, where the operator has one port, or two, and `eq` may be left out."""
    operator = words.take() if words.next in ("eq", "gt", "lt", "range") else "eq"
    value = number(words.take(), dialect, protocols)
    if operator == "range":
        return ranged(value, number(words.take(), dialect, protocols))
    return compared(operator, [value])


def ranged(low: int, high: int) -> Spans:
    if low > high:
        raise Refused("the range begins above its end")
    return ((low, high),)


def compared(operator: str, values: list[int]) -> Spans:
    """The ports that compare so with these."""
    each = fields.union([(value, value) for value in values])
    match operator:
        case "eq":
            found = each
        case "neq":
            found = fields.others(each, fields.EVERY_PORT)
        case "gt":
            found = fields.others(((0, values[0]),), fields.EVERY_PORT)
        case _:
            found = fields.others(((values[0], 0xFFFF),), fields.EVERY_PORT)
    if not found:
        raise Refused("no port matches")
    return found


def number(word: str, dialect: str, protocols: frozenset[int]) -> int:
    """The port that a word stands for, for each of these protocols."""
    if word.isdigit():
        if not is_number(word, 0xFFFF):
            raise Refused(f"port {word}")
        return int(word)
    meanings = {table.get(word) for table in tables(dialect, protocols)}
    if len(meanings) != 1 or (value := meanings.pop()) is None:
        raise Refused(f"port name {word}: write its number")
    return value


def tables(dialect: str, protocols: frozenset[int]) -> list[dict[str, int]]:
    """The names of ports, by protocol."""
    known = {fields.TCP: names.EOS_TCP_PORTS if dialect == "eos" else names.TCP_PORTS, fields.UDP: names.UDP_PORTS}
    return [known.get(protocol, {}) for protocol in sorted(protocols)]


def is_port(word: str, dialect: str, protocols: frozenset[int]) -> bool:
    try:
        number(word, dialect, protocols)
    except Refused:
        return False
    return True
