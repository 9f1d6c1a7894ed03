"""The right sides of comparisons: values, ranges, prefixes and sets of them, as sets of values of a field."""
from __future__ import annotations

import json
from dataclasses import dataclass, field
from typing import Any

from .. import addresses, fields, names
from ..fields import Spans
from ..listing import Refused


@dataclass(frozen=True)
class Kind:
    """The values of a field, and the names of some of them."""

    every: Spans
    names: dict[str, int] = field(default_factory=dict)


ADDRESS = Kind(fields.EVERY_ADDRESS)
PORT = Kind(fields.EVERY_PORT)
PROTOCOL = Kind(fields.EVERY_PROTOCOL, names.LINUX_PROTOCOLS)
ICMP_TYPE = Kind(((0, 255),), names.NFT_ICMP_TYPES)
ICMP_CODE = Kind(((0, 255),), names.NFT_ICMP_CODES)


@dataclass(frozen=True)
class Sets:
    """The named sets and maps of a table, and which of them rules change while packets pass."""

    found: dict[str, dict[str, Any]]
    changing: frozenset[str]

    def named(self, name: str) -> list[Any]:
        """The elements of a set or map."""
        found = self.found.get(name.removeprefix("@"))
        if found is None:
            raise Refused(f"no set {name}")
        flags = found.get("flags", [])
        changes = {"dynamic", "timeout"} & set([flags] if isinstance(flags, str) else flags)
        if changes or name.removeprefix("@") in self.changing:
            raise Refused(f"set {name} changes while packets pass")
        return list(found.get("elem", []))

    def elements(self, right: Any) -> list[Any]:
        """The values of a right side, one by one."""
        if isinstance(right, str) and right.startswith("@"):
            return [bare(element) for element in self.named(right)]
        if isinstance(right, dict) and "set" in right:
            return [bare(element) for element in right["set"]]
        return [bare(right)]

    def compared(self, kind: Kind, operator: str, right: Any) -> Spans:
        """The values of a field that compare so with a right side."""
        asked = fields.union([pair for element in self.elements(right) for pair in value(kind, element)])
        match operator:
            case "==":
                return asked
            case "!=":
                return fields.others(asked, kind.every)
        if len(asked) != 1 or asked[0][0] != asked[0][1]:
            raise Refused(f"operator {operator} with more than a value")
        (bound, _), = asked
        (first, last), = kind.every
        match operator:
            case "<":
                span = (first, bound - 1)
            case "<=":
                span = (first, bound)
            case ">":
                span = (bound + 1, last)
            case ">=":
                span = (bound, last)
            case _:
                raise Refused(f"operator {operator}")
        return (span,) if span[0] <= span[1] else ()


def bare(element: Any) -> Any:
    """An element without what is told of it beside its value, which may not end by time."""
    if isinstance(element, dict) and isinstance(element.get("elem"), dict):
        inner = element["elem"]
        if {"timeout", "expires"} & set(inner):
            raise Refused("an element ends by time")
        return inner["val"]
    return element


def value(kind: Kind, element: Any) -> Spans:
    """The values of an element."""
    (_, last), = kind.every
    match element:
        case {"range": [low, high]}:
            return ranged(value(kind, low), value(kind, high))
        case {"prefix": {"addr": address, "len": length}} if kind is ADDRESS:
            return addresses.prefix(address, str(length))
        case str() if kind is ADDRESS:
            return fields.single(addresses.number_of(element))
        case bool():
            pass
        case int() if kind is not ADDRESS and 0 <= element <= last:
            return fields.single(element)
        case str() if element in kind.names:
            return fields.single(kind.names[element])
    raise Refused(f"value {json.dumps(element)}: list the ruleset by `nft -nj list ruleset`")


def ranged(low: Spans, high: Spans) -> Spans:
    (first, _), = low
    (last, _), = high
    if first > last:
        raise Refused(f"the range {first}-{last} begins above its end")
    return ((first, last),)
