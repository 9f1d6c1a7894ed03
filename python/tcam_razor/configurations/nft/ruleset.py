"""A ruleset as nft lists it, and the base chain that is picked of it."""
from __future__ import annotations

import json
from dataclasses import dataclass, field
from typing import Any

from ..chains import Rule, Step, Walk
from ..listing import Assumed, Listing, Refused
from .conditions import Conditions
from .statements import steps
from .values import Sets

FAMILIES = ("ip", "inet")
# What a table may say of itself. nft 1.0.6 writes other flags wrongly, and a table with `dormant` decides nothing.
TABLE_FLAGS = {"owner", "persist"}

# Family, table, and the name of a chain or a set.
Key = tuple[str, str, str]


@dataclass
class Ruleset:
    table_flags: dict[tuple[str, str], set[str]] = field(default_factory=dict)
    chains: dict[Key, dict[str, Any]] = field(default_factory=dict)
    rules: dict[Key, list[dict[str, Any]]] = field(default_factory=dict)
    sets: dict[Key, dict[str, Any]] = field(default_factory=dict)
    changing: set[Key] = field(default_factory=set)

    def take(self, kind: str, value: dict[str, Any]) -> None:
        """An object of the listing."""
        match kind:
            case "table":
                flags = value.get("flags", [])
                self.table_flags[value["family"], value["name"]] = set([flags] if isinstance(flags, str) else flags)
            case "chain":
                self.chains[value["family"], value["table"], value["name"]] = value
            case "set" | "map":
                self.sets[value["family"], value["table"], value["name"]] = value
            case "rule":
                self.rules.setdefault((value["family"], value["table"], value["chain"]), []).append(value)
                self.changing |= {(value["family"], value["table"], name) for part in value["expr"] for name in changed_by(part)}

    def base_chains(self) -> list[Key]:
        return [key for key, chain in self.chains.items() if key[0] in FAMILIES and chain.get("type") == "filter" and "hook" in chain]

    def decides(self, key: Key) -> bool:
        """Whether a packet may meet its end in a chain."""
        return bool(self.rules.get(key)) or self.chains[key].get("policy") == "drop"

    def picked(self, pick: str | None) -> Key:
        every = self.base_chains()
        if not every:
            raise Refused("no base chain of type filter in family ip or inet")
        found = [key for key in every if pick in (None, key[2], " ".join(key))]
        if pick is None and len(found) > 1:
            found = [key for key in found if self.rules.get(key)]
        if len(found) != 1:
            raise Refused(f"pick one base chain of type filter: {', '.join(map(' '.join, found or every))}")
        return found[0]

    def sets_of(self, table: tuple[str, str]) -> Sets:
        found = {key[2]: value for key, value in self.sets.items() if key[:2] == table}
        return Sets(found, frozenset(key[2] for key in self.changing if key[:2] == table))


def changed_by(statement: Any) -> list[str]:
    """The sets and maps that a statement adds to."""
    if not isinstance(statement, dict):
        return []
    inner = [statement[word] for word in ("set", "map") if isinstance(statement.get(word), dict)]
    return [str(what[word]).removeprefix("@") for what in inner for word in ("set", "map") if word in what]


def parsed(text: str) -> Ruleset:
    ruleset = Ruleset()
    try:
        for item in json.loads(text)["nftables"]:
            for kind, value in item.items():
                ruleset.take(kind, value)
    except (AttributeError, KeyError, RecursionError, TypeError, ValueError):
        raise Refused("no output of `nft -j list ruleset`") from None
    return ruleset


def read(text: str, pick: str | None, assumed: Assumed, listing: Listing) -> str:
    """Adds the rules of the chain that is picked, and gives its name."""
    ruleset = parsed(text)
    family, table, name = key = ruleset.picked(pick)
    if ruleset.table_flags.get((family, table), set()) - TABLE_FLAGS:
        raise Refused(f"table {family} {table} has flags: it may be dormant, and decide nothing")
    for other in beside(ruleset, key):
        listing.notices[f"chain {' '.join(other)} stands at hook {ruleset.chains[key]['hook']} too, and isn't part of the list"] = None
    conditions = Conditions(ruleset.sets_of((family, table)), assumed)
    chains = {one[2]: [rule(one, value, conditions) for value in ruleset.rules.get(one, [])] for one in ruleset.chains if one[:2] == key[:2]}
    Walk(chains, str(ruleset.chains[key].get("policy", "accept")), listing).run(name)
    return " ".join(key)


def beside(ruleset: Ruleset, key: Key) -> list[Key]:
    """The other chains that a packet has to pass at the same hook."""
    hook = ruleset.chains[key]["hook"]
    return [other for other, chain in ruleset.chains.items()
            if other != key and other[0] in FAMILIES and chain.get("hook") == hook and ruleset.decides(other)]


def rule(key: Key, value: dict[str, Any], conditions: Conditions) -> Rule:
    front = f"{value['comment']}: " if "comment" in value else ""

    def read_steps() -> list[Step]:
        return steps(value["expr"], conditions, key[0])

    return Rule(f"{' '.join(key)} handle {value.get('handle')}", front + json.dumps(value["expr"]), read_steps)
