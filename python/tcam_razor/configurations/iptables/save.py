"""The tables of `iptables-save`, and the chain that is picked of them."""
from __future__ import annotations

import re
from dataclasses import dataclass, field

from ..chains import Rule, Step, Walk
from ..listing import Assumed, Listing, Refused
from .rules import Reading

APPENDED = re.compile(r"(?:\[\d+:\d+\] )?-A (\S+)(?: (.*))?")


@dataclass
class Table:
    """The chains of a table: the policy of each, if it has one, and its lines with their numbers."""

    policies: dict[str, str] = field(default_factory=dict)
    lines: dict[str, list[tuple[int, str]]] = field(default_factory=dict)

    def built_in(self) -> list[str]:
        return [chain for chain, policy in self.policies.items() if policy != "-"]

    def decides(self, chain: str) -> bool:
        """Whether a packet may meet its end in a chain."""
        return bool(self.lines.get(chain)) or self.policies.get(chain) == "DROP"


@dataclass
class Save:
    tables: dict[str, Table] = field(default_factory=dict)
    faults: list[str] = field(default_factory=list)
    open: Table | None = None

    def read(self, text: str) -> None:
        for number, raw in enumerate(text.split("\n"), 1):
            line = raw.strip()
            if line and not line.startswith("#") and not self.takes(number, line):
                self.faults.append(f"line {number}: no line of iptables-save: {line}")

    def takes(self, number: int, line: str) -> bool:
        """Whether a line is one of a save, which is taken."""
        words = line.split()
        if line.startswith("*") and line[1:] not in self.tables:
            self.open = self.tables[line[1:]] = Table()
        elif self.open and line.startswith(":") and len(words) > 1 and words[0][1:] not in self.open.lines:
            self.open.policies[words[0][1:]], self.open.lines[words[0][1:]] = words[1], []
        elif self.open and (found := APPENDED.fullmatch(line)) and found[1] in self.open.lines:
            self.open.lines[found[1]].append((number, line))
        elif line == "COMMIT" and self.open:
            self.open = None
        else:
            return False
        return True


def read(text: str, pick: str | None, assumed: Assumed, listing: Listing) -> str:
    """Adds the rules of the chain that is picked, and gives its table and name."""
    save = Save()
    save.read(text)
    listing.faults |= dict.fromkeys(save.faults)
    table_name, name = picked(save, pick)
    table = save.tables[table_name]
    for other, beside in save.tables.items():
        if other != table_name and beside.decides(name):
            listing.notices[f"chain {other} {name} takes part too, and isn't part of the list"] = None
    chains = {chain: [rule(number, line, assumed, table) for number, line in lines] for chain, lines in table.lines.items()}
    Walk(chains, table.policies[name].lower(), listing).run(name)
    return f"{table_name} {name}"


def picked(save: Save, pick: str | None) -> tuple[str, str]:
    """A table and a chain of it that has a policy."""
    table_name, _, name = (pick or "").rpartition(" ")
    table_name = table_name or "filter"
    if table_name not in save.tables:
        raise Refused(f"no table {table_name}" + (f", only {', '.join(save.tables)}" if save.tables else ""))
    table = save.tables[table_name]
    known = table.built_in()
    if not name:
        found = known if len(known) == 1 else [chain for chain in known if table.lines[chain]]
        if len(found) != 1:
            raise Refused(f"pick one chain of: {', '.join(found or known)}")
        name = found[0]
    if name not in known:
        raise Refused(f"no chain {name} with a policy in table {table_name}: pick one of {', '.join(known)}")
    if table.policies[name] not in ("ACCEPT", "DROP"):
        raise Refused(f"policy {table.policies[name]} of chain {name}")
    return table_name, name


def rule(number: int, line: str, assumed: Assumed, table: Table) -> Rule:
    found = APPENDED.fullmatch(line)
    words = found[2] or "" if found else ""

    def read_steps() -> list[Step]:
        return Reading(words, assumed, frozenset(table.lines)).steps()

    return Rule(f"line {number}", line, read_steps)
