"""What a change of a list does, as plain values: the page is made of them, and the JSON of --json is they.

A value that isn't known, because the program gave no answer in time, is none.
"""
from __future__ import annotations

import dataclasses
import hashlib
import ipaddress
import json
from typing import Any, Iterable, Sequence

from tcam_razor.headers import Header
from tcam_razor.lists import Rule
from tcam_razor.report.boxes import Box, Search
from tcam_razor.report.change import MAKERS, Change, Size, Turned, Version, context

VERSION = 2

# So many rules stand around those that were put in or taken out.
AROUND = 2


@dataclasses.dataclass(frozen=True)
class Side:
    """One of the two lists: what it is called here and in a command, how many rules it has, and whether one says a word that denies."""

    title: str
    path: str
    rules: int
    flagged: int
    denies: bool
    sha256: str


@dataclasses.dataclass(frozen=True)
class Deciding:
    """What a list decides on a header, and the line and the text of its first rule that matches it; none where no rule does."""

    decision: str
    line: int | None
    rule: str | None


@dataclasses.dataclass(frozen=True)
class Example:
    """A header that the lists decide differently, and what decides it."""

    header: Header
    old: Deciding
    new: Deciding


@dataclasses.dataclass(frozen=True)
class Piece:
    """A box of headers in which one decision took the place of another."""

    box: Box
    old: str
    new: str


@dataclasses.dataclass(frozen=True)
class Kind:
    """The boxes that are decided differently in one way, the least header of the first box, and whether that is all."""

    boxes: tuple[Piece, ...]
    first: Example | None
    is_all: bool


@dataclasses.dataclass(frozen=True)
class Row:
    """A rule as a patch shows it: its line in the old list and in the new one, of which one may be missing."""

    old_line: int | None
    new_line: int | None
    rule: str


@dataclasses.dataclass(frozen=True)
class Idle:
    """A rule that does nothing now, and did before or wasn't there: its state before and now, a header that shows it, and the lines that hide it."""

    line: int
    rule: str
    before: str | None
    now: str
    header: Header | None
    hidden_by: tuple[int, ...]


@dataclasses.dataclass(frozen=True)
class Entries:
    """How many entries the table has that a command makes of each list."""

    command: str
    old: Size
    new: Size


@dataclasses.dataclass(frozen=True)
class Writes:
    """The writes from the old shortened table to the new one in so many slots; or how many slots they would need."""

    slots: int
    lines: tuple[str, ...]
    needed: int | None


@dataclasses.dataclass(frozen=True)
class Validation:
    """Whether the new shortened table decides every header as its list, and what was said."""

    is_valid: bool | None
    says: str


@dataclasses.dataclass(frozen=True)
class Findings:
    """All that is said of a change."""

    version: int
    program_sha256: str
    seconds: float
    deny: tuple[str, ...]
    old: Side
    new: Side
    # Whether both lists decide every header alike, and the least header that they don't.
    is_alike: bool | None
    difference: Example | None
    permitted: Kind
    denied: Kind
    others: Kind
    put_in: int
    taken_out: int
    hunks: tuple[tuple[Row, ...], ...]
    idle: tuple[Idle, ...] | None
    entries: tuple[Entries, ...]
    writes: Writes | None
    validation: Validation | None

    @property
    def shortened(self) -> Entries:
        """The sizes of the shortened tables."""
        return next(each for each in self.entries if each.command == "shorten")


def found(change: Change, titles: Sequence[str], paths: Sequence[str], program: bytes) -> Findings:
    """What a change does. The lists are compared first, so that a bad line is refused in the program's words."""
    answered, difference = change.compared
    plan, verdict = change.plan, change.verdict
    return Findings(
        version=VERSION,
        program_sha256=hashlib.sha256(program).hexdigest(),
        seconds=change.old.seconds,
        deny=tuple(sorted(change.deny)),
        old=side(change, change.old, titles[0], paths[0]),
        new=side(change, change.new, titles[1], paths[1]),
        is_alike=difference is None if answered else None,
        difference=example(change, difference.header) if difference else None,
        permitted=kind(change, change.permitted),
        denied=kind(change, change.denied),
        others=kind(change, change.others),
        put_in=len(change.put_in),
        taken_out=len(change.gone),
        hunks=tuple(tuple(row(change, *pair) for pair in rows) for rows in context(change.rows, AROUND)),
        idle=tuple(map(idle, change.turned)) if change.turned is not None else None,
        entries=tuple(Entries(command, change.old.sizes[command], change.new.sizes[command]) for command in MAKERS),
        writes=Writes(plan.slots, tuple(plan.writes), plan.needed or None) if plan else None,
        validation=Validation(verdict.is_valid, verdict.says) if verdict else None,
    )


def side(change: Change, version: Version, title: str, path: str) -> Side:
    flagged = sum(rule.is_flagged for rule in version.rules)
    denies = any(rule.decision in change.deny for rule in version.rules)
    return Side(title, path, len(version.rules), flagged, denies, hashlib.sha256(version.text.encode()).hexdigest())


def example(change: Change, header: Header) -> Example:
    return Example(header, deciding(change.old.first(header)), deciding(change.new.first(header)))


def deciding(rule: Rule | None) -> Deciding:
    return Deciding(rule.decision, rule.line, rule.text) if rule else Deciding("miss", None, None)


def kind(change: Change, search: Search) -> Kind:
    first = example(change, min(box.first for box in search.found)) if search.found else None
    return Kind(tuple(Piece(each.box, each.old, each.new) for each in search.found), first, search.is_all)


def row(change: Change, old: int | None, new: int | None) -> Row:
    left = change.old.rules[old] if old is not None else None
    right = change.new.rules[new] if new is not None else None
    shown = right or left
    return Row(left.line if left else None, right.line if right else None, shown.text if shown else "")


def idle(it: Turned) -> Idle:
    return Idle(it.rule.line, it.rule.text, it.before.name if it.before else None, it.now.name, it.now.header, tuple(rule.line for rule in it.hiders))


def as_json(findings: Findings) -> str:
    """The same as JSON, with addresses in points."""
    return json.dumps(plain(findings), indent=1) + "\n"


def plain(value: Any) -> Any:
    """A value as JSON has it."""
    if isinstance(value, Header):
        return value._asdict() | {"source": dotted(value.source), "destination": dotted(value.destination)}
    if isinstance(value, Piece):
        return {"box": box_data(value.box), "old": value.old, "new": value.new}
    if dataclasses.is_dataclass(value):
        return {field.name: plain(getattr(value, field.name)) for field in dataclasses.fields(value)}
    return [plain(each) for each in value] if isinstance(value, tuple) else value


def box_data(box: Box) -> dict[str, list[Any]]:
    """The ends of each field's span."""
    addresses: Iterable[list[Any]] = [[dotted(low), dotted(high)] for low, high in box[:2]]
    return dict(zip(Header._fields, [*addresses, *([low, high] for low, high in box[2:])]))


def dotted(address: int) -> str:
    return str(ipaddress.IPv4Address(address))
