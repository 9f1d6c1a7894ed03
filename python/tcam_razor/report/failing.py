"""What a pipeline may fail on: conditions on a change, by name."""
from __future__ import annotations

import argparse
import dataclasses
import re
from typing import Callable

from tcam_razor.report.findings import Example, Findings, Kind
from tcam_razor.script import shown


@dataclasses.dataclass(frozen=True)
class Answer:
    """Whether a condition holds, or none where that isn't known; and what there is to say of it."""

    holds: bool | None
    says: str = ""


@dataclasses.dataclass(frozen=True)
class Condition:
    """A condition by its name, with the number that it was given, if it takes one."""

    name: str
    most: int = 0

    def answer(self, findings: Findings) -> Answer:
        answer = CONDITIONS[self.name](findings, self.most)
        return dataclasses.replace(answer, says=f"{self.name}: {answer.says}")


def told(example: Example) -> str:
    """A header, and how it was and is decided."""
    return f"{example.header.shown}: {example.old.decision} before, {example.new.decision} now"


def late(findings: Findings) -> Answer:
    return Answer(None, f"not known: no answer in {findings.seconds:g} seconds, or too many boxes")


def of_kind(findings: Findings, kind: Kind) -> Answer:
    if kind.first:
        return Answer(True, told(kind.first))
    return Answer(False) if kind.is_all else late(findings)


def permits(findings: Findings, _most: int) -> Answer:
    return of_kind(findings, findings.permitted)


def denies(findings: Findings, _most: int) -> Answer:
    return of_kind(findings, findings.denied)


def differs(findings: Findings, _most: int) -> Answer:
    if findings.difference:
        return Answer(True, told(findings.difference))
    return Answer(False) if findings.is_alike else late(findings)


def is_dead(findings: Findings, _most: int) -> Answer:
    if findings.idle is None:
        return late(findings)
    first = next((each for each in findings.idle if each.now == "never"), None)
    return Answer(True, f"line {first.line} is never first: {shown(first.rule)}") if first else Answer(False)


def entries(findings: Findings, most: int) -> Answer:
    size = findings.shortened.new
    if not size.is_made:
        return Answer(True, size.why) if size.count else Answer(None, size.why)
    return Answer(size.count > most, f"the shortened table has {size.count}, more than {most}")


def writes(findings: Findings, most: int) -> Answer:
    plan = findings.writes
    if plan is None:
        return Answer(None, "not known: there is no plan")
    if plan.needed:
        return Answer(True, f"{plan.needed} slots are needed, and there are {plan.slots}")
    return Answer(len(plan.lines) > most, f"the plan has {len(plan.lines)}, more than {most}")


def flags(findings: Findings, _most: int) -> Answer:
    count = findings.new.flagged
    return Answer(count > 0, f"in {findings.new.title} {count} rules ask for flags, which take no part")


CONDITIONS: dict[str, Callable[[Findings, int], Answer]] = {
    "permits": permits,
    "denies": denies,
    "any": differs,
    "dead": is_dead,
    "entries": entries,
    "writes": writes,
    "flags": flags,
}
NUMBERED = ("entries", "writes")

WORD = re.compile(r"([a-z]+)(?:=(\d{1,9}))?", re.ASCII)


def condition(word: str) -> Condition:
    """The condition of a word, as permits or entries=100."""
    found = WORD.fullmatch(word)
    if found is None or found[1] not in CONDITIONS or (found[1] in NUMBERED) != (found[2] is not None):
        wanted = ", ".join(f"{name}=N" if name in NUMBERED else name for name in CONDITIONS)
        raise argparse.ArgumentTypeError(f"{shown(word)}: one of {wanted} is wanted")
    return Condition(found[1], int(found[2] or 0))
