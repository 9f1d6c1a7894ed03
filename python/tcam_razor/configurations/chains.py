"""Chains of rules with jumps, as nftables and iptables have them, laid out in the order in which packets meet the rules.

Rules are only ever met, never subtracted. Where a packet leaves a chain early (`return`, and the end of a `goto`), all that it
meets behind is laid out for it at once, in front of the rest of the chain; so rules behind a `return` stand twice. Rules behind
one that decides all are laid out too, so that an audit can say of them that they never match. Only what is laid out a second
time leaves them away.
"""
from __future__ import annotations

import sys
from dataclasses import dataclass
from typing import Callable

from . import fields
from .fields import Box
from .listing import Listing, Refused, Source

# How deep chains may stand in chains, and how deep what is laid out again may stand in what is laid out again.
DEPTH = 16
NESTING = 200
# The most rules that are met.
MOST_VISITS = 1_000_000


class Never(Exception):
    """A rule matches no packet of those that the list speaks of, and why."""


@dataclass
class Step:
    """What a rule does with the headers of these boxes.

    `act` is `decide`, with a decision as its word, `jump` or `goto`, with a chain, `return`, or `pass`, where the next rule follows.
    """

    boxes: list[Box]
    act: str
    word: str = ""


@dataclass
class Rule:
    """A rule: where it stands, its text, and how its steps are read, which may raise Refused and Never."""

    place: str
    text: str
    read: Callable[[], list[Step]]


# Where a packet goes on behind a jump: chains, and numbers of rules in them, the innermost last.
Frames = tuple[tuple[str, int], ...]


@dataclass
class Walk:
    """Lays out a chain for its listing."""

    chains: dict[str, list[Rule]]
    policy: str
    listing: Listing
    visits: int = 0
    nested: int = 0
    is_again: bool = False  # inside of what is laid out a second time

    def run(self, name: str) -> None:
        before = sys.getrecursionlimit()
        sys.setrecursionlimit(max(before, 1000 + 10 * NESTING))
        try:
            self.visit(name, 0, [fields.WHOLE], ())
            self.decide_rest([fields.WHOLE])
        finally:
            sys.setrecursionlimit(before)

    def decide_rest(self, live: list[Box]) -> None:
        self.listing.add(self.listing.begin("end", f"policy {self.policy}"), live, self.policy)

    def visit(self, name: str, start: int, live: list[Box], behind: Frames) -> bool:
        """Lays out a chain from a rule on, for the headers of these boxes; whether all of them are decided then."""
        if name not in self.chains:
            raise Refused(f"no chain {name}")
        if len(behind) > DEPTH or self.nested >= NESTING:
            raise Refused(f"chain {name}: jumps are nested too deep")
        self.nested += 1
        try:
            return self.lay_out(name, start, live, behind)
        finally:
            self.nested -= 1

    def lay_out(self, name: str, start: int, live: list[Box], behind: Frames) -> bool:
        is_over = False
        for at, rule in enumerate(self.chains[name][start:], start):
            source = self.listing.begin(rule.place, rule.text)
            self.visits += 1
            if self.visits > MOST_VISITS:
                raise Refused(f"more than {MOST_VISITS} rules are met, by returns and gotos")
            try:
                is_over = self.takes_all(source, rule.read(), name, at, live, behind) or is_over
            except Never as never:
                self.listing.leave_out(source, str(never))
            except Refused as refused:
                self.listing.refuse(source, refused.reason)
            if is_over and self.is_again:
                break
        return is_over

    def takes_all(self, source: Source, steps: list[Step], name: str, at: int, live: list[Box], behind: Frames) -> bool:
        """Lays out the steps of a rule; whether one of them decides all headers of these boxes."""
        if all(step.act == "pass" for step in steps):
            self.listing.leave_out(source, "decides nothing")
        is_over = False
        for step in steps:
            matched = fields.meet(live, step.boxes)
            is_done = self.take(source, step, matched, name, at, behind)
            is_over = is_over or is_done and matched == live
        return is_over

    def take(self, source: Source, step: Step, matched: list[Box], name: str, at: int, behind: Frames) -> bool:
        """Lays out a step for the headers that it matches; whether it decides them."""
        match step.act:
            case "decide":
                self.listing.add(source, matched, step.word)
                return bool(matched)
            case "jump" | "goto":
                return self.enter(source, step, matched, (*behind, (name, at + 1)) if step.act == "jump" else behind)
            case "return":
                source.note = "return"
                is_last = at + 1 == len(self.chains[name])
                if matched and not is_last:
                    self.resume(matched, behind)
                return bool(matched) and not is_last
        return False

    def enter(self, source: Source, step: Step, matched: list[Box], behind: Frames) -> bool:
        """Lays out the chain of a jump or goto. Behind the end of a goto's chain no rule of this one follows."""
        if not matched:
            source.note = source.note or "no header reaches it"
            return False
        source.note = f"{step.act} {step.word}"
        is_over = self.visit(step.word, 0, matched, behind)
        if step.act == "goto" and not is_over:
            self.resume(matched, behind)
        return is_over or step.act == "goto"

    def resume(self, live: list[Box], behind: Frames) -> None:
        """Lays out what these headers meet behind the chain that they leave: the rest of each chain around it, and the policy."""
        before, self.is_again = self.is_again, True
        try:
            while behind and not self.visit(*behind[-1], live, behind[:-1]):
                behind = behind[:-1]
            if not behind:
                self.decide_rest(live)
        finally:
            self.is_again = before
