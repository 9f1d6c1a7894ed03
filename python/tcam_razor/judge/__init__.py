"""The kernel of Linux as the judge of an import: packets are sent to a ruleset, and its verdicts compared with the list.

    razor-judge [--pick NAME] [--assume KEY=VALUE].. [--packets N] [--seed N] FILE

FILE is a ruleset as `nft -f` or `iptables-restore` loads it, or the JSON of `nft -j list ruleset`; `-` is standard input. It is
loaded into a network namespace of its own, which needs no root, and touches nothing of the machine. What the kernel has there
is listed and imported, with `--pick` and `--assume` as razor-import has them. Then packets are sent to the hook of the chain,
drawn by `--seed` at the ends of the list's rules (1000, or as many as `--packets` says), and the kernel says which come out of
it. Other chains are emptied before. Chains at the hooks prerouting, input and forward are judged.

It writes how many packets were sent, how many of them never came to the hook, since the kernel takes no such addresses there, how
many were decided alike, and how many otherwise; then the first of these, as `differ`, its header, what the list decides, and
what the kernel did, with the line that the list decides it by.

The status is 0, 1 where a packet was decided otherwise, 2 for wrong words, 3 where the ruleset isn't loaded, imported or judged,
5 and 6 for faults of reading and writing, and 126 where there is no namespace, or nft or iptables isn't there.
"""
from __future__ import annotations

import argparse
import json
import random
import re
from dataclasses import dataclass
from typing import Any

from .. import commands, importing, lists, script
from ..configurations.names import STATES
from ..errors import NotFound
from ..headers import Header
from ..importing import Reading
from .drawing import headers
from .kernel import OWN, Form, Kernel, NotLoaded, Unavailable

HOOKS = ("prerouting", "input", "forward")
JUDGED_STATES = ("new", "untracked", "invalid")
# Whose packets connection tracking takes for new ones, and for invalid ones where they are spoiled.
PROTOCOLS = {"new": (6, 17, 1, 100), "invalid": (6,)}
INCOMING, OUTGOING = "razor-in", "razor-out"
# Chains around all others at the hook: what comes in is logged, what comes out too, and then ends.
AROUND = """table ip razor_judge {{
 chain first {{
  type filter hook {hook} priority -900000
  iifname != "{incoming}" drop
  log prefix "seen" group {group}
 }}
 chain last {{
  type filter hook {hook} priority 900000
  log prefix "passed" group {group} drop
 }}
}}
"""
UNTRACKED = "table ip razor_untracked {\n chain first {\n  type filter hook prerouting priority -300\n  notrack\n }\n}\n"


@dataclass(frozen=True)
class Judged:
    """A packet: its header, what the list decides, by which rule, and what the kernel did; None where it never came to the hook."""

    header: Header
    decision: str
    rule: int
    is_accepted: bool | None

    @property
    def is_alike(self) -> bool:
        return self.is_accepted is None or (self.decision == "accept") == self.is_accepted


class NotJudged(Exception):
    """The ruleset isn't loaded, imported or judged, and why: in lines."""


@dataclass(frozen=True)
class Ruleset:
    text: str
    pick: str | None
    assume: dict[str, str]

    @property
    def dialect(self) -> str:
        return "iptables" if re.search(r"^\*\w+\s*$", self.text, re.MULTILINE) else "nft"

    @property
    def form(self) -> Form:
        kind, _, code = self.assume.get("icmp", "8/0").partition("/")
        return Form(icmp=(int(kind), int(code)), is_spoiled=self.assume.get("state") == "invalid")

    def expect_judged(self) -> None:
        """What can't be had in a new namespace isn't judged."""
        state = self.assume.get("state", "new")
        if state in STATES and state not in JUDGED_STATES:
            raise NotJudged(f"state={state}: there are no such packets in a new namespace")
        if self.assume.get("in") == "lo":
            raise NotJudged("in=lo: no packet comes in there from elsewhere")

    def load(self, kernel: Kernel) -> None:
        if self.dialect == "iptables":
            kernel.run("iptables-nft-restore", text=self.text)
        elif self.text.lstrip().startswith("{"):
            kernel.run("nft", "-j", "-f", "-", text=self.text)
        else:
            kernel.run("nft", "-f", "-", text=self.text)

    def imported(self, kernel: Kernel) -> Reading:
        """The list of what the kernel has."""
        listing = kernel.run("iptables-nft-save") if self.dialect == "iptables" else kernel.run("nft", "-nj", "list", "ruleset")
        reading = importing.read(self.dialect, listing, self.pick, self.assume)
        if reading.listing.faults:
            raise NotJudged("\n".join(reading.listing.faults))
        return reading


def judged(ruleset: Ruleset, packets: int, seed: int) -> tuple[Reading, list[Judged]]:
    """The list of a ruleset, and the kernel's verdicts beside it."""
    ruleset.expect_judged()
    with Kernel(ruleset.assume.get("in", INCOMING), ruleset.assume.get("out", OUTGOING)) as kernel:
        try:
            ruleset.load(kernel)
            reading = ruleset.imported(kernel)
            stand_alone(kernel, ruleset, reading.name)
        except NotLoaded as fault:
            raise NotJudged(str(fault)) from None
        rules = lists.rules_of(reading.name, reading.text.splitlines())
        asked = headers(rules, random.Random(seed), packets, PROTOCOLS.get(ruleset.assume.get("state", "")))
        logged = kernel.logged(asked, ruleset.form)
    return reading, [verdict(rules, header, [prefix for group, prefix in messages if group == OWN]) for header, messages in zip(asked, logged)]


def stand_alone(kernel: Kernel, ruleset: Ruleset, name: str) -> None:
    """Empties all base chains but the one that is judged, and puts the judge's around it."""
    table, chain = name.rsplit(" ", 1)
    key = (f"ip {table}" if ruleset.dialect == "iptables" else table, chain)
    found: dict[tuple[str, str], dict[str, Any]] = {}
    for item in json.loads(kernel.run("nft", "-j", "list", "chains"))["nftables"]:
        if "hook" in (value := item.get("chain", {})):
            found[f"{value['family']} {value['table']}", value["name"]] = value
    hook = found[key]["hook"]
    if hook not in HOOKS:
        raise NotJudged(f"chain {name} stands at hook {hook}: only those at {', '.join(HOOKS)} are judged")
    if "out" in ruleset.assume and hook != "forward":
        raise NotJudged(f"out={ruleset.assume['out']}: a packet at hook {hook} has no interface to go out by")
    for other in found.keys() - {key}:
        kernel.run("nft", "-f", "-", text=f"flush chain {' '.join(other)}\nadd chain {' '.join(other)} {{ policy accept; }}\n")
    kernel.run("nft", "-f", "-", text=AROUND.format(hook=hook, group=OWN, incoming=ruleset.assume.get("in", INCOMING)))
    if ruleset.assume.get("state") == "untracked":
        kernel.run("nft", "-f", "-", text=UNTRACKED)
    if hook == "input":
        kernel.run("ip", "route", "add", "local", "0.0.0.0/0", "dev", "lo")
    if hook == "forward":
        kernel.run("sh", "-c", "echo 1 > /proc/sys/net/ipv4/ip_forward")
        kernel.run("ip", "route", "add", "default", "dev", ruleset.assume.get("out", OUTGOING))


def verdict(rules: list[lists.Rule], header: Header, logged: list[str]) -> Judged:
    first = next(rule for rule in rules if rule.holds(header))
    return Judged(header, first.decision, first.number, "passed" in logged if "seen" in logged else None)


def told(reading: Reading, verdicts: list[Judged]) -> str:
    """What is written of the verdicts."""
    unseen = sum(it.is_accepted is None for it in verdicts)
    others = [it for it in verdicts if not it.is_alike]
    lines = [f"{reading.name}: packets {len(verdicts)}, not delivered {unseen}, alike {len(verdicts) - unseen - len(others)}, otherwise {len(others)}"]
    for it in others[:1]:
        source = next(source for source in reading.listing.sources for first, last in source.spans if first <= it.rule <= last)
        lines.append(f"differ {it.header} {it.decision} {'accept' if it.is_accepted else 'drop'}  {source.told(f'rule {it.rule}')}")
    return "".join(f"{line}\n" for line in lines)


def run(words: list[str]) -> int:
    parser = script.words(__doc__)
    parser.add_argument("--pick", metavar="NAME")
    parser.add_argument("--assume", metavar="KEY=VALUE", action=commands.Pairs, default={})
    parser.add_argument("--packets", metavar="N", type=commands.count, default=1000)
    parser.add_argument("--seed", metavar="N", type=int, default=1)
    parser.add_argument("file", metavar="FILE")
    asked = parser.parse_args(words)
    ruleset = Ruleset(commands.read(asked.file), asked.pick, asked.assume)
    try:
        importing.assumed_of(ruleset.dialect, ruleset.assume)
        reading, verdicts = judged(ruleset, asked.packets, asked.seed)
    except ValueError as fault:
        parser.error(str(fault))
    except NotJudged as fault:
        return refused(asked, str(fault))
    except Unavailable as fault:
        raise NotFound(str(fault)) from None
    commands.answer(told(reading, verdicts))
    return commands.DONE if all(it.is_alike for it in verdicts) else commands.DIFFERENT


def refused(asked: argparse.Namespace, why: str) -> int:
    for line in why.splitlines():
        commands.tell(f"{asked.file}: {line}")
    return commands.REFUSED


def call() -> None:
    """Runs the command."""
    commands.call(run)
