"""A list from a configuration: its rules, and which of them each line of the configuration became.

    razor-import DIALECT [--pick NAME] [--assume KEY=VALUE].. [--call DECISION=WORD].. [--map MAP] [--most N] FILE

Dialects: `ios` and `eos` (extended access lists), `nft` (what `nft -nj list ruleset` writes), `iptables` (what `iptables-save`
writes). FILE is a path, or `-` for standard input. The list goes to standard output, and only if no line is refused.

  --pick NAME           the list or chain: an access list's name or number; CHAIN, or FAMILY TABLE CHAIN of nft, or TABLE CHAIN of
                        iptables; not needed where there is one
  --assume KEY=VALUE    what is fixed of a packet beside the five fields: state=new|established (and related, invalid, untracked of
                        nft and iptables), fragments=no, icmp=TYPE/CODE, and in=INTERFACE, out=INTERFACE of nft and iptables
  --call DECISION=WORD  another word for a decision, as permit=accept
  --map MAP             writes which rules each line became; razor-lines reads it
  --most N              the most rules that one line may become; 4096 if not said

The status is 0 where the list was written, 2 for wrong words, 3 where lines are refused, 5 and 6 for faults of reading and writing.
"""
from __future__ import annotations

import argparse
import re
from dataclasses import dataclass
from typing import Mapping

from . import commands, script
from .answers import List
from .configurations import ios, iptables, nft
from .configurations.addresses import is_number
from .configurations.listing import MOST_OF_A_LINE, MOST_RULES, Assumed, Listing, Refused
from .configurations.names import STATES
from .errors import NotImported

DIALECTS = ("ios", "eos", "nft", "iptables")
STATES_OF = {"ios": STATES[:2], "eos": STATES[:2], "nft": STATES, "iptables": STATES}
WITH_INTERFACES = ("nft", "iptables")
WORD = re.compile(r"(?!miss$)[A-Za-z0-9_.-]{1,32}")


@dataclass(frozen=True)
class Reading:
    """A configuration that was read: its dialect and name, what was assumed, and its listing, which is no list where it has faults."""

    dialect: str
    name: str
    assumptions: tuple[str, ...]
    listing: Listing

    @property
    def text(self) -> str:
        """The list."""
        first = ", ".join([f"# {self.dialect} {self.name}", *self.assumptions])
        return "".join(f"{line}\n" for line in [first, *self.listing.rules])


@dataclass(frozen=True)
class Imported:
    """A list from a configuration: its name there, the list, which rules each line became, and what takes part otherwise than as written."""

    name: str
    list: List
    map: str
    notices: tuple[str, ...]


def imported(dialect: str, text: str, *, pick: str | None = None, assume: Mapping[str, str] | None = None, call: Mapping[str, str] | None = None,
             most: int = MOST_OF_A_LINE, file: str = "configuration") -> Imported:
    """The list of a configuration. Raises NotImported with all refused lines, and ValueError for wrong words."""
    reading = read(dialect, text, pick, assume, call, most)
    if reading.listing.faults:
        raise NotImported(file, tuple(reading.listing.faults))
    return Imported(reading.name, List(reading.text, reading.name), reading.listing.map(), tuple(reading.listing.notices))


def read(dialect: str, text: str, pick: str | None = None, assume: Mapping[str, str] | None = None, call: Mapping[str, str] | None = None,
         most: int = MOST_OF_A_LINE) -> Reading:
    """Reads a configuration. A ValueError says that words are wrong."""
    assumed = assumed_of(dialect, assume or {})
    words = {decision: called(decision, word) for decision, word in (call or {}).items()}
    if not 1 <= most <= MOST_RULES:
        raise ValueError(f"--most {most}: from 1 to {MOST_RULES}")
    listing = Listing(most=most, words=words)
    name = ""
    try:
        name = read_into(listing, dialect, text.removeprefix("\ufeff"), pick, assumed)
    except Refused as refused:
        listing.faults[refused.reason] = None
    return Reading(dialect, name, tuple(sorted(f"{key}={value}" for key, value in (assume or {}).items())), listing)


def read_into(listing: Listing, dialect: str, text: str, pick: str | None, assumed: Assumed) -> str:
    match dialect:
        case "ios" | "eos":
            return ios.read(text, dialect, pick, assumed, listing)
        case "nft":
            return nft.read(text, pick, assumed, listing)
    return iptables.read(text, pick, assumed, listing)


def called(decision: str, word: str) -> str:
    if not WORD.fullmatch(word):
        raise ValueError(f"--call {decision}={word}: a decision has 1 to 32 letters, digits, `_`, `-` and `.`, and isn't `miss`")
    return word


def assumed_of(dialect: str, assume: Mapping[str, str]) -> Assumed:
    """What is assumed. A ValueError names a word that says nothing of this dialect."""
    if dialect not in DIALECTS:
        raise ValueError(f"dialect {dialect}: one of {', '.join(DIALECTS)}")
    for key, value in assume.items():
        if not may_assume(dialect, key, value):
            raise ValueError(f"--assume {key}={value}: nothing that may be assumed of {dialect}")
    icmp = assume["icmp"].split("/") if "icmp" in assume else None
    return Assumed(assume.get("state"), "fragments" in assume, assume.get("in"), assume.get("out"), (int(icmp[0]), int(icmp[1])) if icmp else None)


def may_assume(dialect: str, key: str, value: str) -> bool:
    match key:
        case "state":
            return value in STATES_OF[dialect]
        case "fragments":
            return value == "no"
        case "in" | "out":
            return dialect in WITH_INTERFACES and re.fullmatch(r"[^\s/]{1,15}", value) is not None
        case "icmp":
            kind, slash, code = value.partition("/")
            return bool(slash) and is_number(kind, 255) and is_number(code, 255)
    return False


def arguments() -> argparse.ArgumentParser:
    parser = script.words(__doc__)
    parser.add_argument("dialect", metavar="DIALECT", choices=DIALECTS)
    parser.add_argument("--pick", metavar="NAME")
    parser.add_argument("--assume", metavar="KEY=VALUE", action=commands.Pairs, default={})
    parser.add_argument("--call", metavar="DECISION=WORD", action=commands.Pairs, default={})
    parser.add_argument("--map", metavar="MAP")
    parser.add_argument("--most", metavar="N", type=commands.count, default=MOST_OF_A_LINE)
    parser.add_argument("file", metavar="FILE")
    return parser


def run(words: list[str]) -> int:
    parser = arguments()
    asked = parser.parse_args(words)
    text = commands.read(asked.file)
    try:
        reading = read(asked.dialect, text, asked.pick, asked.assume, asked.call, asked.most)
    except ValueError as fault:
        parser.error(str(fault))
    tell(asked.file, reading)
    if reading.listing.faults:
        return commands.REFUSED
    if asked.map is not None:
        commands.write(asked.map, reading.listing.map())
    commands.answer(reading.text)
    commands.tell(f"{reading.name}: rules {len(reading.listing.rules)}, notices {len(reading.listing.notices)}")
    return commands.DONE


def tell(file: str, reading: Reading) -> None:
    """Tells all refused lines, and what takes part otherwise than as written."""
    for fault in reading.listing.faults:
        commands.tell(f"{file}: {fault}")
    for notice in reading.listing.notices:
        commands.tell(f"{file}: notice: {notice}")
    if reading.listing.faults:
        commands.tell(f"{file}: no list written, {len(reading.listing.faults)} faults")


def call() -> None:
    """Runs the command."""
    commands.call(run)
