"""The options of a rule: its conditions as boxes of headers, and its target."""
from __future__ import annotations

import re
import shlex
from dataclasses import dataclass, field
from typing import NamedTuple

from .. import addresses, fields, names
from ..addresses import is_number
from ..chains import Never, Step
from ..fields import Box, Spans
from ..listing import Assumed, Refused
from ..words import Words

# Matches that are read, with their options. Others are refused.
MATCHES = frozenset("comment conntrack dccp icmp iprange multiport sctp state tcp udp udplite".split())
# Targets that decide nothing.
PASSING = ("LOG", "NFLOG")
REJECTION = re.compile(r"(icmp|tcp)-[a-z-]{1,20}")
BOTH_NEGATED = "both ports negated: iptables-nft 1.8.9 takes it for not both, iptables-legacy for neither; write it as rules with a RETURN"


class Condition(NamedTuple):
    """The field that an option asks for, the values that it asks for, and whether it asks for the others."""

    field: str
    values: Spans
    is_negated: bool

    @property
    def boxes(self) -> list[Box]:
        every = getattr(fields.WHOLE, self.field)
        values = fields.others(self.values, every) if self.is_negated else self.values
        return [fields.WHOLE._replace(**{self.field: values})] if values else []


@dataclass
class Reading:
    line: str
    assumed: Assumed
    chains: frozenset[str]
    words: Words = field(default_factory=lambda: Words([]))
    step: tuple[str, str] | None = None
    never: Never | None = None
    refusal: Refused | None = None
    # The ports that are asked for as one value, negated.
    negated: set[str] = field(default_factory=set)
    boxes: list[Box] = field(default_factory=lambda: [fields.WHOLE])

    def steps(self) -> list[Step]:
        """What the rule does. It is refused for its first option without a form, but not if it matches nothing by another one."""
        try:
            self.words = Words(shlex.split(self.line))
        except ValueError as fault:
            raise Refused(f"quotes: {fault}") from None
        while self.words.left:
            self.option()
        if self.never:
            raise self.never
        if self.refusal:
            raise self.refusal
        if not self.boxes:
            raise Never("matches no header")
        if len(self.negated) == 2 and any(fields.holds(box.protocols, number) for box in self.boxes for number in (fields.TCP, fields.UDP)):
            raise Refused(BOTH_NEGATED)
        return [Step(self.boxes, *self.step)] if self.step else [Step([fields.WHOLE], "pass")]

    def option(self) -> None:
        """Takes the option that stands next."""
        is_negated = self.words.next == "!"
        if is_negated:
            self.words.take()
        try:
            option = self.words.take()
            if option in ("-j", "-g"):
                self.target(option, self.words.take(), is_negated)
            else:
                self.boxes = fields.meet(self.boxes, self.condition(option, is_negated))
        except Never as never:
            self.never = self.never or never
        except Refused as refused:
            self.refusal = self.refusal or refused
            while self.words.left and self.words.next != "!" and not self.words.next.startswith("-"):
                self.words.take()

    def target(self, option: str, word: str, is_negated: bool) -> None:
        if is_negated or self.step:
            raise Refused(f"{option} {word}, negated or a second time")
        if option == "-g" or word in self.chains:
            self.step = "goto" if option == "-g" else "jump", word
        elif word in ("ACCEPT", "DROP"):
            self.step = "decide", word.lower()
        elif word == "RETURN":
            self.step = "return", ""
        elif word == "REJECT":
            self.step = "decide", f"reject-{self.rejection()}"
        elif word in PASSING:
            self.step = "pass", ""
            self.words.left = []
        else:
            raise Refused(f"no chain {word}, and no target {word} that is understood")

    def rejection(self) -> str:
        if self.words.next != "--reject-with":
            return "icmp-port-unreachable"
        self.words.take()
        answer = self.words.take()
        if not REJECTION.fullmatch(answer):
            raise Refused(f"--reject-with {answer}")
        return answer

    def condition(self, option: str, is_negated: bool) -> list[Box]:
        """The headers that an option asks for."""
        match option:
            case "-m":
                return self.match(is_negated)
            case "--comment":
                self.words.take()
                return [fields.WHOLE]
            case "-s" | "-d" | "--src-range" | "--dst-range":
                return self.address(option, is_negated)
            case "-p":
                return Condition("protocols", protocol(self.words.take()), is_negated).boxes
            case "--sport" | "--dport" | "--sports" | "--dports":
                return self.ports(option, is_negated)
            case "--ports":
                return self.either_port(is_negated)
            case "-i" | "-o":
                return self.interface(option, is_negated)
            case "--ctstate" | "--state":
                return self.state(option, is_negated)
            case "-f":
                if not self.assumed.has_no_fragments:
                    raise Refused("-f: say --assume fragments=no")
                return self.told(is_negated, "fragments=no")
            case "--icmp-type":
                return self.icmp(is_negated)
        raise Refused(f"option {option}")

    def match(self, is_negated: bool) -> list[Box]:
        name = self.words.take()
        if is_negated or name not in MATCHES:
            raise Refused(f"match {name}")
        return [fields.WHOLE]

    def address(self, option: str, is_negated: bool) -> list[Box]:
        word = self.words.take()
        name = "source" if option in ("-s", "--src-range") else "destination"
        values = addresses.span(*word.split("-", 1)) if option.endswith("-range") and "-" in word else network(word)
        return Condition(name, values, is_negated).boxes

    def ports(self, option: str, is_negated: bool) -> list[Box]:
        name = "source_ports" if "sport" in option else "destination_ports"
        values = ports(self.words.take())
        if is_negated and not option.endswith("s") and len(values) == 1 and values[0][0] == values[0][1]:
            self.negated.add(name)
        return Condition(name, values, is_negated).boxes

    def either_port(self, is_negated: bool) -> list[Box]:
        values = ports(self.words.take())
        source, destination = (Condition(name, values, is_negated).boxes for name in ("source_ports", "destination_ports"))
        return fields.meet(source, destination) if is_negated else source + destination

    def interface(self, option: str, is_negated: bool) -> list[Box]:
        asked = self.words.take()
        side, name = ("in", self.assumed.incoming) if option == "-i" else ("out", self.assumed.outgoing)
        if name is None:
            raise Refused(f"{option} {asked}: say --assume {side}=NAME")
        fits = name == asked or asked.endswith("+") and name.startswith(asked[:-1])
        return self.told(fits != is_negated, f"{side}={name}")

    def state(self, option: str, is_negated: bool) -> list[Box]:
        asked = self.words.take()
        if self.assumed.state is None:
            raise Refused(f"{option} {asked}: say --assume state=NAME")
        states = asked.lower().split(",")
        if not set(states) <= set(names.STATES):
            raise Refused(f"{option} {asked}")
        return self.told((self.assumed.state in states) != is_negated, f"state={self.assumed.state}")

    def icmp(self, is_negated: bool) -> list[Box]:
        asked = self.words.take()
        kind, slash, code = asked.partition("/")
        if asked == "any":
            return [] if is_negated else [fields.WHOLE]
        if not is_number(kind, 255) or slash and not is_number(code, 255):
            raise Refused(f"--icmp-type {asked}: write its number")
        if self.assumed.icmp is None:
            raise Refused(f"--icmp-type {asked}: say --assume icmp=TYPE/CODE")
        assumed_kind, assumed_code = self.assumed.icmp
        # 255 stands for every type.
        fits = int(kind) in (255, assumed_kind) and (not slash or int(code) == assumed_code)
        return self.told(fits != is_negated, f"icmp={assumed_kind}/{assumed_code}")

    @staticmethod
    def told(holds: bool, assumption: str) -> list[Box]:
        if not holds:
            raise Never(f"matches no packet with {assumption}")
        return [fields.WHOLE]


def protocol(word: str) -> Spans:
    number = int(word) if is_number(word, 255) else names.LINUX_PROTOCOLS.get(word)
    if not number:
        raise Refused(f"protocol {word}")
    return fields.single(number)


def network(word: str) -> Spans:
    """An address with a length or with any mask."""
    address, slash, mask = word.partition("/")
    if not slash or is_number(mask, 32):
        return addresses.prefix(address, mask or "32")
    return addresses.masked(addresses.number_of(address), addresses.number_of(mask) ^ 0xFFFFFFFF, f"the mask {mask}")


def ports(word: str) -> Spans:
    """Ports and ranges of ports, parted by commas; the ends of a range may be left out."""
    pairs = []
    for part in word.split(","):
        low, colon, high = part.partition(":")
        first, last = low or ("0" if colon else ""), high or ("65535" if colon else low)
        if not is_number(first, 0xFFFF) or not is_number(last, 0xFFFF) or int(first) > int(last):
            raise Refused(f"ports {word}")
        pairs.append((int(first), int(last)))
    return fields.union(pairs)
