"""An entry of an extended list: which headers it matches, at what is fixed of a packet beside them."""
from __future__ import annotations

import re
from dataclasses import dataclass, field

from .. import addresses, fields, names
from ..addresses import is_number
from ..fields import Box, Spans
from ..listing import Assumed, Refused
from ..words import Words
from . import ports
from .groups import Groups, protocol

# What entries ask for beside the five fields. Other words are refused too, as unknown.
OUTSIDE = frozenset("ack cos copy dscp ecn fin hop-limit match-all match-any mirror nexthop-group option precedence psh redirect reflect rst syn"
                    " time-range tos tracked ttl urg vlan".split())
NETMASK = re.compile("1+0+")


@dataclass
class Entry:
    """The words of an entry behind its decision."""

    words: Words
    groups: Groups
    assumed: Assumed
    never: str = ""  # why it matches no packet that the list speaks of
    notices: list[str] = field(default_factory=list)

    @property
    def dialect(self) -> str:
        return self.groups.blocks.dialect

    def boxes(self) -> list[Box]:
        """The headers that it matches. All words are read, also where it matches none."""
        services = self.service()
        source = self.address()
        source_ports = self.ports(services)
        destination = self.address()
        destination_ports = self.ports(services)
        self.options({span for box in services for span in box.protocols})
        return fields.meet(services, [Box(source, destination, source_ports, destination_ports)])

    def service(self) -> list[Box]:
        word = self.words.take()
        if word == "object-group":
            return self.groups.service(self.words.take())
        return [Box(protocols=protocol(word, self.dialect))]

    def address(self) -> Spans:
        match word := self.words.take():
            case "any":
                return fields.EVERY_ADDRESS
            case "host":
                return fields.single(addresses.number_of(self.words.take()))
            case "object-group":
                return self.groups.network(self.words.take())
        if "/" not in word:
            return self.under_wildcard(addresses.number_of(word), self.words.take())
        if self.dialect != "eos":
            raise Refused(f"{word}: IOS has wildcards here")
        address, _, length = word.partition("/")
        return addresses.prefix(address, length)

    def under_wildcard(self, address: int, wildcard: str) -> Spans:
        free = addresses.number_of(wildcard)
        if NETMASK.fullmatch(f"{free:032b}"):
            self.notices.append("the wildcard looks like a netmask, and is taken as the wildcard that it is")
        return addresses.masked(address, free, f"the wildcard {wildcard}")

    def ports(self, services: list[Box]) -> Spans:
        """What the port operator asks for that stands next, if one does."""
        if self.words.next not in ports.OPERATORS:
            return fields.EVERY_PORT
        protocols = {number for box in services for low, high in box.protocols for number in range(low, high + 1)}
        if not protocols <= ports.PORTED:
            raise Refused("ports of protocols that have none")
        return ports.operated(self.words, self.dialect, frozenset(protocols))

    def options(self, protocols: set[fields.Span]) -> None:
        """What stands behind the addresses and ports."""
        while self.words.left:
            match self.words.take():
                case "log" | "log-input" as word:
                    self.notices.append(f"{word} takes no part")
                case "established":
                    self.established(protocols)
                case "fragments":
                    self.fragments()
                case word if word in OUTSIDE:
                    raise Refused(f"{word} isn't one of the five fields")
                case word if protocols == {(1, 1)} and (word in names.DEVICE_ICMP or word.isdigit()):
                    self.icmp(word)
                case word:
                    raise Refused(f"unknown word {word}")

    def established(self, protocols: set[fields.Span]) -> None:
        if protocols != {(fields.TCP, fields.TCP)}:
            raise Refused("established without tcp")
        if self.assumed.state is None:
            raise Refused("established asks for flags: say --assume state=new or state=established")
        self.match_none_if(self.assumed.state == "new", "state=new")

    def fragments(self) -> None:
        if not self.assumed.has_no_fragments:
            raise Refused("fragments asks for later fragments: say --assume fragments=no")
        self.match_none_if(True, "fragments=no")

    def icmp(self, word: str) -> None:
        kind, code = self.icmp_of(word)
        if self.assumed.icmp is None:
            raise Refused("asks for the ICMP type: say --assume icmp=TYPE/CODE")
        assumed_kind, assumed_code = self.assumed.icmp
        self.match_none_if(assumed_kind != kind or code not in (None, assumed_code), f"icmp={assumed_kind}/{assumed_code}")

    def icmp_of(self, word: str) -> tuple[int, int | None]:
        """The type, and the code if one is asked for."""
        if not word.isdigit():
            return names.DEVICE_ICMP[word]
        code = self.words.take() if self.words.next.isdigit() else None
        if not is_number(word, 255) or code is not None and not is_number(code, 255):
            raise Refused("an ICMP type or code above 255")
        return int(word), None if code is None else int(code)

    def match_none_if(self, misses: bool, assumption: str) -> None:
        if misses:
            self.never = self.never or f"matches no packet with {assumption}"
