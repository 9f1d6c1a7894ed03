"""Object groups of IOS: networks, with netmasks in place of wildcards, and services."""
from __future__ import annotations

from dataclasses import dataclass, field

from .. import addresses, fields, names
from ..fields import Box, Spans
from ..listing import Refused
from ..words import Words
from . import ports
from .blocks import NETWORK, SERVICE, Blocks, Line

# How deep groups may stand in groups.
DEPTH = 16


@dataclass
class Groups:
    blocks: Blocks
    networks: dict[str, Spans] = field(default_factory=dict)
    services: dict[str, list[Box]] = field(default_factory=dict)

    def network(self, name: str, depth: int = 0) -> Spans:
        """The addresses of a group."""
        if name not in self.networks:
            pairs = [pair for line in self.lines(NETWORK, name, depth) for pair in self.networks_of(name, line, depth)]
            if not pairs:
                raise missing(NETWORK, name)
            self.networks[name] = fields.union(pairs)
        return self.networks[name]

    def networks_of(self, name: str, line: Line, depth: int) -> Spans:
        match line.text.split():
            case ["description", *_]:
                return ()
            case ["any"]:
                return fields.EVERY_ADDRESS
            case ["host", host]:
                return fields.single(addresses.number_of(host))
            case ["range", low, high]:
                return addresses.span(low, high)
            case ["group-object", inner]:
                return self.network(inner, depth + 1)
            case [address, mask] if mask.startswith("/"):
                return addresses.prefix(address, mask[1:])
            case [address, mask] if "." in mask:
                return under_netmask(address, mask, line, name)
        raise Refused(f"object-group {name}, line {line.number}: {line.text}")

    def service(self, name: str, depth: int = 0) -> list[Box]:
        """The boxes of a group."""
        if name not in self.services:
            boxes = [box for line in self.lines(SERVICE, name, depth) for box in self.services_of(name, line, depth)]
            if not boxes:
                raise missing(SERVICE, name)
            self.services[name] = boxes
        return self.services[name]

    def services_of(self, name: str, line: Line, depth: int) -> list[Box]:
        words = Words(line.text.split())
        match words.take():
            case "description":
                return []
            case "group-object":
                boxes = self.service(words.take(), depth + 1)
            case word:
                boxes = self.ported(word, words)
        if words.left:
            raise Refused(f"object-group {name}, line {line.number}: {line.text}")
        return boxes

    def ported(self, word: str, words: Words) -> list[Box]:
        """A protocol, with ports where it has them."""
        protocols = ((fields.TCP, fields.TCP), (fields.UDP, fields.UDP)) if word == "tcp-udp" else protocol(word, self.blocks.dialect)
        numbers = frozenset(low for low, high in protocols if low == high) & {fields.TCP, fields.UDP}
        box = Box(protocols=protocols)
        if numbers and words.next == "source":
            words.take()
            box = box._replace(source_ports=ports.operated_alone(words, self.blocks.dialect, numbers))
        if numbers and words.left:
            box = box._replace(destination_ports=ports.operated_alone(words, self.blocks.dialect, numbers))
        return [box]

    def lines(self, kind: str, name: str, depth: int) -> list[Line]:
        if depth > DEPTH:
            raise Refused(f"object-group {name} is nested too deep")
        block = self.blocks.found.get((kind, name))
        if block is None or not block.lines:
            raise missing(kind, name)
        if block.faults:
            raise Refused(f"object-group {name}, {block.faults[0]}")
        return block.lines


def missing(kind: str, name: str) -> Refused:
    return Refused(f"no {kind} object-group {name}, or an empty one")


def under_netmask(address: str, mask: str, line: Line, name: str) -> Spans:
    free = addresses.number_of(mask) ^ 0xFFFFFFFF
    if free & free + 1:
        raise Refused(f"object-group {name}, line {line.number}: a group has netmasks: {line.text}")
    return addresses.masked(addresses.number_of(address), free, mask)


def protocol(word: str, dialect: str) -> Spans:
    """The protocols that a word stands for."""
    if word == "ip":
        return fields.EVERY_PROTOCOL
    number = int(word) if addresses.is_number(word, 255) else names.PROTOCOLS[dialect].get(word)
    if number is None:
        raise Refused(f"unknown protocol {word}")
    if number == 0:
        raise Refused("protocol 0: devices take it for every protocol, so write ip if that is meant")
    return fields.single(number)
