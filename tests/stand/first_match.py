"""First match over the text of a list, read anew from the format's description, with nothing of the importer."""
import re
import typing

PREFIX = r"(\d+)\.(\d+)\.(\d+)\.(\d+)/(\d+)"
RULE = re.compile(rf"@{PREFIX} {PREFIX} ((?:\d+ : \d+,?)+) ((?:\d+ : \d+,?)+) 0x(..)/0x(00|FF) ([A-Za-z0-9_.-]{{1,32}})")

PORTED = (6, 17, 33, 132, 136)


class Rule(typing.NamedTuple):
    """A rule: what is left of the addresses without their open bits, how many these are, the ports, the protocol or None, the word."""

    source: int
    source_open: int
    destination: int
    destination_open: int
    source_ports: list
    destination_ports: list
    protocol: int | None
    word: str

    def holds(self, header):
        source, destination, source_port, destination_port, protocol = header
        return (
            source >> self.source_open == self.source
            and destination >> self.destination_open == self.destination
            and self.protocol in (None, protocol)
            and any(low <= source_port <= high for low, high in self.source_ports)
            and any(low <= destination_port <= high for low, high in self.destination_ports)
        )


def read(lines):
    return [rule(line) for line in lines if not line.startswith("#")]


def rule(line):
    found = RULE.fullmatch(line)
    assert found, line
    source, destination = prefix(found.groups()[:5]), prefix(found.groups()[5:10])
    return Rule(*source, *destination, ranges(found[11]), ranges(found[12]), int(found[13], 16) if found[14] == "FF" else None, found[15])


def prefix(words):
    *numbers, length = map(int, words)
    assert max(numbers) < 256 and length <= 32
    value = sum(number << shift for number, shift in zip(numbers, (24, 16, 8, 0)))
    return value >> 32 - length, 32 - length


def ranges(text):
    found = [tuple(map(int, part.split(" : "))) for part in text.split(",")]
    assert len(found) <= 16 and all(0 <= low <= high <= 65535 for low, high in found), text
    return found


def decided(rules, header):
    """The number of the first rule that matches, from 1, and its word."""
    return next(((number, it.word) for number, it in enumerate(rules, 1) if it.holds(header)), (0, "miss"))


def source_of(listing, number):
    """The line of the configuration whose rule this is: one, and no other."""
    found = [source for source in listing.sources if any(first <= number <= last for first, last in source.spans)]
    assert len(found) == 1, (number, found)
    return found[0]


def corners(rules, rng, count, protocols=None):
    """Headers at the ends of rules' boxes, and one beside them, of these protocols."""
    return [corner(rng.choice(rules[:-1] or rules), rng, protocols) for _ in range(count)]


def corner(it, rng, protocols):
    protocol = it.protocol if it.protocol is not None and rng.random() < 0.9 else rng.choice([6, 17, 1, 132, rng.randrange(256)])
    if protocols and protocol not in protocols:
        protocol = rng.choice(protocols)
    source = near(rng, it.source << it.source_open, (it.source + 1 << it.source_open) - 1, 0xFFFFFFFF)
    destination = near(rng, it.destination << it.destination_open, (it.destination + 1 << it.destination_open) - 1, 0xFFFFFFFF)
    ports = [near(rng, *rng.choice(spans), 0xFFFF) for spans in (it.source_ports, it.destination_ports)]
    return source, destination, *(ports if protocol in PORTED else (0, 0)), protocol


def near(rng, low, high, last):
    value = rng.choice([low, low, high, high, rng.randint(low, high), rng.randint(low, high), low - 1, high + 1])
    return min(max(value, 0), last)


def dotted(value):
    return ".".join(str(value >> shift & 255) for shift in (24, 16, 8, 0))
