"""Headers of packets: five numbers, and how engineers write them."""
import ipaddress
import re
import socket
import typing

WIDTHS = (32, 32, 16, 16, 8)

# The box of all headers.
WHOLE = tuple((0, (1 << width) - 1) for width in WIDTHS)

# What is decided where no rule matches, and no entry.
MISS = "miss"

PROTOCOLS = {number: name.removeprefix("IPPROTO_").lower() for name, number in vars(socket).items() if name.startswith("IPPROTO_") and 0 < number < 256}

# The protocols whose ports a switch reads.
WITH_PORTS = {6: "tcp", 17: "udp", 132: "sctp"}


class Header(typing.NamedTuple):
    source: int
    destination: int
    source_port: int
    destination_port: int
    protocol: int

    def __str__(self) -> str:
        """A line of a trace."""
        return " ".join(map(str, self))

    @property
    def shown(self) -> str:
        """The header as an engineer writes it."""
        source, destination = map(ipaddress.IPv4Address, self[:2])
        return f"{source}:{self.source_port} > {destination}:{self.destination_port} {protocol_name(self.protocol)}"


def protocol_name(number: int) -> str:
    return PROTOCOLS.get(number, f"protocol {number}")


def address(word: str) -> int:
    """The number of an address, with points or decimal."""
    return int(word) if word.isdigit() else int(ipaddress.IPv4Address(without_zeros(word)))


def without_zeros(word: str) -> str:
    """An address without leading zeros, which a list may have."""
    return re.sub(r"\b0+(?=\d)", "", word)


def protocol(word: str) -> int:
    """The number of a protocol, by its name or decimal."""
    return int(word) if word.isdigit() else socket.getprotobyname(word)


def header(words: typing.Iterable[str]) -> Header:
    """The header of five words; a ValueError or OSError where they are none."""
    source, destination, source_port, destination_port, last = words
    values = Header(address(source), address(destination), int(source_port), int(destination_port), protocol(last))
    if any(value >> width for value, width in zip(values, WIDTHS)):
        raise ValueError("a value is too large for its field")
    return values
