"""Lists from networks to networks, few of which overlap: networks and unions.

In each rule stand a random source and a random destination of 16 to 32 bits, an open source port, one random destination
port, TCP or UDP, and one of two decisions; the last rule is open. In `unions` a quarter of the rules have two or three ranges
of at most 16 destination ports each. The numbers come from splitmix64 (Steele, Lea and Flood), seeded with the count.
"""
from . import drawn
from .regular import joined

WORDS = (1 << 64) - 1

DECISIONS = ("deny", "accept")


def splitmix(state):
    while True:
        state = state + 0x9E37_79B9_7F4A_7C15 & WORDS
        word = (state ^ state >> 30) * 0xBF58_476D_1CE4_E5B9 & WORDS
        word = (word ^ word >> 27) * 0x94D0_49BB_1331_11EB & WORDS
        yield word ^ word >> 31


def prefix(numbers):
    """A network of at most 65,536 addresses."""
    free = next(numbers) % 17
    value = next(numbers) % (1 << 32)
    return drawn.address((value - value % (1 << free), 32 - free))


def port_range(numbers):
    """The next range of at most sixteen ports."""
    low = next(numbers) % 65_536
    return low, min(low + next(numbers) % 16, 65_535)


def ports(numbers, unions):
    if unions and next(numbers) % 4 == 0:
        first, second = port_range(numbers), port_range(numbers)
        return first, second, second if next(numbers) % 2 == 0 else port_range(numbers)
    port = next(numbers) % 65_536
    return ((port, port),)


def lines(unions, count):
    numbers = splitmix(count)
    for _ in range(count - 1):
        source, destination = prefix(numbers), prefix(numbers)
        ranges = ",".join(f"{low} : {high}" for low, high in ports(numbers, unions))
        protocol = ("0x06", "0x11")[next(numbers) % 2]
        yield joined(f"@{source}", destination, "0 : 65535", ranges, f"{protocol}/0xFF", DECISIONS[next(numbers) % 2])
    yield joined("@0.0.0.0/0", "0.0.0.0/0", "0 : 65535", "0 : 65535", "0x00/0x00", "accept")
