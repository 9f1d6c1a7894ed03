"""Lists that are drawn: access, firewall and mixed.

Prefix lengths, ports and protocols are drawn by shares in the manner of the seeds that ClassBench (Taylor and Turner)
publishes for its access, firewall and IP chain lists. Addresses come from a tree of prefixes in which most nodes have one
preferred half, so that prefixes nest, and are often ones that were drawn before, so that rules share them. Narrow rules
tend to stand before wide ones. Three rules in four say `accept`, the others `deny`, and the last one is open and denies.
"""
import random

PROTOCOLS = {"tcp": 6, "udp": 17, "icmp": 1, "gre": 47, "esp": 50, "ospf": 89}

# For each kind: lengths of source and destination prefix, classes of source and destination port, protocols, each
# with its share; how often a node's other half is taken; how often an address is one that was drawn before.
SHARES = {
    "access": {
        "lengths": {
            (32, 32): 24, (24, 32): 14, (0, 32): 6, (16, 32): 5, (32, 24): 8, (24, 24): 9, (28, 32): 7, (30, 32): 5,
            (27, 24): 4, (21, 32): 4, (32, 29): 4, (16, 24): 3, (8, 32): 2, (0, 24): 2, (24, 0): 1, (22, 26): 2,
        },
        "source ports": {"open": 97, "exact": 1, "high": 2},
        "destination ports": {"exact": 58, "open": 24, "range": 11, "high": 5, "low": 2},
        "protocols": {"tcp": 75, "udp": 16, "any": 6, "icmp": 3},
        "branching": 0.30,
        "sharing": (0.75, 0.65),
    },
    "firewall": {
        "lengths": {
            (0, 32): 26, (0, 24): 8, (0, 16): 4, (0, 0): 3, (32, 0): 9, (24, 0): 6, (32, 32): 14, (24, 32): 8,
            (32, 24): 5, (16, 32): 4, (28, 0): 4, (0, 28): 5, (24, 24): 4,
        },
        "source ports": {"open": 70, "exact": 13, "high": 10, "range": 4, "low": 3},
        "destination ports": {"exact": 40, "open": 33, "high": 11, "range": 11, "low": 5},
        "protocols": {"tcp": 50, "udp": 26, "any": 14, "icmp": 6, "gre": 2, "esp": 2},
        "branching": 0.22,
        "sharing": (0.80, 0.75),
    },
    "mixed": {
        "lengths": {
            (32, 32): 30, (24, 32): 9, (32, 24): 8, (0, 32): 9, (32, 0): 5, (24, 24): 8, (16, 16): 5, (0, 24): 4,
            (24, 0): 3, (28, 28): 5, (30, 32): 5, (20, 24): 4, (8, 8): 2, (0, 0): 1, (26, 30): 2,
        },
        "source ports": {"open": 77, "exact": 11, "high": 8, "range": 3, "low": 1},
        "destination ports": {"open": 41, "exact": 39, "high": 10, "range": 7, "low": 3},
        "protocols": {"tcp": 56, "udp": 29, "any": 6, "icmp": 7, "gre": 1, "ospf": 1},
        "branching": 0.26,
        "sharing": (0.85, 0.85),
    },
}

SERVICES = (80, 443, 53, 25, 22, 21, 23, 110, 123, 135, 139, 161, 389, 445, 1433, 1521, 1723, 3306, 5631, 8080)
SERVICE_RANGES = ((20, 21), (137, 139), (161, 162), (1024, 5000), (6000, 6063), (2300, 2400), (67, 68), (5190, 5193))
WIDE_PORTS = {"open": (0, 65_535), "high": (1024, 65_535), "low": (0, 1023)}


def chosen(numbers, shares):
    return numbers.choices(list(shares), shares.values())[0]


class Addresses:
    """Prefixes of one column, which nest and come again."""

    def __init__(self, numbers, branching, sharing):
        self.numbers = numbers
        self.branching = branching
        self.sharing = sharing
        self.preferred = {}
        self.drawn = {}

    def prefix(self, length):
        known = self.drawn.setdefault(length, [])
        if known and self.numbers.random() < self.sharing:
            return self.numbers.choice(known)
        known.append((self.value(length), length))
        return known[-1]

    def value(self, length):
        value = 0
        for depth in range(length):
            half = self.preferred.setdefault((depth, value), self.numbers.getrandbits(1))
            # The first bits part a few large networks; below them branching thins out.
            chance = 0.15 if depth < 8 else self.branching * (1.2 - depth / 40)
            value = value << 1 | half ^ (self.numbers.random() < chance)
        return value << 32 - length


def ports(numbers, name):
    if name in WIDE_PORTS:
        return WIDE_PORTS[name]
    if name == "exact":
        port = numbers.choice(SERVICES) if numbers.random() < 0.85 else numbers.randrange(65_536)
        return port, port
    if numbers.random() < 0.7:
        return numbers.choice(SERVICE_RANGES)
    low = numbers.randrange(1, 65_000)
    return low, min(low + numbers.randrange(1, 2000), 65_535)


def address(prefix):
    value, length = prefix
    return ".".join(str(value >> place & 255) for place in (24, 16, 8, 0)) + f"/{length}"


def line(rule, decision):
    source, destination, source_ports, destination_ports, protocol = rule
    columns = ["@" + address(source), address(destination)]
    columns += [f"{low} : {high}" for low, high in (source_ports, destination_ports)]
    columns.append(f"0x{PROTOCOLS[protocol]:02X}/0xFF" if protocol in PROTOCOLS else "0x00/0x00")
    return "\t".join([*columns, decision]) + "\n"


def drawn_rule(numbers, shares, sources, destinations):
    source_length, destination_length = chosen(numbers, shares["lengths"])
    protocol = chosen(numbers, shares["protocols"])
    has_ports = protocol in ("tcp", "udp")
    both = [ports(numbers, chosen(numbers, shares[name]) if has_ports else "open") for name in ("source ports", "destination ports")]
    rule = (sources.prefix(source_length), destinations.prefix(destination_length), *both, protocol)
    return -source_length - destination_length + numbers.uniform(0, 24), rule


def lines(kind, count):
    numbers = random.Random(f"{kind} {count}")
    shares = SHARES[kind]
    sources, destinations = (Addresses(numbers, shares["branching"], sharing) for sharing in shares["sharing"])
    rules = {}
    while len(rules) < count - 1:
        place, rule = drawn_rule(numbers, shares, sources, destinations)
        rules.setdefault(rule, place)
    for rule in sorted(rules, key=rules.get):
        yield line(rule, numbers.choices(("accept", "deny"), (3, 1))[0])
    yield line(((0, 0), (0, 0), (0, 65_535), (0, 65_535), "any"), "deny")

