"""Draws rulesets of nftables in the scope of the import, as text. Each rule logs a tag in front of what it does.

A tag begins with `t` where the rule decides all that it matches, with `v` where a map of verdicts does, and else with another
letter. What nft 1.0.6 loads otherwise than it lists isn't drawn: two comparisons by `<` or `>`, and two conditions on the protocol.
"""
from stand.first_match import PORTED, dotted

PROTOCOLS = ("tcp", "udp", "icmp", "sctp", "dccp", "udplite", "47", "58", "100", "255")
STATES = ("new", "established,related", "{ new, untracked }", "invalid", "!= new", "untracked", "invalid,new", "{ established, related }")
ICMP = ("type echo-request", "type { echo-reply, echo-request }", "type != echo-request", "type destination-unreachable", "type 8", "type != 3", "type 3-8",
        "code net-unreachable", "code != net-unreachable", "code { port-unreachable, 5 }", "code 0 icmp type echo-request")
IPV4 = ("meta nfproto ipv4", "meta nfproto ipv6", "ip6 saddr ::1", "icmpv6 type echo-request", "meta nfproto != ipv6")
INTERFACES = ('iifname "v1"', 'iifname != "v1"', 'iifname "v*"', 'iifname "lo"', 'iifname { "lo", "v1" }', 'iif "v1"', 'iif "lo"')
# How many conditions a rule has, by the letter of its tag.
CONDITIONS = {"t": (1, 1, 2, 2, 3), "j": (0, 0, 0, 1), "r": (1, 1, 1, 2), "v": (0, 1, 1, 2), "p": (0, 1, 2)}
PICKED_PORTS = (22, 80, 443, 53, 0, 65535, 1023, 1024)


class Draw:
    def __init__(self, rng, state):
        self.rng, self.state = rng, state
        self.family = rng.choice(["ip", "inet"])
        self.base = [rng.choice([10 << 24, 192 << 24 | 168 << 16, 0, 0xFFFFFFFF, rng.getrandbits(32)]) for _ in range(3)]
        self.addresses, self.ports = [], []  # those near which decisions may change
        self.sets, self.maps, self.count = [], [], 0

    def address(self):
        value = self.rng.choice(self.base) ^ self.rng.choice([0, 1, 2, 3, 256, 1 << self.rng.randrange(32), self.rng.getrandbits(8)])
        self.addresses += [value, value ^ 1, (value + 1) & 0xFFFFFFFF, (value - 1) & 0xFFFFFFFF]
        return value

    def one_address(self):
        value = self.address()
        match self.rng.randrange(4):
            case 0:
                return dotted(value)
            case 1:
                low, high = sorted([value, self.address()])
                return f"{dotted(low)}-{dotted(high)}" if low < high else dotted(low)
        length = self.rng.choice([1, 4, 8, 12, 16, 20, 24, 24, 28, 30, 31, 32])
        value = value >> 32 - length << 32 - length
        last = value + (1 << 32 - length) - 1
        self.addresses += [value, max(0, value - 1), last, min(0xFFFFFFFF, last + 1)]
        return f"{dotted(value)}/{length}"

    def port(self):
        value = self.rng.choice([*PICKED_PORTS, self.rng.randrange(65536), self.rng.randrange(20, 30)])
        self.ports += [value, max(0, value - 1), min(65535, value + 1)]
        return value

    def one_port(self):
        low, high = sorted([self.port(), self.port()])
        return f"{low}-{high}" if low < high and self.rng.random() < 0.4 else str(low)

    def protocol(self):
        return self.rng.choice(PROTOCOLS)

    def compared(self, one, kind):
        """An operator and a right side."""
        choice = self.rng.random()
        if choice < 0.45:
            return one()
        if choice < 0.6:
            return "!= " + one()
        if choice < 0.72 and kind != "protocol" and not self.has_order:
            self.has_order = True
            bound = dotted(self.address() or 5) if kind == "address" else str(min(65534, max(1, self.port())))
            return f"{self.rng.choice(['<', '>', '<=', '>='])} {bound}"
        if choice < 0.85 or kind == "protocol":
            return f"{self.rng.choice(['', '!= '])}{{ {', '.join(self.apart(one, kind))} }}"
        return self.rng.choice(["", "!= "]) + self.named_set(one, kind)

    def named_set(self, one, kind):
        name, type_ = f"set{len(self.sets)}", "ipv4_addr" if kind == "address" else "inet_service"
        elements = ", ".join(sorted({one() for _ in range(self.rng.randrange(1, 5))}))
        self.sets.append(f" set {name} {{\n  type {type_}\n  flags interval\n  auto-merge\n  elements = {{ {elements} }}\n }}")
        return f"@{name}"

    def apart(self, one, kind):
        """Values that share none: nft refuses others in a set without a name."""
        if kind == "port" and self.rng.random() < 0.2:  # more ranges than a rule has
            return sorted({str(self.rng.choice([self.port(), self.rng.randrange(65536)])) for _ in range(45)})
        found = {}
        for _ in range(self.rng.randrange(1, 6)):
            text = one()
            low, high = (text, text) if kind == "protocol" else ends(text)
            if kind == "protocol" or all(high < first or last < low for first, last in found.values()):
                found[text] = low, high
        return list(found)

    def match(self):
        """A condition. What a rule asks for of the protocol it asks for once."""
        choice, side = self.rng.randrange(17), self.rng.choice("sd")
        if choice in range(5, 9) and self.transport in (None, "tcp", "udp", "sctp", "dccp", "udplite"):
            self.transport = self.transport or self.rng.choice(["tcp", "tcp", "udp", "udp", "sctp", "dccp", "udplite"])
            return f"{self.transport} {side}port {self.compared(self.one_port, 'port')}"
        if choice in (9, 10, 14) and self.transport is None:
            return self.of_protocol(choice, side)
        if choice == 11 and self.transport in (None, "tcp", "udp"):
            self.transport = self.transport or self.rng.choice(["tcp", "udp"])
            elements = sorted({f"{dotted(self.address())} . {self.port()}" for _ in range(self.rng.randrange(1, 4))})
            return f"ip {side}addr . {self.transport} {self.rng.choice('sd')}port {{ {', '.join(elements)} }}"
        if choice == 12:
            return self.rng.choice(INTERFACES)
        if choice == 13 and self.state:
            return f"ct state {self.rng.choice(STATES)}"
        if choice == 15 and self.family == "inet":
            return self.rng.choice(IPV4)
        if choice == 16:
            return f"ip frag-off & 0x1fff {self.rng.choice(['==', '!='])} 0"
        return f"ip {side}addr {self.compared(self.one_address, 'address')}"

    def of_protocol(self, choice, side):
        self.transport = "other"
        match choice:
            case 9:
                return self.rng.choice(["meta l4proto ", "ip protocol "]) + self.compared(self.protocol, "protocol")
            case 10:
                return f"meta l4proto {{ tcp, udp }} th {side}port {self.compared(self.one_port, 'port')}"
        return f"icmp {self.rng.choice(ICMP)}"

    def rule(self, chains, kind=None):
        """A rule, which may jump to these chains. Jumps ask for little, so that packets come deep."""
        self.count += 1
        self.transport, self.has_order = None, False
        kind = kind or self.kind(chains)
        matches = " ".join(self.match() for _ in range(self.rng.choice(CONDITIONS[kind])))
        return f'  {matches} counter log prefix "{kind}{self.count}" group 5 {self.tail(kind, chains)}'

    def kind(self, chains):
        """The letter of a rule's tag."""
        choice = self.rng.random()
        if choice < 0.18 and chains:
            return "j"
        return "r" if choice < 0.28 else "v" if choice < 0.38 else "t" if choice < 0.92 else "p"

    def tail(self, kind, chains):
        match kind:
            case "t":
                return self.decision()
            case "j":
                return f"{self.rng.choice(['jump', 'jump', 'goto'])} {self.rng.choice(chains)}"
            case "r":
                return "return"
            case "v":
                return self.verdicts(chains)
        return ""

    def decision(self):
        rejection = "reject with icmpx type admin-prohibited" if self.family == "inet" else "reject with icmp type host-prohibited"
        return self.rng.choice(["accept", "drop", "accept", "drop", "reject", rejection])

    def verdicts(self, chains):
        words = ["accept", "drop", "return", "continue", *(f"{word} {chain}" for chain in chains for word in ("jump", "goto"))]
        transport = self.transport or "tcp"
        is_ported = transport in ("tcp", "udp", "sctp") and self.rng.random() < 0.5
        keys = sorted({str(self.port()) if is_ported else dotted(self.address()) for _ in range(self.rng.randrange(1, 5))})
        pairs = ", ".join(f"{key} : {self.rng.choice(words)}" for key in keys)
        front = f"{transport} dport" if is_ported else "ip daddr"
        if self.rng.random() < 0.7:
            return f"{front} vmap {{ {pairs} }}"
        name = f"map{len(self.maps)}"
        self.maps.append(f" map {name} {{\n  type {'inet_service' if is_ported else 'ipv4_addr'} : verdict\n  elements = {{ {pairs} }}\n }}")
        return f"{front} vmap @{name}"

    def ruleset(self):
        """A table `t` whose chain `judged` is judged. Chains stand in front of the maps and rules that name them."""
        names = [f"c{number}" for number in range(self.rng.choice([0, 1, 2, 3, 3]))]
        bodies = [self.body(names[at + 1:]) for at in range(len(names))]
        rules = [self.rule(names) for _ in range(self.rng.randrange(1, 12))]
        head = f"  type filter hook prerouting priority 0; policy {self.rng.choice(['accept', 'drop'])};"
        chains = [f" chain {name} {{\n" + "\n".join(body) + "\n }" for name, body in zip(names, bodies)]
        empty = [f" chain {name} {{\n }}" for name in names]
        return "\n".join([f"table {self.family} t {{", *self.sets, *empty, *self.maps, *reversed(chains), " chain judged {", head, *rules, " }", "}", ""])

    def body(self, chains):
        """The rules of a chain, of which one often jumps deeper, and one leaves the chain before its end."""
        kinds = [kind for kind in "jr" if (kind == "r" or chains) and self.rng.random() < 0.6]
        kinds += [None] * self.rng.randrange(0, 4)
        self.rng.shuffle(kinds)
        return [self.rule(chains, kind) for kind in kinds]

    def headers(self, count, protocols):
        """Headers of the values that were drawn."""
        return [self.header(self.rng.choice(protocols or [6, 6, 6, 17, 17, 1, 132, 33, 136, 47, 58, 100, 255, self.rng.randrange(256)])) for _ in range(count)]

    def header(self, protocol):
        ports = (self.known(self.ports, 65536), self.known(self.ports, 65536)) if protocol in PORTED else (0, 0)
        return self.known(self.addresses, 1 << 32), self.known(self.addresses, 1 << 32), *ports, protocol

    def known(self, values, size):
        return self.rng.choice(values) if values and self.rng.random() < 0.85 else self.rng.randrange(size)


def ends(text):
    """The first and the last value of a range, a prefix or a value."""
    if "/" in text:
        address, length = text.split("/")
        low = number(address)
        return low, low + (1 << 32 - int(length)) - 1
    return number(text.split("-")[0]), number(text.split("-")[-1])


def number(word):
    return sum(int(byte) << shift for byte, shift in zip(word.split("."), (24, 16, 8, 0))) if "." in word else int(word)
