"""Draws tables of iptables for iptables-restore: table mangle, chain PREROUTING, which packets from a wire meet.

A rule that decides has a comment, and one in front of it with the same conditions logs that as its tag.
"""
from stand.first_match import dotted

WITH_PORTS = ("tcp", "tcp", "udp", "udp", "sctp", "dccp", "udplite")
STATES = ("NEW", "RELATED,ESTABLISHED", "INVALID", "NEW,UNTRACKED", "UNTRACKED")
ICMP = ("8", "0", "3/1", "8/0", "echo-request", "8/1", "any")
COMMENT = '-m comment --comment "a \\"quoted\\" note ! -s 1.2.3.4"'


class Draw:
    def __init__(self, rng, state):
        self.rng, self.state, self.count = rng, state, 0
        self.base = [rng.choice([10 << 24, 192 << 24 | 168 << 16, 0, 0xFFFFFFFF, rng.getrandbits(32)]) for _ in range(3)]

    def address(self):
        return self.rng.choice(self.base) ^ self.rng.choice([0, 1, 2, 3, 256, 1 << self.rng.randrange(32), self.rng.getrandbits(8)])

    def network(self):
        choice = self.rng.random()
        if choice < 0.2:
            return dotted(self.address())
        if choice >= 0.35:
            return f"{dotted(self.address())}/{self.rng.choice([1, 2, 3, 4, 8, 8, 12, 16, 24, 30, 31])}"
        free = (1 << self.rng.randrange(0, 16)) - 1
        for _ in range(self.rng.randrange(1, 5)):
            free |= 1 << self.rng.randrange(32)
        return f"{dotted(self.address() & ~free)}/{dotted(~free & 0xFFFFFFFF)}"

    def port(self):
        return self.rng.choice([22, 80, 443, 53, 0, 65535, 1023, 1024, self.rng.randrange(65536), self.rng.randrange(20, 30)])

    def span(self):
        low, high = sorted([self.port(), self.port()])
        text = self.rng.choice([str(low), f"{low}:{high}", f"{low}:", f":{high}", str(high)])
        # iptables-save leaves out `! --dport 0:65535`, which matches nothing.
        return text if text not in ("0:", ":65535", "0:65535") else "7"

    def several(self):
        low, high = sorted([self.port(), self.port()])
        return f"{low}:{high}" if low < high and self.rng.random() < 0.4 else str(low)

    def turned(self):
        return self.rng.choice(["", "", "! "])

    def matches(self):
        rng = self.rng
        drawn = [
            (0.5, lambda: f"{self.turned()}-s {self.network()}"),
            (0.35, lambda: f"{self.turned()}-d {self.network()}"),
            (0.12, lambda: f"{self.turned()}-i {rng.choice(['v1', 'lo', 'v+', 'x+'])}"),
            (0.66, self.protocol),
            (0.12, lambda: f"-m iprange {self.turned()}{rng.choice(['--src-range', '--dst-range'])} {'-'.join(map(dotted, sorted([self.address(), self.address()])))}"),
            (0.25 if self.state else 0, lambda: f"-m conntrack {self.turned()}--ctstate {rng.choice(STATES)}"),
            (0.1, lambda: f"{self.turned()}-f"),
            (0.15, lambda: COMMENT),
        ]
        return " ".join(one() for chance, one in drawn if rng.random() < chance)

    def protocol(self):
        choice = self.rng.random()
        if choice < 0.75:
            return self.ported(self.rng.choice(WITH_PORTS))
        if choice < 0.9:
            return f"{self.turned()}-p {self.rng.choice(['icmp', '47', '58', '100', 'tcp', 'udp', '255', 'esp'])}"
        return f"-p icmp -m icmp {self.turned()}--icmp-type {self.rng.choice(ICMP)}"

    def ported(self, protocol):
        how = self.rng.random()
        if how < 0.55 and protocol != "udplite":
            source = f"{self.turned()}--sport {self.span()} " if self.rng.random() < 0.4 else ""
            return f"-p {protocol} -m {protocol} {source}{self.turned()}--dport {self.span()}"
        if how < 0.9:
            listed = ",".join(self.several() for _ in range(self.rng.randrange(1, 5)))
            return f"-p {protocol} -m multiport {self.turned()}{self.rng.choice(['--sports', '--dports', '--ports'])} {listed}"
        return f"-p {protocol}"

    def rule(self, chain, inner):
        self.count += 1
        matches, choice = self.matches(), self.rng.random()
        front = f"-A {chain} {matches}"
        if choice < 0.7 and matches:
            tag = f"t{self.count}"
            return f"{front} -j NFLOG --nflog-group 5 --nflog-prefix {tag}\n{front} -m comment --comment {tag}= -j {self.rng.choice(['ACCEPT', 'DROP'])}\n"
        if 0.7 <= choice < 0.82 and inner:
            return f"{front} {self.rng.choice(['-j', '-j', '-g'])} {self.rng.choice(inner)}\n"
        if 0.82 <= choice < 0.92 and matches:
            return f"{front} -j RETURN\n"
        return f"{front} {self.rng.choice(['', '-j LOG --log-prefix x --log-level 7'])}\n"

    def tables(self):
        inner = [f"c{number}" for number in range(self.rng.randrange(0, 4))]
        text = f"*mangle\n:PREROUTING {self.rng.choice(['ACCEPT', 'DROP'])} [0:0]\n" + "".join(f":{name} - [0:0]\n" for name in inner)
        for at, name in enumerate(inner):
            text += "".join(self.rule(name, inner[at + 1:]) for _ in range(self.rng.randrange(0, 5)))
        return text + "".join(self.rule("PREROUTING", inner) for _ in range(self.rng.randrange(1, 12))) + "COMMIT\n"
