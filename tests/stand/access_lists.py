"""Extended access lists of IOS and EOS, drawn as values, written as text, and judged by the meaning of each word for one header.

Nothing here makes sets or prefixes: a condition is a predicate of a header. The meaning is that of the vendors' references as
remembered: the first entry that matches decides; `ip` is any protocol; the bits of a wildcard that are 1 are open; object groups
of IOS have netmasks; behind the last entry stands an implicit deny. No device was asked.
"""
from stand.first_match import dotted

TCP = {"www": 80, "telnet": 23, "smtp": 25, "bgp": 179, "domain": 53, "ftp": 21, "ftp-data": 20, "cmd": 514, "pop3": 110, "tacacs": 49, "whois": 43, "lpd": 515}
UDP = {"domain": 53, "ntp": 123, "snmp": 161, "snmptrap": 162, "syslog": 514, "tftp": 69, "bootps": 67, "bootpc": 68, "isakmp": 500, "rip": 520, "non500-isakmp": 4500}
PROTOCOLS = {"icmp": 1, "igmp": 2, "gre": 47, "esp": 50, "ahp": 51, "ospf": 89, "pim": 103, "sctp": 132}
NUMBERS = {"tcp": 6, "udp": 17} | PROTOCOLS
ICMP = [("echo", 8, None), ("echo-reply", 0, None), ("8", 8, None), ("3 1", 3, 1), ("8 0", 8, 0), ("unreachable", 3, None), ("8 1", 8, 1)]
# What stands around the list in a configuration, and is passed over.
AROUND = """hostname r1
!
interface Gi0/0
 ip access-group {name} in
 ip address 10.0.0.1 255.255.255.0
!
route-map X permit 10
 match ip address 7
!
ipv6 access-list V6
 permit ipv6 any any
!
ip access-list standard S
 10 permit 10.0.0.0 0.255.255.255
!
{groups}{list}!
line vty 0 4
 transport input ssh
!
end
"""


def mask_of(length):
    return 0xFFFFFFFF << 32 - length & 0xFFFFFFFF


def all_of(tests):
    return lambda *values: all(test(*values) for test in tests)


def any_of(tests):
    return lambda *values: any(test(*values) for test in tests)


class Groups:
    """Object groups of IOS: a predicate of an address, or of a header, by name, and the text of all."""

    def __init__(self, values):
        self.rng, self.values = values.rng, values
        self.networks, self.services, self.text = {}, {}, ""
        for number in range(self.rng.randrange(0, 3)):
            self.add("network", f"NET{number}", self.network_line, self.networks, ("any", lambda address: True))
        for number in range(self.rng.randrange(0, 3)):
            self.add("service", f"SVC{number}", self.service_line, self.services, ("tcp", lambda header: header[4] == 6))

    def add(self, kind, name, drawn, known, usual):
        lines = [drawn() for _ in range(self.rng.randrange(1, 5))]
        if not any(test for _, test in lines):
            lines.append(usual)
        known[name] = any_of([test for _, test in lines if test])
        self.text += f"object-group {kind} {name}\n" + "".join(f" {line}\n" for line, _ in lines) + "!\n"

    def network_line(self):
        value = self.values.address()
        match self.rng.randrange(6):
            case 0:
                return f"host {dotted(value)}", lambda address: address == value
            case 1:
                low, high = sorted([value, self.values.address()])
                return f"range {dotted(low)} {dotted(high)}", lambda address: low <= address <= high
            case 2 | 3 as choice:
                length = self.rng.choice([1, 4, 8, 13, 16, 24, 30, 32])
                mask = mask_of(length)
                return f"{dotted(value & mask)} {dotted(mask) if choice == 2 else f'/{length}'}", lambda address: (address ^ value) & mask == 0
            case 4 if self.networks:
                inner = self.rng.choice(list(self.networks))
                return f"group-object {inner}", self.networks[inner]
        return "description a group", None

    def service_line(self):
        word = self.rng.choice(["tcp", "udp", "tcp-udp"])
        numbers = {"tcp": {6}, "udp": {17}, "tcp-udp": {6, 17}}[word]
        is_of = lambda header: header[4] in numbers
        match self.rng.randrange(5):
            case 0:
                name = self.rng.choice([*PROTOCOLS, "100"])
                return name, lambda header: header[4] == PROTOCOLS.get(name, 100)
            case 1 if self.services:
                inner = self.rng.choice(list(self.services))
                return f"group-object {inner}", self.services[inner]
            case 2:
                return word, is_of
        return self.with_ports(word, is_of)

    def with_ports(self, word, is_of):
        words, tests = [word], [is_of]
        if self.rng.random() < 0.4:
            text, source = self.operator()
            words.append(f"source {text}")
            tests.append(lambda header: source(header[2]))
        if len(words) == 1 or self.rng.random() < 0.7:
            text, destination = self.operator()
            words.append(text)
            tests.append(lambda header: destination(header[3]))
        return " ".join(words), all_of(tests)

    def operator(self):
        value = self.values.port()
        match self.rng.randrange(5):
            case 0:
                return str(value), lambda port: port == value
            case 1:
                return f"eq {value}", lambda port: port == value
            case 2:
                low, high = sorted([value, self.values.port()])
                return f"range {low} {high}", lambda port: low <= port <= high
            case 3:
                bound = max(value, 1)
                return f"lt {bound}", lambda port: port < bound
        bound = min(value, 65534)
        return f"gt {bound}", lambda port: port > bound


class Values:
    """The addresses and ports that a list is drawn of."""

    def __init__(self, rng):
        self.rng = rng
        self.base = [rng.choice([10 << 24, 192 << 24 | 168 << 16, rng.getrandbits(32), 0, 0xFFFFFFFF]) for _ in range(3)]

    def address(self):
        return self.rng.choice(self.base) ^ self.rng.choice([0, 1, 2, 3, 256, 1 << self.rng.randrange(32), self.rng.getrandbits(8)])

    def port(self):
        return self.rng.choice([22, 80, 443, 53, 0, 65535, 1023, 1024, self.rng.randrange(65536), self.rng.randrange(20, 30), 514])


class Draw:
    def __init__(self, rng, dialect):
        self.rng, self.dialect = rng, dialect
        self.values = Values(rng)
        self.state = rng.choice(["new", "established", None])
        self.groups = Groups(self.values) if dialect == "ios" else None

    def address(self):
        """The words of an address, and its predicate."""
        rng, value = self.rng, self.values.address()
        choice = rng.random()
        if choice < 0.25:
            return "any", lambda address: True
        if choice < 0.4:
            return f"host {dotted(value)}", lambda address: address == value
        if choice < 0.55 and self.groups and self.groups.networks:
            name = rng.choice(list(self.groups.networks))
            return f"object-group {name}", self.groups.networks[name]
        if choice < 0.7 and self.dialect == "eos":
            length = rng.choice([0, 1, 8, 13, 16, 24, 31, 32])
            return f"{dotted(value & mask_of(length))}/{length}", lambda address: (address ^ value) & mask_of(length) == 0
        free = self.wildcard()
        written = value if rng.random() < 0.5 else value & ~free & 0xFFFFFFFF
        return f"{dotted(written)} {dotted(free)}", lambda address: address | free == value | free

    def wildcard(self):
        if self.rng.random() < 0.7:
            return (1 << self.rng.choice([1, 2, 4, 8, 8, 16, 20, 24, 28, 31, 32])) - 1
        free = self.rng.getrandbits(8) & self.rng.getrandbits(8)
        for _ in range(self.rng.randrange(0, 5)):
            free |= 1 << self.rng.randrange(32)
        return free

    def operator(self, named):
        """The words of a port operator, and its predicate."""
        pairs = [self.port(named) for _ in range(self.rng.choice([1, 1, 1, 2, 3, 10]))]
        words, values = " ".join(word for word, _ in pairs), [value for _, value in pairs]
        match self.rng.randrange(5):
            case 0:
                return f"neq {words}", lambda port: port not in values
            case 1:
                low, high = sorted([self.values.port(), self.values.port()])
                return f"range {low} {high}", lambda port: low <= port <= high
            case 2:
                bound = max(1, self.values.port())
                return f"lt {bound}", lambda port: port < bound
            case 3:
                bound = min(65534, self.values.port())
                return f"gt {bound}", lambda port: port > bound
        return f"eq {words}", lambda port: port in values

    def port(self, named):
        if named and self.rng.random() < 0.4:
            return self.rng.choice(list(named.items()))
        value = self.values.port()
        return str(value), value

    def service(self):
        """The words of a protocol or a service group, its predicate, and the number of the protocol, where it is one."""
        choice = self.rng.random()
        if choice < 0.12 and self.groups and self.groups.services:
            name = self.rng.choice(list(self.groups.services))
            return f"object-group {name}", self.groups.services[name], None
        if choice < 0.3:
            return "ip", lambda header: True, None
        name = self.rng.choice(["tcp", "tcp", "udp"] if choice < 0.75 else [*PROTOCOLS, "100", "255"])
        number = NUMBERS.get(name) or int(name)
        word = name if choice < 0.75 or self.rng.random() < 0.8 else str(number)
        return word, lambda header: header[4] == number, number

    def entry(self):
        """The decision of an entry, its text, and its predicate."""
        action = self.rng.choice(["permit", "deny"])
        service, test, number = self.service()
        words, tests = [action, service], [test]
        for field in (0, 1):
            text, address = self.address()
            words.append(text)
            tests.append(lambda header, field=field, address=address: address(header[field]))
            if number in (6, 17, 132) and self.rng.random() < (0.25, 0.7)[field]:
                text, ports = self.operator({"tcp": TCP, "udp": UDP}.get(service, {}))
                words.append(text)
                tests.append(lambda header, field=field, ports=ports: ports(header[2 + field]))
        for text, option in self.options(service, number, words):
            words.append(text)
            tests.append(option)
        return action, " ".join(words), all_of(tests)

    def options(self, service, number, words):
        """What stands behind the addresses; packets of ICMP are echo requests."""
        if number == 1 and self.rng.random() < 0.5:
            text, kind, code = self.rng.choice(ICMP)
            yield text, lambda header: kind == 8 and code in (None, 0)
        if service == "tcp" and self.state and self.rng.random() < 0.15:
            yield "established", lambda header: self.state == "established"
        if self.rng.random() < 0.1:
            yield "log", lambda header: True
        if service == "ip" and "any" in words and self.rng.random() < 0.05:
            yield "fragments", lambda header: False

    def configuration(self):
        """The text around a list, and its entries."""
        rng = self.rng
        is_numbered = self.dialect == "ios" and rng.random() < 0.3
        name = rng.choice(["101", "2001", "199"]) if is_numbered else rng.choice(["EDGE", "in-1", "I150"])
        head = "" if is_numbered else f"ip access-list extended {name}\n" if self.dialect == "ios" else f"ip access-list {name}\n"
        has_sequence, sequence, lines, entries = not is_numbered and rng.random() < 0.5, 0, [], []
        for number in range(rng.randrange(1, 25)):
            sequence += rng.randrange(1, 20)
            front = f"access-list {name} " if is_numbered else f" {sequence} " if has_sequence else " "
            if number and rng.random() < 0.1:
                lines.append(f"{front}remark permit ip any any\n")
                continue
            entries.append(self.entry())
            lines.append(f"{front}{entries[-1][1]}\n")
        groups = self.groups.text if self.groups else ""
        return AROUND.format(name=name, groups=groups, list=head + "".join(lines)), entries


def meant(entries, header):
    """What the entries decide of a header, and the text of the one that does."""
    return next(((action, text) for action, text, test in entries if test(header)), ("deny", "implicit deny"))
