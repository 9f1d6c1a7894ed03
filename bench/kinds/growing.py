"""Lists over which some commands take far more than twice as long where there are twice as many rules."""
import random

WHOLE = "0 : 65535"

DECISIONS = ("accept", "deny")


def joined(source, destination, source_ports, destination_ports, decision, protocol="0x06/0xFF"):
    return "\t".join((f"@{source}", destination, source_ports, destination_ports, protocol, decision)) + "\n"


def last():
    return joined("0.0.0.0/0", "0.0.0.0/0", WHOLE, WHOLE, "deny", "0x00/0x00")


def host(number):
    return ".".join(str(number >> place & 255) for place in (24, 16, 8, 0)) + "/32"


def drawn_hosts(numbers, count):
    """So many different addresses."""
    return [host(number) for number in numbers.sample(range(1 << 32), count)]


def drawn_ranges(numbers):
    """Sixteen ranges that don't touch."""
    ends = sorted(numbers.sample(range(1, 65_535), 32))
    return ",".join(f"{low}:{high}" for low, high in zip(ends[::2], ends[1::2]))


def ranged(count):
    """Each rule has a host of its own as source, and sixteen ranges of source ports."""
    numbers = random.Random(f"ranged {count}")
    for source in drawn_hosts(numbers, count - 1):
        yield joined(source, "0.0.0.0/0", drawn_ranges(numbers), WHOLE, "accept")
    yield last()


def both(count):
    """Each rule has a network of its own as source, and sixteen ranges in both port columns."""
    numbers = random.Random(f"both {count}")
    for source in drawn_hosts(numbers, count - 1):
        yield joined(source, "0.0.0.0/0", drawn_ranges(numbers), drawn_ranges(numbers), numbers.choice(DECISIONS))
    yield last()


def hosts(count):
    """Each rule goes from a host of its own to a host of its own, at one port."""
    numbers = random.Random(f"hosts {count}")
    for source, destination in zip(drawn_hosts(numbers, count - 1), drawn_hosts(numbers, count - 1)):
        port = numbers.randrange(65_536)
        yield joined(source, destination, WHOLE, f"{port} : {port}", "accept")
    yield last()


def nested(count):
    """The destination ports of each rule lie in those of the next one, and they decide in turn."""
    for place in range(count):
        yield joined("0.0.0.0/0", "0.0.0.0/0", WHOLE, f"0 : {place}", DECISIONS[place % 2], "0x00/0x00")


def crossed(count):
    """Each rule asks for one value in two of the first four fields, so that most rules meet in all fields."""
    numbers = random.Random(f"crossed {count}")
    for _ in range(count - 1):
        columns = ["0.0.0.0/0", "0.0.0.0/0", WHOLE, WHOLE]
        for field in numbers.sample(range(4), 2):
            port = numbers.randrange(65_536)
            columns[field] = host(numbers.getrandbits(32)) if field < 2 else f"{port} : {port}"
        yield joined(*columns, numbers.choice(DECISIONS), "0x00/0x00")
    yield last()
