"""Lists in which each line follows from its place."""
import itertools

PORTS = (22, 25, 53, 80, 110, 143, 443, 993, 3306, 8080)
DECISIONS = ("accept", "deny", "log")

OPEN = ("0.0.0.0/0", "0.0.0.0/0", "0 : 65535", "0 : 65535")


def joined(*columns):
    return "\t".join(columns) + "\n"


def source(place):
    """A source prefix of its own for each place."""
    a, b, c = place >> 16 & 255, place >> 8 & 255, place & 255
    # A network of 256 addresses: its last byte is 0, so the place spreads over the bytes above it.
    return f"@10.{a}.{b}.{c}/32" if place % 4 == 3 else f"@{11 + a}.{b}.{c}.0/24"


def destination(place):
    return f"192.168.{place % 7}.{place % 251}/32"


def single(place):
    port = PORTS[place % len(PORTS)]
    return f"{port} : {port}"


def thin(count):
    """Each line has a source prefix of its own, one destination, one pair of ports, one protocol and one of three decisions."""
    for place in range(count):
        protocol = ("0x06", "0x11", "0x01")[place % 3]
        yield joined(source(place), destination(place), "0 : 65535", single(place), f"{protocol}/0xFF", DECISIONS[place // 5 % 3])


def full(count):
    """The whole form of ClassBench's lists: tabs between the columns and at the ends, flags, ranges, comments.

    One line in eight has five ranges in its destination port column, one in three has a decision behind its flags, and one
    in sixteen is a comment.
    """
    protocols = ("0x06/0xFF", "0x11/0xFF", "0x01/0xFF", "0x00/0x00")
    ranges = "8000 : 8099,443 : 443 , 80 : 80,8100 : 8199,1024 : 2047"
    for place in range(count):
        if place % 16 == 15:
            yield f"# filter {place}\n"
            continue
        ports = ranges if place % 8 == 5 else single(place)
        flags = "0x1000/0x1000" if place % 5 == 0 else "0x0000/0x0000"
        decision = [DECISIONS[place // 3 % 3]] if place % 3 == 0 else []
        yield joined(source(place), destination(place), "0 : 65535", ports, protocols[place % 4], flags, *decision, "")


def network(place):
    return f"@10.{place >> 8}.{place & 255}.0/24"


def wide(count):
    """Both ports from 1 to 65534: 30 times 30 prefixes, which are 900 entries a line."""
    for place in range(count):
        yield joined(network(place), "0.0.0.0/0", "1 : 65534", "1 : 65534", "0x06/0xFF", "accept")


def widest(count):
    """Sixteen ranges of 22 prefixes each, and one of 30: 10,560 entries a line."""
    ranges = ",".join(f"{low + 1}:{low + 4094}" for low in range(0, 65_536, 4_096))
    for place in range(count):
        yield joined(network(place), "0.0.0.0/0", ranges, "1 : 65534", "0x06/0xFF", "accept")


def crossing(count):
    """Rules that cross in all fields: each denies at an even value of one of the first four; the last one accepts."""
    for place, field in itertools.islice(itertools.product(range(count), range(4)), count - 1):
        value = 2 * place
        columns = list(OPEN)
        columns[field] = f"0.0.{value // 256}.{value % 256}/32" if field < 2 else f"{value} : {value}"
        yield f"@{' '.join(columns)} 0x00/0x00 deny\n"
    yield f"@{' '.join(OPEN)} 0x00/0x00 accept\n"
