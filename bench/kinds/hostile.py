"""Lists and tables that are hard to compare: their words cover another one only together."""
import itertools
import random

from tcam_razor.headers import WIDTHS

WHOLE = "@0.0.0.0/0 0.0.0.0/0 0 : 65535 0 : 65535 0x00/0x00"


def entry(value, mask, decision):
    """The line of an entry of a word of 104 bits."""
    columns, rest = [], sum(WIDTHS)
    for width in WIDTHS:
        rest -= width
        bits = (1 << width) - 1
        columns.append(f"{value >> rest & bits:0{width // 4}X}/{mask >> rest & bits:0{width // 4}X}")
    return " ".join([*columns, decision])


def table(entries):
    return "".join(f"{line}\n" for line in (f"table 2 slot 144 composed {len(entries)} entries {len(entries)}", *entries))


def pigeons(count):
    """An open rule, and words that cover all headers since so many pigeons don't fit into one hole less.

    Bit p * holes + h says that pigeon p sits in hole h: a word for each pigeon in no hole, and for each two in one.
    """
    holes = count - 1
    lonely = [sum(1 << pigeon * holes + hole for hole in range(holes)) for pigeon in range(count)]
    pairs = [1 << first * holes + hole | 1 << second * holes + hole for hole in range(holes) for first, second in itertools.combinations(range(count), 2)]
    entries = [*(entry(0, mask, "accept") for mask in lonely), *(entry(mask, mask, "accept") for mask in pairs), entry(0, 0, "deny")]
    return f"{WHOLE} accept\n", table(entries)


def ranges(count):
    """Rules whose wide ranges of both ports cross, from networks of any length, and all else denied."""
    rng = random.Random(count)
    lines = []
    for _ in range(count):
        networks = (".".join(str(rng.randrange(256)) for _ in range(4)) + f"/{rng.choice((0, 8, 16, 24))}" for _ in range(2))
        ports = (f"{rng.randrange(1, 30_000)} : {rng.randrange(35_000, 65_534)}" for _ in range(2))
        lines.append(f"@{' '.join(networks)} {' '.join(ports)} 0x00/0x00 {rng.choice(('accept', 'deny'))}\n")
    return "".join([*lines, f"{WHOLE} deny\n"])


def split(text, times):
    """The table with each of its entries split so often into halves, at an open bit that is drawn."""
    rng, entries = random.Random(times), []
    for line in text.splitlines()[1:]:
        *columns, decision = line.split()
        fields = [tuple(int(part, 16) for part in column.split("/")) for column in columns]
        value = mask = 0
        for (low, asked), width in zip(fields, WIDTHS):
            value, mask = value << width | low, mask << width | asked
        parts = [(value, mask)]
        for _ in range(times):
            value, mask = parts.pop(rng.randrange(len(parts)))
            bits = [1 << bit for bit in range(sum(WIDTHS)) if not mask >> bit & 1]
            parts += [(value | one, mask | bit) for bit in rng.sample(bits, min(1, len(bits))) for one in (0, bit)] or [(value, mask)]
        entries += [entry(*part, decision) for part in parts]
    return table(entries)
