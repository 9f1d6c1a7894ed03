"""Draws texts of each kind, and spoils them. Used by tests/fuzz/run."""

FIELD_BITS = (32, 32, 16, 16, 8)
WIDTHS = (104, 144, 288)
DECISIONS = ("accept", "deny", "log", "a-b.c_9", "X" * 32)
TOKENS = (
    b"0", b"255", b"256", b"65535", b"65536", b"4294967295", b"4294967296", b"18446744073709551616", b"262144", b"262145", b"@", b"/", b":",
    b",", b"-", b"#", b"#1", b"#65537", b"*", b"miss", b"0x", b"0xFF", b"0XfF/0x00", b"\r", b"\n", b"\t", b" ", b"\x00", b"\x80", b"rows 0",
    b"table 1 slot 104 composed 0 entries 0", b"table 2 slot 288 composed 0 entries 1", b"begin 1", b"look", b"33", b"00", b"1e3", b"+1",
    b"memory 1 slots 2 width 144 entries 0", b"plan 1 slots 2 width 144 writes 1", b"set 1 ", b"clear 2\n", b"clear 30 ",
    b"proof 1 rules 0 entries 0", b" before 0 0 0 0 6", b"e r1\n", b"r e1\n", b" 103 r1 r1", b" r2", b" e2", b" >", b"p 1 1 -\n", b"pairs 0\n", b"pairs 1\n",
)


def address(random):
    """An address of few, so that rules meet, with a length."""
    length = random.choice((0, 1, 8, 15, 16, 24, 31, 32, random.randrange(33)))
    parts = (random.choice((10, 192, 255)), random.choice((0, 1, 128)), random.choice((0, 255)), random.randrange(256))
    return ".".join(map(str, parts)) + f"/{length}"


def span(random):
    ends = sorted(random.choice((0, 1, 22, 80, 443, 1023, 1024, 65_534, 65_535, random.randrange(65_536))) for _ in range(2))
    low, high = random.choice((ends, (ends[0], ends[0]), (0, 65_535)))
    return random.choice(("{} : {}", "{}:{}", "{} :\t{}", "0{} : 00{}")).format(low, high)


def ports(random):
    count = random.choice((1,) * 12 + (2, 3, 16))
    return random.choice((",", " , ")).join(span(random) for _ in range(count))


def rule_line(random, decided=0.8):
    """A rule, which has a decision word so often."""
    protocol = random.choice(("0x06/0xFF", "0x11/0xff", "0X1/0xFF", "0x00/0x00", "0x6/0x0"))
    columns = ["@" + address(random), address(random), ports(random), ports(random), protocol]
    if random.random() < 0.3:
        columns.append(random.choice(("0x0000/0x0000", "0x1000/0x1000", "0x0/0xFFFF")))
    if random.random() < decided:
        columns.append(random.choice(DECISIONS))
    return random.choice(("\t", " ", " \t")).join(columns)


def lines_of(random, most, line):
    """Lines, with comments and blank lines among them, a carriage return at some ends, and at times no last line feed."""
    end = random.choice(("\n", "\n", "\n", "\r\n"))
    others = ("", " ", "# a comment", "\t#")
    drawn = [random.choice(others) if random.random() < 0.1 else line(random) for _ in range(random.randrange(most + 1))]
    text = "".join(each + end for each in drawn)
    return (text.rstrip("\r\n") if random.random() < 0.1 else text).encode()


def rule_list(random):
    return lines_of(random, random.choice((2, 5, 12)), rule_line)


def header(random):
    return [random.choice((0, 2**bits - 1, 80, random.randrange(2**bits))) % 2**bits for bits in FIELD_BITS]


def trace(random):
    return lines_of(random, random.choice((3, 30)), lambda random: " ".join(map(str, header(random) + [7] * random.randrange(3))))


def script(random):
    def line(random):
        return random.choice(("begin 1", "step", "step", "step", "abort", "stage", "look " + " ".join(map(str, header(random)))))

    return lines_of(random, random.choice((3, 30)), line)


def session(random):
    def line(random):
        edits = (f"add {random.choice((1, 1, 2, 3, 0))} {rule_line(random, decided=1)}", f"drop {random.choice((1, 1, 2, 4_294_967_295))}")
        return random.choice((*edits, "commit", "step", "step", "step", "abort", "stage", "look " + " ".join(map(str, header(random)))))

    return lines_of(random, random.choice((3, 30)), line)


def mask(random, bits):
    """Mostly the mask of a prefix."""
    if random.random() < 0.1:
        return random.randrange(2**bits)
    length = random.choice((0, bits, random.randrange(bits + 1)))
    return 2**bits - 2 ** (bits - length)


def decision(random):
    return random.choice(DECISIONS + ("miss", "#1", "#65536"))


def trits(value, mask_bits, bits):
    return "".join("*" if not mask_bits >> place & 1 else str(value >> place & 1) for place in reversed(range(bits)))


def columns(values, masks):
    """A word as the compact text has it."""
    return " ".join(f"{value:0{bits // 4}X}/{each:0{bits // 4}X}" for value, each, bits in zip(values, masks, FIELD_BITS))


def drawn_word(random):
    """The values and the masks of a word."""
    masks = [mask(random, bits) for bits in FIELD_BITS]
    return [value & each for value, each in zip(header(random), masks)], masks


def entry(random):
    """An entry as the compact text has it."""
    return f"{columns(*drawn_word(random))} {decision(random)}"


def lines_text(first, rest):
    return "".join(f"{line}\n" for line in (first, *rest)).encode()


def table(random):
    """A table in either version of its text."""
    version, slot = random.choice((1, 2)), random.choice(WIDTHS)
    count = random.randrange(random.choice((2, 6, 20)))
    first = f"table {version} slot {slot} composed {random.choice((count, 0, 262_144))} entries {count}"
    if version == 2:
        return lines_text(first, (entry(random) for _ in range(count)))
    words = ("".join(map(trits, *drawn_word(random), FIELD_BITS)) + "*" * (slot - 104) for _ in range(count))
    return lines_text(first, (f"{word} {decision(random)}" for word in words))


def memory(random):
    """A memory of few slots, or of many that are empty."""
    slots = random.choice((1, 2, 5, 12, 30, 262_144))
    taken = sorted(random.sample(range(1, slots + 1), random.randint(0, min(slots, 12))))
    first = f"memory 1 slots {slots} width {random.choice(WIDTHS)} entries {len(taken)}"
    return lines_text(first, (f"{slot} {entry(random)}" for slot in taken))


def write(random, slots):
    slot = random.randint(1, slots)
    return f"set {slot} {entry(random)}" if random.random() < 0.6 else f"clear {slot}"


def plan(random, slots=None, width=None):
    """A plan of any writes, for a memory of so many slots of this width."""
    slots, width = slots or random.choice((1, 5, 30)), width or random.choice(WIDTHS)
    count = random.randrange(random.choice((1, 4, 12)))
    return lines_text(f"plan 1 slots {slots} width {width} writes {count}", (write(random, slots) for _ in range(count)))


def size_of(memory):
    """How many slots a memory's text says, and how wide they are."""
    words = memory.split(None, 6)
    return int(words[3]), int(words[5])


def near_table(random, memory):
    """A table for the slots of a memory that has some of its entries, with others among them."""
    entries = [line.partition(" ")[2] for line in memory.decode().splitlines()[1:] if random.random() < 0.8]
    for _ in range(random.randrange(4)):
        place = random.randint(0, len(entries))
        entries.insert(place, random.choice(entries) if entries and random.random() < 0.3 else entry(random))
    return lines_text(f"table 2 slot {size_of(memory)[1]} composed {len(entries)} entries {len(entries)}", entries)


def asked(random, greatest):
    """A span of values up to the greatest, or a star for all of them."""
    low, high = sorted(random.choice((0, greatest, 80, random.randrange(greatest + 1))) % (greatest + 1) for _ in range(2))
    return random.choice(("*", f"{low}-{high}", f"{low}-{high}", f"0{low % 10_000}-{greatest}"))


def asked_decision(random):
    return random.choice(DECISIONS + ("miss", "miss", "#1", "#2", "#65536", "none", "-", "-x"))


def certificate(random):
    """A certificate of one row, or a proof, which is right for a list and a table without entries."""
    if random.random() < 0.5:
        return proof(random)
    claims = random.choice(("- -", "1 1", "1 -", "- 1"))
    return f"0-4294967295 0-4294967295 0-65535 0-65535 0-255 {claims}\nrows 1\n".encode()


def proof(random):
    """A proof whose covers name the open rule or entry, or something else at times."""
    rules, entries = random.choice((0, 1, 2)), random.choice((0, 1, 2))
    first = f"proof 1 rules {rules} entries {entries}" + random.choice(("", "", " before 0 0 0 0 6"))
    covers = (*[f"e r{rules + 1}"] * (entries + 1), *[f"r e{entries + 1}"] * (rules + 1))
    pairs = sorted({(random.randint(1, entries + 1), random.randint(1, rules + 1)) for _ in range(random.choice((0, 0, 1, 3)))})
    lines = (f"p {rule} {entry} {random.choice(('r1', 'e1', '-', '>', '7 r1 -'))}" for entry, rule in pairs)
    return lines_text(first, (*covers, *lines, f"pairs {len(pairs)}"))


DRAW = {
    "list": rule_list,
    "table": table,
    "trace": trace,
    "script": script,
    "session": session,
    "certificate": certificate,
    "memory": memory,
    "plan": plan,
}


def spoiled(random, text):
    for _ in range(random.choice((1, 1, 2, 4))):
        text = random.choice(SPOILS)(random, text)
    return text


def place(random, text):
    return random.randrange(len(text) + 1)


def cut(random, text):
    return text[: place(random, text)]


def without_front(random, text):
    return text[place(random, text) :]


def without_part(random, text):
    first, last = sorted((place(random, text), place(random, text)))
    return text[:first] + text[last:]


def other_byte(random, text):
    at = place(random, text)
    return text[:at] + bytes([random.randrange(256)]) + text[at + 1 :]


def with_token(random, text):
    at = place(random, text)
    return text[:at] + random.choice(TOKENS) + text[at + random.choice((0, 0, 1, 3)) :]


def with_bytes(random, text):
    at = place(random, text)
    return text[:at] + random.randbytes(random.choice((1, 8, 100))) + text[at:]


def lines_mixed(random, text):
    lines = text.splitlines(keepends=True)
    return b"".join(random.choice(lines) for _ in range(random.randrange(2 * len(lines)))) if lines else b"\n"


def other_token(random, text):
    words = text.split(b" ")
    words[random.randrange(len(words))] = random.choice(TOKENS)
    return b" ".join(words)


def noise(random, text):
    return random.randbytes(random.choice((0, 1, 50, 5000)))


def other_kind(random, text):
    return random.choice(tuple(DRAW.values()))(random)


def long_line(random, text):
    return text + random.choice(TOKENS) * random.choice((70, 3000, 70_000))


SPOILS = (cut, cut, without_front, without_part, other_byte, other_byte, with_token, with_token, other_token, with_bytes, lines_mixed, noise, other_kind, long_line)
