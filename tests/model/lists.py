"""Random lists of few rules with few values in each field, so that rules meet, nest and repeat."""

# For each field the columns that a rule may have; the first one is open.
COLUMNS = (
    ("0.0.0.0/0", "10.0.0.0/8", "10.0.0.0/9", "10.128.0.0/9", "10.0.0.7/32", "255.255.255.255/32"),
    ("0.0.0.0/0", "10.0.0.0/8", "10.0.0.0/9", "10.128.0.0/9", "10.0.0.7/32", "255.255.255.255/32"),
    ("0 : 65535", "80 : 80", "80 : 90,443 : 443", "0 : 1023", "65535 : 65535"),
    ("0 : 65535", "80 : 80", "80 : 90,443 : 443", "0 : 1023", "65535 : 65535"),
    ("0x00/0x00", "0x06/0xFF", "0x11/0xFF", "0x00/0xFF", "0xFF/0xFF"),
)

# The same with values that split prefixes, and with ranges of many prefixes.
SPLITTING = (
    ("0.0.0.0/0", "0.0.0.0/1", "128.0.0.0/1", "192.0.0.0/2", "192.0.0.0/3", "10.0.0.0/8", "10.0.0.0/31", "10.0.0.1/32"),
    ("0.0.0.0/0", "0.0.0.0/1", "128.0.0.0/1", "192.0.0.0/2", "192.0.0.0/3", "10.0.0.0/8", "10.0.0.0/31", "10.0.0.1/32"),
    ("0 : 65535", "0 : 1023", "1024 : 65535", "80 : 80", "80 : 83", "82 : 97", "1 : 65534", "4 : 7,12 : 15"),
    ("0 : 65535", "0 : 1023", "1024 : 65535", "80 : 80", "80 : 83", "82 : 97", "1 : 65534", "4 : 7,12 : 15"),
    ("0x00/0x00", "0x06/0xFF", "0x07/0xFF", "0x11/0xFF"),
)

# Values at the ends of what the first columns hold.
VALUES = (
    (0, 167_772_159, 167_772_160, 167_772_167, 176_160_768, 184_549_375, 2**32 - 1),
    (0, 167_772_160, 167_772_167, 176_160_768, 184_549_376, 2**32 - 2, 2**32 - 1),
    (0, 80, 443, 1_024, 65_535),
    (0, 81, 443, 1_023, 65_535),
    (0, 6, 7, 17, 255),
)

DECISIONS = ("accept", "deny", "log")


def few(rng, columns, count):
    """Of each field the open column and so many others."""
    return [(values[0], *rng.sample(values[1:], min(count, len(values) - 1))) for values in columns]


def opened(rng, columns, count):
    """The columns, but so many fields are open in all rules."""
    fields = rng.sample(range(5), count)
    return [values[:1] if field in fields else values for field, values in enumerate(columns)]


def rule(rng, columns=COLUMNS, decisions=DECISIONS):
    """A rule's line; it has no decision column where the empty word is drawn."""
    return f"@{' '.join(map(rng.choice, columns))} {rng.choice(decisions)}".rstrip()


def rules(rng, most, columns=COLUMNS, decisions=DECISIONS, default=0.0):
    """The lines of at most so many rules, and so often one more behind them that is open."""
    lines = [rule(rng, columns, decisions) for _ in range(rng.randrange(most + 1))]
    return [*lines, rule(rng, [values[:1] for values in columns], decisions)] if rng.random() < default else lines


def header(rng):
    return " ".join(str(rng.choice(values)) for values in VALUES)
