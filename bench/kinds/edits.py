"""Edits of one rule of a list, each at a place that is drawn, as lines and as commands of a session."""
import random

PORTS = ("22 : 22", "80 : 80", "443 : 443", "53 : 53", "1024 : 65535", "8000 : 8080")


def decided_otherwise(line):
    front, decision = line.rstrip("\n").rsplit("\t", 1)
    return f"{front}\t{'deny' if decision == 'accept' else 'accept'}\n"


def with_ports(rng, line):
    """The line with other destination ports."""
    columns = line.split("\t")
    columns[3] = rng.choice(PORTS)
    return "\t".join(columns)


def edited(rng, lines, spare):
    """The lines with one rule put in, taken out or changed, and the commands that edit them so; the last rule stays."""
    at = rng.randrange(len(lines) - 1)
    front, old, rest = lines[:at], lines[at], lines[at + 1 :]
    match rng.choice(("add", "drop", "decision", "port")):
        case "add":
            new = spare.pop()
            return [*front, new, old, *rest], [f"add {at + 1} {new}"]
        case "drop":
            return [*front, *rest], [f"drop {at + 1}\n"]
        case "decision":
            new = decided_otherwise(old)
        case _:
            new = with_ports(rng, old)
    return [*front, new, *rest], [f"drop {at + 1}\n", f"add {at + 1} {new}"]


def versions(name, text, edits):
    """The lines of a list without some rules that are spare, and no command; then what they are after each edit, and its commands."""
    rng = random.Random(name)
    *drawn, last = text.splitlines(keepends=True)
    spare = [drawn.pop(rng.randrange(len(drawn))) for _ in range(edits)]
    lines = [*drawn, last]
    yield lines, []
    for _ in range(edits):
        lines, commands = edited(rng, lines, spare)
        yield lines, commands
