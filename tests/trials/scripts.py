"""Tries `razor drive` on random scripts over random tables.

Words ask for the three last bits of the protocol, so eight headers stand for all. Up to four tables of up to four entries, each
with names of its own, replace each other in one to eight slots. What the script prints must be, line by line, what is worked
out here from the meaning alone: where a table finds room, which writes are done, and what the slots hold then, which are filled
anew for each lookup. After each command all eight headers are looked up.
"""
from model import cases, swaps
from tcam_razor import tables
from tcam_razor.headers import MISS, Header
from tcam_razor.razor import written

COMMANDS = 50
HEADERS = tuple(Header(0, 0, 0, 0, protocol) for protocol in range(8))

# The names of each table; what one calls its first decision another one calls its second.
NAMES = (("a", "b"), ("c", "a"), ("b", "d"), ("a", "c"))

OPEN = "00000000/00000000 00000000/00000000 0000/0000 0000/0000"


def drawn_table(rng, names):
    """The text of a table of up to four entries."""
    masks = [rng.randrange(8) for _ in range(rng.randrange(5))]
    entries = [f"{OPEN} {rng.randrange(8) & mask:02X}/{mask:02X} {rng.choice((*names, MISS))}" for mask in masks]
    return written([f"table 2 slot 144 composed {len(entries)} entries {len(entries)}", *entries])


def drawn_command(rng, count):
    return rng.choices((f"begin {rng.randint(1, count)}", "step", "abort", "stage"), (2, 5, 1, 1))[0]


def answered(machine, known, command):
    """The line that the command prints."""
    word, *number = command.split()
    return machine.begin(known[int(number[0]) - 1]) if number else getattr(machine, word)()


def lines_of(machine, known, commands):
    """The script with its lookups, command by command, and what each prints."""
    for command in commands:
        yield command, answered(machine, known, command)
        for header in HEADERS:
            yield f"look {' '.join(map(str, header))}", machine.look(header)


def trial(razor, rng, seen):
    texts = [drawn_table(rng, names) for names in NAMES[: rng.randint(1, 4)]]
    names = [razor.put(f"table{number}", text).name for number, text in enumerate(texts, 1)]
    known = [tuple(tables.entries_of("the table", text.splitlines(keepends=True))) for text in texts]
    slots = rng.randint(1, 8)
    commands = [drawn_command(rng, len(texts)) for _ in range(COMMANDS)]
    script, wanted = zip(*lines_of(swaps.Swaps(slots), known, commands))
    razor.put("script", written(script))
    ended = razor.run("drive", "--slots", slots, "script", *names)
    if ended.status != 0 or len(ended.lines) != len(wanted):
        raise cases.Wrong(f"status {ended.status}, {len(ended.lines)} lines of {len(wanted)}")
    for number, (command, want, line) in enumerate(zip(script, wanted, ended.lines), 1):
        if line != want:
            raise cases.Wrong(f"line {number} of {slots} slots, {command}: {line}, where {want} is due")
    seen.update(begun=sum(line.startswith("begun") for line in wanted), full=sum(line.startswith("no room") for line in wanted))


def run(given):
    count, seen = cases.try_all(given, trial, runs=1_000)
    return f"{count:,} scripts: {seen['begun']:,} swaps begun and {seen['full']:,} without room, as worked out from the slots"
