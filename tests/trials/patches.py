"""Tries `razor patch` on random memories at all headers after every write.

Words ask for three bits, each of another field, so eight headers stand for all. A memory of up to twelve slots holds entries
anywhere, and a table of up to eight entries is to take their place; they share words, and decisions. After any number of the
plan's writes each of the eight headers must be answered as by the memory or as by the table, and what was answered otherwise
than by the memory stays so; behind the last write the slots hold the table. The plan has at most three writes an old entry
and one a new one, and at most one for each where there is room for both. Where there is none, the line must say the least
number of slots, worked out here from both lists of words. `apply` must write the memory behind the writes, `dump` the table
that stands in a memory, and `place` a table in order, evenly.
"""
import re

from model import cases, patching
from tcam_razor import memories, tables
from tcam_razor.headers import WIDTHS, Header
from tcam_razor.razor import written

WIDTH = 144
NEEDED = re.compile(r"(\d+) entries needed, limit (\d+)\n")

# The bits that words ask for, of three fields, and the headers that have any of them.
BITS = ((0, 31), (3, 0), (4, 7))
HEADERS = tuple(Header(source << 31, 0, 0, port, protocol << 7) for source in (0, 1) for port in (0, 1) for protocol in (0, 1))

DECISIONS = ("accept", "deny", "log", "#3", "miss")


def drawn_entry(rng):
    """The columns of an entry."""
    fields = [[0, 0] for _ in WIDTHS]
    for field, bit in BITS:
        trit = rng.choice("01**")
        fields[field] = [(trit == "1") << bit, (trit != "*") << bit]
    columns = (f"{value:0{width // 4}X}/{mask:0{width // 4}X}" for (value, mask), width in zip(fields, WIDTHS))
    return f"{' '.join(columns)} {rng.choice(DECISIONS[: rng.randint(2, 5)])}"


def table_text(entries):
    return written([f"table 2 slot {WIDTH} composed {len(entries)} entries {len(entries)}", *entries])


def memory_text(slots, held):
    return written([f"memory 1 slots {slots} width {WIDTH} entries {len(held)}", *(f"{slot} {entry}" for slot, entry in sorted(held.items()))])


def drawn_memory(rng):
    """How many slots, and the entries in some of them."""
    slots = rng.randint(1, 12)
    return slots, {slot: drawn_entry(rng) for slot in rng.sample(range(1, slots + 1), rng.randint(0, slots))}


def drawn_table(rng, old):
    """A table that has much in common with these entries, or little."""
    entries = list(old) if rng.random() < 0.7 else []
    for _ in range(rng.choice((0, 1, 1, 2, 4))):
        if entries and rng.random() < 0.5:
            entries.pop(rng.randrange(len(entries)))
        else:
            entries.insert(rng.randint(0, len(entries)), drawn_entry(rng))
    if rng.random() < 0.2:
        rng.shuffle(entries)
    return entries


def expect(holds, otherwise):
    if not holds:
        raise cases.Wrong(otherwise)


def expect_refused(patched, needed, slots):
    found = NEEDED.fullmatch(patched.err)
    expect(patched.status == 4 and found and (int(found[1]), int(found[2])) == (needed, slots), f"status {patched.status}, {patched.err}, where {needed} slots are needed")


def read_memory(text):
    return memories.memory_of("the memory", text.splitlines(keepends=True))


def try_plan(razor, held, table, patched, seen):
    """Compares a plan that was written with the meaning, and what `apply` makes of it."""
    plan = memories.plan_of("the plan", patched.out.splitlines(keepends=True))
    wrong = patching.fault(held, table, plan.writes, HEADERS)
    expect(plan.slots == len(held) and not wrong, wrong or f"a plan for {plan.slots} slots")
    razor.put("plan", patched.out)
    applied = read_memory(razor.made("apply", "memory", "plan"))
    expect(patching.alike(applied, memories.after(held, plan.writes)), "apply writes another memory")
    seen.update({"plans": 1, "writes": len(plan.writes)})


def try_placed(razor, entries, slots):
    """Compares a memory in which a table is placed, or that there is no room."""
    placed = razor.run("place", "--slots", slots, "table")
    if len(entries) > slots:
        expect_refused(placed, len(entries), slots)
        return
    expect(placed.status == 0 and patching.alike(read_memory(placed.out), patching.even_slots(entries, slots)), f"place --slots {slots} writes another memory")


def try_one(razor, held, table, seen):
    """Compares the plan from what slots hold to a table with the meaning, or that there are too few slots."""
    needed = patching.least_slots(memories.entries_in(held), table)
    patched = razor.run("patch", "memory", "table")
    if needed > len(held):
        seen["refused"] += 1
        expect_refused(patched, needed, len(held))
        return
    expect(patched.status == 0, f"status {patched.status} where {needed} slots are enough: {patched.err}")
    try_plan(razor, held, table, patched, seen)


def trial(razor, rng, seen):
    """Plans from a random memory to a table that is drawn from its entries."""
    slots, held = drawn_memory(rng)
    old = [entry for _, entry in sorted(held.items())]
    memory, table = memory_text(slots, held), table_text(drawn_table(rng, old))
    razor.put("memory", memory)
    razor.put("table", table)
    try:
        expect(razor.made("dump", "memory") == table_text(old), "dump writes another table")
        entries = tables.entries_of("the table", table.splitlines(keepends=True))
        try_placed(razor, entries, rng.randint(1, 20))
        try_one(razor, read_memory(memory), entries, seen)
    except cases.Wrong as wrong:
        raise cases.Wrong(f"{wrong}\n{memory}and\n{table}") from None


def run(given):
    count, seen = cases.try_all(given, trial, runs=1_000)
    return f"{count:,} memories: {seen['plans']:,} plans of {seen['writes']:,} writes, right at all headers after each, and {seen['refused']:,} refused"
