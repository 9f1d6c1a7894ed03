"""Loads tables into Open vSwitch, and compares what it decides with the program.

The tables are those that `shorten`, `compile`, `expand` and `arrange` write of the lists in examples/ and of three lists that
`gen` draws. Each is loaded as the flows of tools/flows, and some hundred headers are asked for, drawn so that they lie at the
ends of what entries ask for; they must be decided as by `razor trace`. The flow that is found tells its entry by its cookie.
Headers of protocols without ports are asked for where no entry that asks for a port could match them.

Before that, each match that tools/flows takes is put beside a table: all its flows must have the match in the switch, and where
it is replaced, flows of its mark without the match must stay.

Then the compiled table of one list in examples/ replaces that of another, slot by slot in the order of `razor drive`, and
after each write some headers must be decided as it says.

Then tables are replaced in the slots in which they stand: those of the lists in examples/ by each other, and those of drawn
lists by those of the lists without one rule. The old table is placed in a fifth more slots than it needs, or in as many as
both need, and the writes that `razor patch` plans are sent one by one. Before the first one and after each, some hundred headers
are asked for: each must be decided as by the old table or as by the new one, as by the new one once it was decided otherwise
than by the old one, and as by the new one after the last write.

At the end one table replaces another by its mark, as docs/SWITCH.md says: in one bundle the flows of the old one are removed and
those of the new one put. The switch has flows of its own: after each step they must still pass packets of ARP and IPv6 and
later fragments, and each header, and the first fragment of a packet with it, must be decided by the new table. By
`replace-flows`, which takes all other flows away, these packets must meet none: so what is looked up tells.

Last, each port of the switch gets a list of its own, in a table of the switch behind the first one, all by one mark. Each header
must be decided by the list of the port by which it comes, also while the table of one port is replaced by the other mark.

The switch runs in a folder of its own, over no device; where it isn't there, this is skipped.
"""
import contextlib
import itertools
import random
import subprocess
import tempfile
import time

from building.sources import ROOT
from model import cases, patching
from model import switch as switching
from model.switch import packet_of
from tcam_razor import flows, memories, tables
from tcam_razor import razor as calling
from tcam_razor.headers import MISS, WIDTHS, WITH_PORTS, Header

SEEDS = (1, 2, 3)

# How many rules the drawn lists have, and how many headers each table is asked for.
RULES = 300
HEADERS = 100

# How many headers are asked for after each write of a swap.
LOOKS = 10

# The first priority of tables that are replaced by their marks, as in docs/SWITCH.md.
BAND = 40_000

# A table of the switch behind the first one.
INNER = 3

# Matches that tools/flows takes, each with a value.
VALUES = {"dl_src": "00:00:5e:00:53:01", "dl_dst": "00:00:5e:00:53:00/ff:ff:ff:ff:ff:00", "ct_state": "+trk+est"}
MATCHES = [f"{name}={VALUES.get(name, 1)}" for name in flows.MATCHES + flows.REGISTERS]

# The flows of the switch itself, behind a mark of their own, and packets that these decide.
OWN = 0xFF
OTHERS = ("priority=50000,ip,nw_frag=later,actions=normal", "priority=10,arp,actions=normal", "priority=10,ipv6,actions=drop", "priority=10,ip,actions=drop", "priority=0,actions=normal")
PACKETS = (
    "arp,arp_spa=10.0.0.1,arp_tpa=10.0.0.2,arp_op=1",
    "ipv6,ipv6_src=fe80::1,ipv6_dst=fe80::2,nw_proto=58",
    "ip,nw_src=10.0.0.1,nw_dst=10.0.0.2,nw_proto=6,nw_frag=later",
)


def drawn_value(rng, field, width):
    """A value at an end of what an entry asks for, beside it, or anywhere in it."""
    if field is None or rng.random() < 0.1:
        return rng.getrandbits(width)
    value = rng.choice((field.value, field.last, field.value + (rng.getrandbits(width) & field.last - field.value)))
    return min(max(value + rng.choice((0, 0, 0, 0, 1, -1)), 0), (1 << width) - 1)


def asks_for_port(entry):
    return bool(entry.fields[2].mask or entry.fields[3].mask)


def drawn_header(rng, entries):
    fields = rng.choice(entries).fields if entries else [None] * 5
    header = Header(*map(lambda field, width: drawn_value(rng, field, width), fields, WIDTHS))
    if rng.random() < 0.9:
        header = header._replace(protocol=rng.choice([*WITH_PORTS] if fields[4] is None or fields[4].mask == 0 else [fields[4].value]))
    if header.protocol in WITH_PORTS:
        return header
    header = header._replace(source_port=0, destination_port=0)
    hides = any(asks_for_port(entry) and entry.matches(header) for entry in entries)
    return drawn_header(rng, entries) if hides else header


def example_lists():
    for path in sorted((ROOT / "examples").glob("*.list")):
        yield path.stem, path.read_text()


class Razor(calling.Razor):
    def lists(self):
        yield from example_lists()
        for seed in SEEDS:
            yield f"gen {seed} {RULES}", self.made("gen", seed, RULES)

    def tables(self):
        for name, text in self.lists():
            for command in ("shorten", "compile", "expand", "arrange"):
                yield f"{command}, {name}", self.made(command, "-", given=text)

    def table(self, name, text):
        """Writes a table into the folder; its path and entries."""
        path = self.put(name, text)
        return path, tables.entries(path)


def lines_of(path, entries, *words):
    """The lines that tools/flows writes of a table."""
    given = [word for name in sorted({entry.decision for entry in entries}) for word in ("--action", f"{name}=drop")]
    ended = subprocess.run([ROOT / "tools/flows", *given, *map(str, words), path], check=True, capture_output=True, text=True)
    return ended.stdout.splitlines(keepends=True)


def flows_of(path, entries, slot=0):
    """The flows of a table, for each of its slots."""
    parts = {at: [] for at in range(slot, slot + len(entries))}
    for line in lines_of(path, entries, "--slot", slot):
        parts[int(line.partition(",")[0].removeprefix("cookie="), 16) - 1].append(line)
    return parts


def numbers(header):
    return " ".join(map(str, header))


def answered(switch, held, drawn):
    """What the switch decides, where its slots hold this."""
    names = [MISS, *(entry.decision if entry else MISS for entry in held)]
    return [names[switch.cookie(packet_of(header))] for header in drawn]


def compared(switch, razor, text, rng):
    """How many headers were drawn for a table, and those that the switch decides otherwise."""
    path, entries = razor.table("table", text)
    switch.clear()
    switch.put(itertools.chain(*flows_of(path, entries).values()))
    drawn = [drawn_header(rng, entries) for _ in range(HEADERS)]
    wanted = razor.made("trace", path, "-", given="".join(numbers(header) + "\n" for header in drawn)).split()
    return HEADERS, differing(drawn, wanted, answered(switch, entries, drawn))


def differing(drawn, wanted, answers):
    return [row for row in zip(drawn, wanted, answers, strict=True) if row[1] != row[2]]


def swapped(switch, razor, texts, rng):
    """How many headers were asked for in a swap, and those that the switch decides otherwise after one of its writes."""
    (old_path, old), (new_path, new) = (razor.table(name, text) for name, text in zip(("old", "new"), texts))
    drawn = [drawn_header(rng, old + new) for _ in range(LOOKS)]
    looks = [f"look {numbers(header)}" for header in drawn]
    writes = len(old) + len(new)
    script = ["begin 1", *["step"] * len(old), "begin 2", *looks, *(line for _ in range(writes) for line in ("step", *looks))]
    said = razor.made("drive", "--slots", writes, "-", old_path, new_path, given="\n".join(script)).splitlines()
    wanted = [line for command, line in zip(script, said, strict=True) if command.startswith("look")]
    switch.clear()
    switch.put(itertools.chain(*flows_of(old_path, old).values()))
    answers = answered(switch, old + new, drawn)
    for part in flows_of(new_path, new, len(old)).values():
        switch.put(part)
        answers += answered(switch, old + new, drawn)
    for slot in reversed(range(len(old))):
        switch.drop(slot + 1)
        answers += answered(switch, old + new, drawn)
    return LOOKS * (writes + 1), differing(drawn * (writes + 1), wanted, answers)


def edited_lists(razor):
    """Tables of drawn lists, each with that of the list without one of its rules."""
    for seed in SEEDS:
        lines = razor.made("gen", seed, RULES).splitlines(keepends=True)
        at = random.Random(seed).randrange(len(lines))
        texts = ("".join(lines), "".join(lines[:at] + lines[at + 1 :]))
        yield f"gen {seed} {RULES} without rule {at + 1}", [razor.made("compile", "-", given=text) for text in texts]


def placed(razor, old_path, new_path):
    """A memory in which the old table stands, with room for the plan, and the plan."""
    count = max(len(tables.entries(path)) for path in (old_path, new_path))
    memory = razor.put("memory", razor.made("place", "--slots", count * 6 // 5 + 1, old_path))
    ended = razor.run("patch", memory, new_path)
    if ended.status == 4:
        needed, *_ = ended.err.split()
        memory = razor.put("memory", razor.made("place", "--slots", needed, old_path))
    return memory, razor.put("plan", razor.made("patch", memory, new_path))


def stages(switch, held, path, entries, drawn):
    """What the switch decides before the first write of a plan, and after each of them."""
    writes = memories.plan(path).writes
    yield answered(switch, held, drawn)
    for number in range(1, len(writes) + 1):
        switch.put(lines_of(path, entries, "--write", number))
        yield answered(switch, memories.after(held, writes[:number]), drawn)


def patched(switch, razor, texts, rng):
    """How many headers were asked for while writes led from one table to another in its slots, and those that the switch decides as neither of them."""
    (old_path, old), (new_path, new) = (razor.table(name, text) for name, text in zip(("old", "new"), texts))
    memory, plan = placed(razor, old_path, new_path)
    drawn = [drawn_header(rng, old + new) for _ in range(HEADERS)]
    sides = [[memories.answer(entries, header) or MISS for header in drawn] for entries in (old, new)]
    switch.clear()
    switch.put(lines_of(memory, old))
    found = list(stages(switch, memories.memory(memory), plan, old + new, drawn))
    cases = zip(drawn, *sides, zip(*found))
    return HEADERS * len(found), [(header, (old, new), answers[number]) for header, old, new, answers in cases for number in patching.amiss(old, new, answers)]


class Marked:
    """A switch with a table behind a mark, in a band of priorities, beside flows of its own."""

    def __init__(self, switch, sides):
        self.switch, self.sides = switch, sides
        switch.clear()
        switch.run("ovs-ofctl", "-O", "OpenFlow13", "set-frags", "br0", "nx-match")
        switch.put(f"cookie={OWN << 32:#x},{flow}\n" for flow in OTHERS)

    def replace(self, mark):
        """Puts the table with this mark in the place of the other one, at once."""
        (other,) = self.sides.keys() - {mark}
        self.switch.put(lines_of(*self.sides[mark], "--mark", mark, "--replace", other, "--priority", BAND))

    def passes(self):
        """Whether each packet that no table decides meets a flow of the switch."""
        return all(self.switch.cookie(f"in_port=1,{packet}") == OWN << 32 for packet in PACKETS)

    def answers(self, header):
        """What decides the header, and the first fragment of a packet with it: the mark of a table, or of the switch, and the decision."""
        kinds = ("", ",nw_frag=first") if header.protocol in WITH_PORTS else ("",)
        for cookie in (self.switch.cookie(packet_of(header) + kind) for kind in kinds):
            mark, number = cookie >> 32, cookie & 2**32 - 1
            yield mark, self.sides[mark][1][number - 1].decision if number else MISS


def replaced(switch, razor, texts, rng):
    """How many lookups there were while one table replaced another and that one replaced it again, and those that were answered otherwise."""
    sides = {mark: razor.table(str(mark), text) for mark, text in enumerate(texts, 1)}
    drawn = [drawn_header(rng, sides[1][1] + sides[2][1]) for _ in range(LOOKS)]
    marked, rows, count = Marked(switch, sides), [], 0
    for mark in (1, 2, 1):
        marked.replace(mark)
        for header in drawn:
            wanted = next(((mark, entry.decision) for entry in sides[mark][1] if entry.matches(header)), (OWN, MISS))
            found = list(marked.answers(header))
            count += len(found)
            rows += [(header, wanted, each) for each in found if each != wanted]
        if not marked.passes():
            raise cases.Wrong(f"a packet that no table decides isn't passed behind table {mark}")
    switch.bundle("replace-flows", lines_of(*sides[1], "--mark", 1))
    if marked.passes():
        raise cases.Wrong("replace-flows leaves the other flows: what this tries tells nothing")
    return count, rows


def lies_in(port):
    """The words by which the flows of a port's list come into a table of their own."""
    return ["--table", INNER, "--match", f"in_port={port}"]


def by_port(switch, razor, texts, rng):
    """How many lookups there were in the tables of two ports, of which one is replaced, and those that were answered otherwise."""
    (first, old), (second, new) = (razor.table(name, text) for name, text in zip(("first", "second"), texts))
    drawn = [drawn_header(rng, old + new) for _ in range(LOOKS)]
    switch.clear()
    switch.put([f"priority=0,actions=goto_table:{INNER}\n"])
    rows = []
    for words, sides in (
        ([(second, new, ["--mark", 1, *lies_in(2)]), (first, old, ["--mark", 1, *lies_in(1)])], {1: (1, old), 2: (1, new)}),
        ([(second, new, ["--mark", 2, "--replace", 1, *lies_in(1)])], {1: (2, new), 2: (1, new)}),
    ):
        for path, entries, options in words:
            switch.put(lines_of(path, entries, *options))
        for header, (port, (mark, entries)) in itertools.product(drawn, sides.items()):
            wanted = next((mark << 32 | entry.number for entry in entries if entry.matches(header)), 0)
            rows.append((header, hex(wanted), hex(switch.cookie(packet_of(header, port), INNER))))
    return len(rows), [row for row in rows if row[1] != row[2]]


def lost(switch, path, entries, matches):
    """The matches that not all flows of a table have, when it is loaded beside one without them; and all, where it can't be replaced alone."""
    words = [word for match in matches for word in ("--match", match)]

    def put(*words):
        lines = lines_of(path, entries, *words)
        switch.put(lines)
        return len(lines)

    def found(mark, *matches):
        return switch.count(",".join([f"cookie={mark << 32:#x}/{0xFFFFFFFF << 32:#x}", "ip", *matches]))

    switch.clear()
    count = put("--mark", 1, *words)
    put("--mark", 1, "--priority", BAND)
    yield from (match for match in matches if found(1, match) != count)
    put("--mark", 2, "--replace", 1, *words)
    if (found(1), found(2)) != (count, count):
        yield from matches


def matched(switch, razor, text):
    """All matches must hold at once; and alone the one that is none where no flow asks for IPv4. No header is asked for."""
    table = razor.table("table", text)
    names = [*lost(switch, *table, MATCHES), *lost(switch, *table, ["nw_ttl=1"])]
    if names:
        raise cases.Wrong(f"a switch doesn't keep {', '.join(names)} in all flows")
    return 0, []


def tried(switch, razor, seed):
    """What is tried, one after another: its name, how many headers were asked for, and those that are decided otherwise."""

    def rng(*names):
        return random.Random("/".join(map(str, (seed, *names))))

    compiled = [(name, razor.made("compile", "-", given=text)) for name, text in example_lists()]
    yield "matches", *matched(switch, razor, dict(compiled)["tools"])
    for at, (name, text) in enumerate(razor.tables()):
        yield name, *compared(switch, razor, text, rng(at))
    for (left, old), (right, new) in itertools.permutations(compiled, 2):
        yield f"the swap from {left} to {right}", *swapped(switch, razor, (old, new), rng(left, right))
        yield f"the plan from {left} to {right}", *patched(switch, razor, (old, new), rng(left, right, "in place"))
    for name, texts in edited_lists(razor):
        yield f"the plan for {name}", *patched(switch, razor, texts, rng(name))
    for (left, old), (right, new) in zip(compiled, compiled[1:]):
        yield f"{left}, {right}, {left} by marks", *replaced(switch, razor, (old, new), rng(left, right))
        yield f"{left} and {right} by ports", *by_port(switch, razor, (old, new), rng(left, right, "by ports"))


def run(given):
    if not switching.is_there():
        raise cases.Skipped("there is no Open vSwitch (Debian: openvswitch-switch)")
    count, asked, until = 0, 0, cases.end_of(given)
    with tempfile.TemporaryDirectory() as folder, contextlib.ExitStack() as ends:
        switch = switching.Switch(folder)
        ends.callback(switch.stop)
        switch.start()
        for name, headers, rows in tried(switch, Razor(given.program, folder), given.seed):
            if rows:
                header, ours, theirs = rows[0]
                raise cases.Wrong(f"{name}: {len(rows)} headers are decided otherwise: {header}: razor says {ours}, the switch {theirs}; seed {given.seed}")
            count, asked = count + 1, asked + headers
            if time.monotonic() > until:
                break
    return f"{count:,} tables, swaps and plans: {asked:,} headers, each decided as by the program"
