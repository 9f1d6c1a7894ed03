"""Writes a table, a memory or a plan as flows of OpenFlow 1.3, for `ovs-ofctl -O OpenFlow13 --bundle add-flows`: tools/flows [OPTION ..] FILE

    razor shorten LIST | tools/flows --mark 1 --priority 40000 - > FLOWS
    razor shorten LIST | tools/flows --mark 2 --replace 1 --priority 40000 - > FLOWS
    razor patch MEMORY TABLE | tools/flows --mark 1 --priority 40000 - > CHANGES
    razor shorten LIST | tools/flows --mark 1 --priority 40000 --table 2 --match in_port=4 - > FLOWS

Above 40000 there is room for flows of the switch's own, as docs/SWITCH.md has one for later fragments.

An entry becomes a flow with a priority by its place, its number as cookie, and its masks as they are. Where it asks for
a port and leaves the protocol open, it becomes one flow for each protocol whose ports a switch reads. A packet of
another protocol has no ports in a switch, so no entry that asks for one decides it there. Where an entry asks for some
bits of the protocol, it becomes one flow for each protocol that has them, since a flow names one protocol or none.

The first entry of a table lies at slot 0, or at the one that --slot gives (of razor, --slot is a width): slot N has the
priority 65535 - N, or as much less as another priority is given for slot 0, and its cookie is N + 1. So a table can be loaded
behind another one, and both told apart, while the one replaces the other. What a memory holds lies in its slots, of which the
text counts the first one as 1: there the number of a slot is its cookie. A mark stands in the upper 32 bits of the cookies. By
it all flows of a table are removed at once, and no other flow of the switch: `ovs-ofctl del-flows BRIDGE cookie=MARK/MASK`,
with the mark and the mask as 0x100000000/0xffffffff00000000 for mark 1. The flows match IPv4 alone; what else a switch carries
needs flows of its own.

With --replace MARK the line that deletes all flows of that mark stands in front, so that in one bundle the table takes their
place. It is never written alone: where the text is bad or has no entry, or a decision has no actions, nothing is written.

Of a plan each write becomes the line that deletes the flows of its slot, and the flows of the entry that is put there. In one
bundle a switch takes the whole plan at once. With --write N the changes of the Nth write alone are written, so that writes go
one after another, a bundle each: in a bundle of its own no lookup comes between what a slot held and what it holds then.

With --table N all flows lie in that table of the switch, and only there flows are deleted. With --match in_port=4 they decide
those packets alone, and only flows with that match are deleted: so each port may have a list of its own. It may be given several
times, for a match each. Taken are matches that every packet of IPv4 can have: in_port, dl_src, dl_dst, dl_vlan, nw_ttl, tun_id,
metadata, pkt_mark, ct_state, ct_zone, ct_mark, and reg0 to reg15. Any other one a switch would drop without a word.

A decision becomes the actions that are given for its name; `accept` and `permit` are `normal`, and `deny`, `drop` and
`miss` are `drop`, if nothing else is given.

The status is 0 where all was written. It is 2 for words that are none, 3 for a text that is refused, 5 where it can't be read,
and 6 where the output can't be written. A text is refused where `razor` refuses it, in the same words: a memory whose slots
don't rise, a carriage return, more than 262,144 slots; and where a decision has no actions, where there are more slots than
priorities, and where there is nothing to put in the place of what is deleted.
"""
import argparse
import ipaddress
import re
from typing import Callable, Iterable, Iterator, Mapping, Sequence

from tcam_razor import memories, script, tables
from tcam_razor.errors import BadText, Misuse
from tcam_razor.headers import WITH_PORTS
from tcam_razor.memories import Write
from tcam_razor.script import shown
from tcam_razor.tables import Entry, Field

# The greatest priority; the least one is left to what the switch does otherwise.
PRIORITY = 65_535
# The greatest number of a table of OpenFlow.
LAST_TABLE = 254

ACTIONS = {"accept": "normal", "permit": "normal", "deny": "drop", "drop": "drop", "miss": "drop"}

NAMES = ("nw_src", "nw_dst", "{}_src", "{}_dst")

# A match that stands in every flow beside those of a table: one that holds for each packet of IPv4. A switch drops any other one
# without a word. Each field has one name here, since of two matches on a field the last alone holds.
MATCH = re.compile(r"([a-z][a-z0-9_]*)=([^\s,=*]+)")
MATCHES = ("in_port", "dl_src", "dl_dst", "dl_vlan", "nw_ttl", "tun_id", "metadata", "pkt_mark", "ct_state", "ct_zone", "ct_mark")
REGISTERS = tuple(f"reg{number}" for number in range(16))

# The greatest number of a VLAN; a switch reads only the lower bits of a greater one. The other number is that of no VLAN.
LAST_VLAN, NO_VLAN = 0xFFF, 0xFFFF


def protocols(entry: Entry) -> list[str]:
    """The protocols of an entry's flows, as a match names them."""
    *_, source_port, destination_port, protocol = entry.fields
    asks = source_port.mask or destination_port.mask
    if protocol.mask == 0 and not asks:
        return ["ip"]
    numbers = filter(protocol.matches, WITH_PORTS if asks else range(256))
    return [WITH_PORTS.get(number, f"ip,nw_proto={number}") for number in numbers]


def asked(name: str, field: Field) -> str:
    """What a flow asks of a field."""
    if field.width == 32:
        return f"{name}={ipaddress.IPv4Address(field.value)}/{ipaddress.IPv4Address(field.mask)}"
    return f"{name}=0x{field.value:x}/0x{field.mask:x}"


class Place:
    """Where in a switch flows lie: in which table of it, and for which packets; each part may be left open."""

    def __init__(self, table: int | None, matches: Sequence[str]) -> None:
        self.table = [] if table is None else [f"table={table}"]
        self.matches = matches
        # Without its protocol a match such as nw_ttl is dropped, and then all flows of the mark would be deleted.
        self.of_all = ["ip", *matches] if matches else []

    def flow(self, cookie: int, priority: int, protocol: str, asks: Iterable[str], actions: str) -> str:
        return ",".join([f"cookie={cookie:#x}", *self.table, f"priority={priority}", protocol, *self.matches, *asks, f"actions={actions}"])

    def deletion(self, cookie: int, mask: int) -> str:
        """The line that deletes what lies here and has the cookie, in the bits of the mask."""
        return "delete " + ",".join([f"cookie={cookie:#x}/{mask:#x}", *self.table, *self.of_all])


class Slots:
    """The slots of a table in the priorities of a switch, counted from 0."""

    def __init__(self, place: Place, mark: int, slot: int, priority: int, actions: Mapping[str, str]) -> None:
        self.place, self.mark, self.slot, self.priority, self.actions = place, mark, slot, priority, actions

    def flows(self, at: int, entry: Entry) -> Iterator[str]:
        for protocol in protocols(entry):
            asks = [asked(name.format(protocol), field) for name, field in zip(NAMES, entry.fields) if field.mask]
            yield self.place.flow(self.cookie(at), self.priority - self.slot - at, protocol, asks, self.actions[entry.decision])

    def cookie(self, at: int) -> int:
        return self.mark << 32 | self.slot + at + 1

    def lines(self, writes: Iterable[Write], replaces: bool) -> Iterator[str]:
        """The flows of what writes put down, behind the line that takes away what their slot held, where they replace it."""
        for write in writes:
            if replaces:
                yield self.place.deletion(self.cookie(write.slot - 1), 2**64 - 1)
            if write.entry:
                yield from self.flows(write.slot - 1, write.entry)

    def expect_room(self, name: str, count: int) -> None:
        if self.slot > self.priority - count:
            raise BadText(name, f"{count} slots from slot {self.slot} on, and there are {self.priority} priorities")


def read(path: str) -> tuple[int, list[Write], bool]:
    """How many slots a text has, what is written to them, and whether that takes the place of what they held."""
    name, lines = script.title(path), list(script.lines(path))
    kind = lines[0].partition(" ")[0] if lines else ""
    if kind == "plan":
        plan = memories.plan_of(name, lines)
        return plan.slots, plan.writes, True
    if kind == "memory":
        held = memories.memory_of(name, lines)
    else:
        held = [*tables.entries_of(name, lines)]
    return len(held), [Write(slot, entry) for slot, entry in enumerate(held, 1) if entry], False


def action(word: str) -> tuple[str, str]:
    """The name and the actions of a word; a flow without actions would drop what it matches, and isn't meant."""
    name, sign, actions = word.partition("=")
    if not sign or re.fullmatch(tables.NAME, name) is None:
        raise argparse.ArgumentTypeError(f"{shown(word)}: NAME=ACTIONS is wanted, where NAME is a decision")
    if not actions.strip():
        raise argparse.ArgumentTypeError(f"{name} has no actions; `drop` is one")
    if not actions.isprintable():
        raise argparse.ArgumentTypeError(f"{shown(word)}: actions are one line")
    return name, actions


def match(word: str) -> str:
    """A match for all flows, one that a switch keeps in each of them as it is said."""
    found = MATCH.fullmatch(word)
    if found is None:
        raise argparse.ArgumentTypeError(f"{shown(word)}: NAME=VALUE is wanted, one match")
    name, value = found.groups()
    if name not in MATCHES + REGISTERS:
        raise argparse.ArgumentTypeError(f"{name} isn't taken: it must hold for every packet of IPv4, as {', '.join(MATCHES)} and reg0 to reg15")
    if name == "dl_vlan" and not (0 <= int(value, 0) <= LAST_VLAN or int(value, 0) == NO_VLAN):
        raise argparse.ArgumentTypeError(f"{shown(value)} is no VLAN: they go up to {LAST_VLAN}, and {NO_VLAN:#x} is none")
    return word


def number(most: int) -> Callable[[str], int]:
    """Reads a number, decimal or as 0x.., up to the greatest."""

    def read(word: str) -> int:
        value = int(word, 0)
        if not 0 <= value <= most:
            raise argparse.ArgumentTypeError(f"{value} isn't a number up to {most}")
        return value

    return read


def arguments() -> argparse.Namespace:
    words = script.words(__doc__)
    words.add_argument("--action", type=action, action="append", default=[], metavar="NAME=ACTIONS", help="what a switch does where NAME is decided")
    words.add_argument("--slot", type=number(PRIORITY), default=0, metavar="N", help="the slot of the first entry, counted from 0")
    words.add_argument("--priority", type=number(PRIORITY), default=PRIORITY, metavar="N", help="the priority of slot 0")
    words.add_argument("--mark", type=number(2**32 - 1), default=0, metavar="N", help="the upper 32 bits of each cookie")
    words.add_argument("--replace", type=number(2**32 - 1), metavar="MARK", help="delete the flows of this mark in front of those of a table or a memory")
    words.add_argument("--table", type=number(LAST_TABLE), metavar="N", help="the table of the switch; without it flows come into table 0, and are deleted in all")
    words.add_argument("--match", type=match, action="append", default=[], metavar="NAME=VALUE", help="what each flow asks for besides, as in_port=4")
    words.add_argument("--write", type=number(2**32 - 1), metavar="N", help="the changes of this write of a plan alone, counted from 1")
    words.add_argument("file", metavar="FILE", help="a table in the compact text, a memory or a plan, or - for standard input")
    given = words.parse_args()
    names = [match.partition("=")[0] for match in given.match]
    if len(names) > len(set(names)):
        words.error("of two matches of one name a switch takes the last alone")
    return given


def chosen(number: int | None, writes: list[Write], replaces: bool) -> list[Write]:
    """The write with this number, or all where none is asked for."""
    if number is None:
        return writes
    if not replaces or not 1 <= number <= len(writes):
        raise Misuse(f"there is no write {number}: {f'the plan has {len(writes)}' if replaces else 'only a plan has writes'}")
    return writes[number - 1 : number]


def replaced(deletion: str, name: str, lines: list[str], replaces: bool) -> list[str]:
    """The lines behind the one that deletes the flows of a mark: without any, it would leave a switch that decides nothing."""
    if replaces:
        raise Misuse("a plan replaces no mark: it changes the flows of its own")
    if not lines:
        raise BadText(name, "there are no flows to put in the place of those of the mark")
    return [deletion, *lines]


def main() -> None:
    given = arguments()
    actions = ACTIONS | dict(given.action)
    name, place = script.title(given.file), Place(given.table, given.match)
    slots, writes, replaces = read(given.file)
    unknown = sorted({write.entry.decision for write in writes if write.entry and write.entry.decision not in actions})
    if unknown:
        raise BadText(name, f"no actions are given for {', '.join(unknown)}: --action {unknown[0]}=ACTIONS")
    placed = Slots(place, given.mark, given.slot, given.priority, actions)
    placed.expect_room(name, slots)
    lines = list(placed.lines(chosen(given.write, writes, replaces), replaces))
    if given.replace is not None:
        lines = replaced(place.deletion(given.replace << 32, 0xFFFFFFFF << 32), name, lines, replaces)
    for line in lines:
        print(line)


def call() -> None:
    """Runs the script."""
    script.run(main)
