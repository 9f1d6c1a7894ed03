"""A picked list, entry by entry."""
from __future__ import annotations

from dataclasses import dataclass

from .. import fields
from ..addresses import is_number
from ..listing import Assumed, Listing, Refused, Source
from ..words import Words
from .blocks import LIST, Block, Blocks, Line
from .entries import Entry
from .groups import Groups


MOST_SEQUENCE = 4294967295


def read(text: str, dialect: str, pick: str | None, assumed: Assumed, listing: Listing) -> str:
    """Adds the rules of the list that is picked, and gives its name."""
    blocks = Blocks(dialect)
    blocks.read(text)
    listing.faults |= dict.fromkeys(blocks.faults)
    name = picked(blocks, pick)
    block = blocks.found[LIST, name]
    listing.faults |= dict.fromkeys(block.faults)
    reader = Reader(Groups(blocks), assumed, listing, block)
    for line in block.lines:
        source = listing.begin(line.place, line.text)
        try:
            reader.read(source, line)
        except Refused as refused:
            listing.refuse(source, refused.reason)
    if not reader.entries:
        raise Refused(f"list {name} has no entry: what devices do with an empty list isn't what an implicit deny says")
    listing.add(listing.begin("end", "implicit deny"), [fields.WHOLE], "deny")
    return name


def picked(blocks: Blocks, pick: str | None) -> str:
    known = blocks.lists()
    if pick is not None and pick not in known:
        raise Refused(f"no list {pick}" + (f", only {', '.join(known)}" if known else ""))
    if not known:
        raise Refused("no extended list")
    if pick is None and len(known) > 1:
        raise Refused(f"several lists, pick one of: {', '.join(known)}")
    return pick or known[0]


@dataclass
class Reader:
    groups: Groups
    assumed: Assumed
    listing: Listing
    block: Block
    entries: int = 0
    has_sequence: bool | None = None  # whether its entries have sequence numbers, once one was read
    before: int = -1

    def read(self, source: Source, line: Line) -> None:
        words = Words(line.text.split()[2:] if self.block.is_numbered else line.text.split())
        self.sequence(words)
        match words.left:
            case ["remark", *_]:
                source.note = "remark"
            case ["permit" | "deny" as decision, *_]:
                self.entries += 1
                words.take()
                self.enter(source, Entry(words, self.groups, self.assumed), decision)
            case ["statistics" | "counters", "per-entry"]:
                self.listing.leave_out(source, "counters take no part")
            case _:
                raise Refused("no entry of an extended list")

    def enter(self, source: Source, entry: Entry, decision: str) -> None:
        boxes = entry.boxes()
        if entry.never:
            self.listing.leave_out(source, entry.never)
            return
        self.listing.add(source, boxes, decision)
        for notice in entry.notices:
            self.listing.notice(source, notice)

    def sequence(self, words: Words) -> None:
        """Sequence numbers rise, and all entries have one, or none; others needn't have one."""
        if words.next.isdigit():
            number = int(words.take()) if is_number(words.next, MOST_SEQUENCE) else self.before
            if number <= self.before:
                raise Refused(f"sequence number isn't above {self.before}: import what the device shows of the list")
            if self.has_sequence is False:
                raise Refused("sequence number behind lines that have none")
            self.before, self.has_sequence = number, True
        elif words.next in ("permit", "deny"):
            if self.has_sequence:
                raise Refused("no sequence number behind lines that have one")
            self.has_sequence = False
