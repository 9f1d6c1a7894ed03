"""Whole swaps of tables in slots, worked out slowly from the meaning alone: for each lookup the slots are filled anew."""
import dataclasses

from tcam_razor import memories


@dataclasses.dataclass(frozen=True)
class Block:
    """The entries of a table, and the slot in which the first one is to stand."""

    entries: tuple = ()
    start: int = 0

    @property
    def end(self):
        return self.start + len(self.entries)


class Swaps:
    """So many slots with a settled table, and the swap that is pending: its table, how many writes are done, and whether it goes back."""

    def __init__(self, slots):
        self.slots, self.settled, self.pending = slots, Block(), None
        self.done, self.back = 0, False

    @property
    def total(self):
        return len(self.settled.entries) + len(self.pending.entries)

    def begin(self, entries):
        """Below the settled table where there is room, else above it."""
        if self.pending:
            return "busy"
        above, below, wanted = self.settled.start, self.slots - self.settled.end, len(entries)
        if wanted > max(above, below):
            return f"no room {above} {below} {wanted}"
        self.pending = Block(entries, self.settled.end if wanted <= below else above - wanted)
        self.done, self.back = 0, False
        begun = f"begun {self.total}"
        self.reached()
        return begun

    def step(self):
        if self.pending:
            self.done += -1 if self.back else 1
        return self.reached()

    def abort(self):
        self.back = True
        return self.reached()

    def stage(self):
        return f"stage {self.done} of {self.total}{' back' * self.back}" if self.pending else "idle"

    def reached(self):
        """The stage that is reached. The swap is over with its last write, or going back when none is left."""
        stage = self.stage()
        if self.pending and self.done == (0 if self.back else self.total):
            settled = self.settled if self.back else self.pending
            self.settled, self.pending = settled if settled.entries else Block(), None
        return stage

    def held(self):
        """What each slot holds: the new entries from the first on, and the old ones, of which the last is cleared first."""
        held = [None] * self.slots
        cleared = max(self.done - len(self.pending.entries), 0) if self.pending else 0
        held[self.settled.start : self.settled.end - cleared] = self.settled.entries[: len(self.settled.entries) - cleared]
        if self.pending:
            written = self.pending.entries[: self.done]
            held[self.pending.start : self.pending.start + len(written)] = written
        return held

    def look(self, header):
        return memories.answer(memories.entries_in(self.held()), header) or "miss"
