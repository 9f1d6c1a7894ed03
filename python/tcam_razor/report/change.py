"""What the program says of two versions of a list."""
from __future__ import annotations

import dataclasses
import difflib
import functools
import io
import itertools
import re
import subprocess
from typing import Callable, Iterable, Iterator, Sequence

from tcam_razor import headers, lists, tables
from tcam_razor.errors import BY_STATUS, BadText, RazorError
from tcam_razor.headers import Header
from tcam_razor.lists import Rule
from tcam_razor.razor import Ended, Razor, written
from tcam_razor.report.boxes import Lists, Search
from tcam_razor.report.hiding import Hiding
from tcam_razor.script import shown

MAKERS = ("expand", "compile", "arrange", "shorten")

# The words that deny, where no others are given.
DENY = ("deny", "drop")

# As many boxes in which lists differ are looked for, before neighbours are joined.
MOST_BOXES = 2_000

NEEDED = re.compile(r"(\d+) entries needed, limit (\d+)\n")
PLAN = re.compile(r"plan 1 slots (\d+) width \d+ writes (\d+)\n")


@dataclasses.dataclass(frozen=True)
class Size:
    """How many entries a command's table has; or how many it would need; or why there is none."""

    count: int = 0
    is_made: bool = True
    why: str = ""


@dataclasses.dataclass(frozen=True)
class State:
    """What `audit` says of a rule: its name, and a header that shows it, which a rule that is never first has not."""

    name: str
    header: Header | None

    @property
    def is_needed(self) -> bool:
        return self.name == "live"


@dataclasses.dataclass(frozen=True)
class Turned:
    """A rule that does nothing, with its state before, which a rule has not that was put in, and the rules that hide it."""

    rule: Rule
    before: State | None
    now: State
    hiders: tuple[Rule, ...]


@dataclasses.dataclass(frozen=True)
class Plan:
    """Writes that lead from one table to another; or how many slots they would need."""

    slots: int
    writes: list[str]
    needed: int = 0


@dataclasses.dataclass(frozen=True)
class Verdict:
    """Whether a table decides as its list, or none where that isn't known; and what was said."""

    is_valid: bool | None
    says: str


@dataclasses.dataclass(frozen=True)
class Difference:
    """The least header that both versions decide differently, and what each decides."""

    header: Header
    old: str
    new: str


class Version:
    """A version of a list, as a file of the program's folder."""

    def __init__(self, razor: Razor, name: str, title: str, text: str, seconds: float) -> None:
        self.razor, self.name, self.title, self.text, self.seconds = razor, name, title, text, seconds
        razor.put(name, text)

    @functools.cached_property
    def rules(self) -> list[Rule]:
        return lists.rules_of(shown(self.title), io.StringIO(self.text, newline="\n"))

    def run(self, *words: str) -> Ended | None:
        """How the program ends, or none where that takes too long."""
        try:
            return self.razor.run(*words, seconds=self.seconds)
        except subprocess.TimeoutExpired:
            return None

    def first(self, header: Header) -> Rule | None:
        """The first rule that matches the header, or none."""
        return next((rule for rule in self.rules if rule.holds(header)), None)

    @functools.cached_property
    def states(self) -> list[State] | None:
        """The state of each rule, or none where `audit` gives no answer in time."""
        ended = self.run("audit", self.name)
        return [state(line.split()) for line in ended.lines] if ended and ended.status == 0 else None

    @functools.cached_property
    def sizes(self) -> dict[str, Size]:
        """The size of each command's table. The table of `shorten` is kept beside the list."""
        return {command: self.size(command) for command in MAKERS}

    def size(self, command: str) -> Size:
        ended = self.run(command, self.name)
        if ended is None:
            return Size(is_made=False, why=f"no table in {self.seconds:g} seconds")
        if ended.status == 4 and (needed := NEEDED.fullmatch(ended.err)):
            return Size(int(needed[1]), is_made=False, why=f"{int(needed[1]):,} entries needed, limit {int(needed[2]):,}")
        first = tables.FIRST.match(ended.out)
        if ended.status != 0 or first is None:
            return Size(is_made=False, why=f"status {ended.status}: {ended.err.strip()}")
        if command == "shorten":
            self.razor.put(self.table, ended.out)
        return Size(int(first[3]))

    @property
    def table(self) -> str:
        return f"{self.name}.table"

    @functools.cached_property
    def hiding(self) -> Hiding:
        path = f"{self.name}.numbers"
        self.razor.put(path, written(rule.columns for rule in self.rules))
        return Hiding(self.run, path, self.rules, self.seconds)


def state(words: Sequence[str]) -> State:
    _, _, name, *values = words
    return State(name, headers.header(values) if values else None)


class Change:
    """The change from one version to the other, as far as the program answers in time."""

    def __init__(self, old: Version, new: Version, slots: int | None = None, deny: Iterable[str] = DENY) -> None:
        self.old, self.new, self.razor = old, new, old.razor
        self.slots, self.deny = slots, frozenset(deny)

    @functools.cached_property
    def compared(self) -> tuple[bool, Difference | None]:
        """Whether `equiv` answers in time, and the least header that the versions decide differently, if there is one."""
        ended = self.old.run("equiv", self.old.name, self.new.name)
        if ended is None:
            return False, None
        if ended.status == 0:
            return True, None
        if ended.status != 1:
            raise self.refused(ended)
        _, *values, left, right = ended.out.split()
        return True, Difference(headers.header(values), left, right)

    @property
    def difference(self) -> Difference | None:
        return self.compared[1]

    def refused(self, ended: Ended) -> RazorError:
        """What the program said, with the names that the lists were given."""
        message = ended.err.strip() or f"equiv ends with {ended.status}"
        for version in (self.old, self.new):
            if message.startswith(f"{version.name}: "):
                message = shown(version.title) + message.removeprefix(version.name)
        return BadText("", message) if ended.status == BadText.status else BY_STATUS.get(ended.status, RazorError)(message)

    @functools.cached_property
    def rows(self) -> list[tuple[int | None, int | None]]:
        """The rules as a patch shows them: the place of each in the old version and in the new one, of which one may be missing."""
        before, behind = ([(rule.spans, rule.decision) for rule in version.rules] for version in (self.old, self.new))
        found: list[tuple[int | None, int | None]] = []
        for tag, first, last, first_of_new, last_of_new in difflib.SequenceMatcher(None, before, behind, autojunk=False).get_opcodes():
            if tag == "equal":
                found += zip(range(first, last), range(first_of_new, last_of_new))
            else:
                found += [(at, None) for at in range(first, last)]
                found += [(None, at) for at in range(first_of_new, last_of_new)]
        return found

    @functools.cached_property
    def gone(self) -> list[Rule]:
        return [self.old.rules[old] for old, new in self.rows if old is not None and new is None]

    @functools.cached_property
    def put_in(self) -> list[Rule]:
        return [self.new.rules[new] for old, new in self.rows if new is not None and old is None]

    @functools.cached_property
    def lists(self) -> Lists:
        return Lists(self.razor, (self.old.name, self.new.name), [*self.old.rules, *self.new.rules], self.old.seconds)

    def permits(self, old: str, new: str) -> bool:
        """Whether a header is newly permitted that was decided so and is now."""
        return old in self.deny and new not in self.deny

    @functools.cached_property
    def permitted(self) -> Search:
        """The boxes that are newly permitted."""
        return self.searched(self.permits)

    @functools.cached_property
    def denied(self) -> Search:
        """The boxes that are newly denied."""
        return self.searched(lambda old, new: self.permits(new, old))

    @functools.cached_property
    def others(self) -> Search:
        """The boxes that are decided differently, and neither newly permitted nor newly denied."""
        return self.searched(lambda old, new: (old in self.deny) == (new in self.deny))

    def searched(self, is_sought: Callable[[str, str], bool]) -> Search:
        answered, difference = self.compared
        if answered and difference is None:
            return Search([], True)
        return self.lists.changed([*self.gone, *self.put_in], MOST_BOXES, is_sought)

    @functools.cached_property
    def turned(self) -> list[Turned] | None:
        """The rules that do nothing now and did before, or weren't there; none where `audit` gave no answer in time."""
        was, now = self.old.states, self.new.states
        if was is None or now is None:
            return None
        before = {new: was[old] for old, new in self.rows if old is not None and new is not None}
        rows = [(at, each, before.get(at)) for at, each in enumerate(now) if not each.is_needed]
        return [Turned(self.new.rules[at], was, each, self.hiders(at, each)) for at, each, was in rows if was is None or was.name != each.name]

    def hiders(self, at: int, now: State) -> tuple[Rule, ...]:
        """The rules that keep a rule from being first, as far as that is known."""
        return self.new.hiding.hiders(self.new.rules[at]) if now.name == "never" else ()

    @functools.cached_property
    def plan(self) -> Plan | None:
        """The plan of writes from the old table to the new one in place; none where there is no table, or no plan in time.

        Where nobody says how many slots there are, a fifth more than the longer table has, or as many as the plan needs.
        """
        both = [version.sizes["shorten"] for version in (self.old, self.new)]
        if not all(size.is_made for size in both):
            return None
        plan = self.planned(self.slots or max(size.count for size in both) * 6 // 5 + 1)
        return self.planned(plan.needed) if plan and plan.needed and not self.slots else plan

    def planned(self, slots: int) -> Plan | None:
        """The plan in so many slots, or how many it would need."""
        placed = self.old.run("place", "--slots", str(slots), self.old.table)
        if placed is None or placed.status != 0:
            needed = placed and NEEDED.fullmatch(placed.err)
            return Plan(slots, [], int(needed[1])) if needed else None
        self.razor.put("memory", placed.out)
        ended = self.old.run("patch", "memory", self.new.table)
        needed = ended and NEEDED.fullmatch(ended.err)
        if needed:
            return Plan(slots, [], int(needed[1]))
        return Plan(slots, ended.lines[1:]) if ended and ended.status == 0 and PLAN.match(ended.out) else None

    @functools.cached_property
    def verdict(self) -> Verdict | None:
        """What `verify` says of the new version's list and table; none where there is no table."""
        if not self.new.sizes["shorten"].is_made:
            return None
        ended = self.new.run("verify", self.new.name, self.new.table)
        if ended is None:
            return Verdict(None, f"no answer in {self.new.seconds:g} seconds")
        if ended.status > 1:
            return Verdict(None, ended.err.strip())
        return Verdict(ended.status == 0, ended.out.strip())


def context(rows: Sequence[tuple[int | None, int | None]], around: int) -> Iterator[list[tuple[int | None, int | None]]]:
    """Runs of the rows that are at most so many rows from one that is changed."""
    changed = [at for at, pair in enumerate(rows) if None in pair]
    near = {at for change in changed for at in range(change - around, change + around + 1)}
    for is_near, group in itertools.groupby(range(len(rows)), key=near.__contains__):
        if is_near:
            yield [rows[at] for at in group]
