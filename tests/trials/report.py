"""Tries the pages of tools/report on random changes of random lists.

A list of few rules is changed: rules are put in, taken out and moved. The boxes in which the page says that decisions changed
must be exactly those headers that are decided differently, found by evaluating both lists wherever an interval of either
begins; no header may lie in two of them. What is said to keep a rule from being first must do so. The writes that it shows must
lead from one table to the other, with some drawn headers decided as by either of them after each. Each page must be
well-formed, fetch nothing and run nothing, also where a list has the name of a script.
"""
import html.parser

from model import cases, lists, patching
from model.meaning import Cut, decided, first
from tcam_razor import headers, memories, tables
from tcam_razor.razor import written
from tcam_razor.report.change import Change, Version
from tcam_razor.report.findings import found
from tcam_razor.report.page import page

# The words that deny, if nobody gives others.
DENY = {"deny", "drop"}

# A name that would run, if it weren't escaped.
HOSTILE = "<script>nowhere()</script>&\"'\x1b[31m"

MOST_BYTES = 300_000

VOID = {"meta", "wbr"}


class Reader(html.parser.HTMLParser):
    """Reads a page, and notes what is wrong with it."""

    def __init__(self, text):
        super().__init__()
        self.open, self.faults = [], []
        self.feed(text)
        self.close()
        if self.open:
            self.faults.append(f"{self.open} aren't closed")

    def handle_starttag(self, tag, attributes):
        names = {name for name, _ in attributes}
        if tag in ("script", "link", "img", "iframe", "object") or names & {"src", "href"} or any(name.startswith("on") for name in names):
            self.faults.append(f"<{tag}> fetches or runs")
        if tag not in VOID:
            self.open.append(tag)

    def handle_endtag(self, tag):
        if not self.open or self.open.pop() != tag:
            self.faults.append(f"</{tag}> closes nothing")


def edited(rng, lines):
    """The lines with up to four of them put in, taken out or moved."""
    lines = list(lines)
    for _ in range(rng.randrange(5)):
        way = rng.randrange(3) if lines else 0
        line = lines.pop(rng.randrange(len(lines))) if way else lists.rule(rng)
        if way < 2:
            lines.insert(rng.randrange(len(lines) + 1), line)
    return lines


def change_of(razor, texts, titles, seconds=60):
    old, new = (Version(razor, name, title, text, seconds) for name, title, text in zip(("old.list", "new.list"), titles, texts))
    return Change(old, new)


def page_of(change):
    """The page of a change."""
    titles = [change.old.title, change.new.title]
    return page(found(change, titles, titles, b"the program"))


def headers_changed(old, new, boxes):
    """Compares the boxes with the meaning at each boundary header; how many headers differ."""
    items = [*old, *new, *map(Item, boxes)]
    cut, count = Cut(items), 0
    for header, matching in zip(cut.headers(), cut.matches()):
        of_old, of_new = matching & (1 << len(old)) - 1, matching >> len(old) & (1 << len(new)) - 1
        of_boxes = matching >> len(old) + len(new)
        names = decided(old, of_old), decided(new, of_new)
        said = [(box.old, box.new) for at, box in enumerate(boxes) if of_boxes >> at & 1]
        if said != ([names] if names[0] != names[1] else []):
            raise cases.Wrong(f"on {header} the lists decide {names}, and the page says {said}")
        count += names[0] != names[1]
    return count


class Item:
    """A box as what has spans."""

    def __init__(self, box):
        self.spans = tuple((span,) for span in box.box)


def trial(razor, rng, seen):
    """Compares the page of one change with the meaning of both lists."""
    columns = lists.few(rng, lists.COLUMNS, 2)
    old = lists.rules(rng, 6, columns, default=0.5)
    new = edited(rng, old)
    change = change_of(razor, [written(old), written(new)], [HOSTILE, "new"])
    searches = (change.permitted, change.denied, change.others)
    boxes = sorted(box for search in searches for box in search.found)
    try:
        seen["writes"] += try_plan(razor, rng, change)
        differing = headers_changed(change.old.rules, change.new.rules, boxes)
        if not all(search.is_all for search in searches) or (change.difference is None) != (differing == 0):
            raise cases.Wrong(f"{differing} headers differ, and the first difference is {change.difference}")
        expect_parted(*searches)
        seen["hidden"] += expect_hidden(change)
        expect_sound(page_of(change))
    except cases.Wrong as wrong:
        raise cases.Wrong(f"{wrong}\n{written(old)}and\n{written(new)}") from None
    seen.update({"boxes": len(boxes), "headers": differing, "permitted": len(change.permitted.found)})


def expect_parted(permitted, denied, others):
    """Fails unless what is newly permitted stands apart, and what is newly denied."""
    for search, was, now in ((permitted, True, False), (denied, False, True)):
        for box in search.found:
            if ((box.old in DENY), (box.new in DENY)) != (was, now):
                raise cases.Wrong(f"{box} stands among those that are newly {'permitted' if was else 'denied'}")
    if any((box.old in DENY) != (box.new in DENY) for box in others.found):
        raise cases.Wrong("a box that is newly permitted or denied stands among the others")


def expect_hidden(change):
    """Fails unless rules that are never first lie in the one that is named, or are first matched by just those that are; how many there are."""
    matches, hidden = list(Cut(change.new.rules).matches()), [it for it in change.turned if it.now.name == "never"]
    for it in hidden:
        of_rule, named = [matching for matching in matches if matching >> it.rule.number - 1 & 1], [rule.number - 1 for rule in it.hiders]
        is_one = len(named) == 1 and all(matching >> named[0] & 1 for matching in of_rule)
        if not is_one and set(map(first, of_rule)) != set(named):
            raise cases.Wrong(f"rule {it.rule.number} is hidden, and rules {[rule.number for rule in it.hiders]} are named")
    return len(hidden)


def try_plan(razor, rng, change):
    """Compares the plan of a change with both tables; how many writes it has."""
    if change.plan is None or change.plan.needed:
        return 0
    held, entries = memories.memory(razor.folder / "memory"), tables.entries(razor.folder / change.new.table)
    writes = [memories.write_of(number, f"{line}\n") for number, line in enumerate(change.plan.writes, 1)]
    drawn = [headers.header(lists.header(rng).split()) for _ in range(20)]
    wrong = patching.fault(held, entries, writes, drawn)
    if wrong or len(held) != change.plan.slots:
        raise cases.Wrong(wrong or f"a plan for {change.plan.slots} slots")
    return len(writes)


def expect_sound(text):
    faults = Reader(text).faults
    if faults or HOSTILE in text or "\x1b" in text or len(text.encode()) > MOST_BYTES:
        raise cases.Wrong(f"a page of {len(text.encode())} bytes: {faults}")


def run(given):
    count, seen = cases.try_all(given, trial, runs=200)
    return f"{count:,} changes: {seen['boxes']:,} boxes hold exactly the {seen['headers']:,} headers that are decided differently, and {seen['permitted']:,} of the boxes are newly permitted; {seen['hidden']:,} rules are hidden by those that are named; {seen['writes']:,} writes lead from table to table"
