"""What rules and entries decide, worked out slowly from the meaning alone.

A rule and an entry are items: each has spans of values in every field, and a decision. Each field is cut where an item
begins or ends. Between two cuts nothing changes, so that one header stands for all.
"""
import itertools

from tcam_razor.headers import MISS, WHOLE


class Cut:
    """A box of headers, cut in each field. Sets of items are bits of numbers, of which the first item has the lowest."""

    def __init__(self, items, box=WHOLE):
        self.items = items
        self.fields = [list(self.intervals(field, *box[field])) for field in range(5)]

    def intervals(self, field, low, high):
        """The intervals of a field, each with the items that hold it."""
        edges = {edge for item in self.items for first, last in item.spans[field] for edge in (first, last + 1)}
        starts = sorted({low, *(edge for edge in edges if low < edge <= high)})
        for start, end in zip(starts, [*starts[1:], high + 1]):
            holding = (any(first <= start <= last for first, last in item.spans[field]) for item in self.items)
            yield start, end - 1, sum(holds << place for place, holds in enumerate(holding))

    def matches(self):
        """For each box between cuts, in rising order, the items that match it."""
        for a, b, c, d, e in itertools.product(*([holding for _, _, holding in field] for field in self.fields)):
            yield a & b & c & d & e

    def headers(self):
        """The least header of each box between cuts, in the same order."""
        return itertools.product(*([start for start, _, _ in field] for field in self.fields))


def first(items):
    """The place of the first of these items."""
    return (items & -items).bit_length() - 1


def decided(items, matching):
    """The name that the first of the matching items decides."""
    return items[first(matching)].decision if matching else MISS


def fault(rules, entries):
    """What is wrong with a table of the rules, or nothing, and how many headers were looked at.

    It has to decide every header as the rules, by words that are prefixes in each field, and need each of its entries.
    """
    if any(field.length is None for entry in entries for field in entry.fields):
        return "a word that isn't a prefix in each field", 0
    cut, needed, count = Cut([*rules, *entries]), set(), 0
    for matching in cut.matches():
        count += 1
        of_rules, of_entries = matching & (1 << len(rules)) - 1, matching >> len(rules)
        answer = decided(entries, of_entries)
        if answer != decided(rules, of_rules):
            return f"another decision on {next(itertools.islice(cut.headers(), count - 1, None))}", count
        if of_entries and decided(entries, of_entries & of_entries - 1) != answer:
            needed.add(first(of_entries))
    return "" if len(needed) == len(entries) else "an entry could be left out", count
