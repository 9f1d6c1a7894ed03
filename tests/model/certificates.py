"""The coarsest certificate that rules and entries decide alike, by what knows nothing of the compiler.

It cuts each field at the ends of the rules and entries that are left, and joins neighbours that lead to the same.
"""
import functools

from tcam_razor.headers import WHOLE


def is_open(item, field):
    """Whether the item is open in this field and those behind it."""
    return all(item.spans[at] == (WHOLE[at],) for at in range(field, 5))


def shortened(items, places, field):
    """The places up to the first item that holds all that is left."""
    for at, place in enumerate(places):
        if is_open(items[place], field):
            return places[: at + 1]
    return places


def cuts(items, places, field):
    for place in places:
        for low, high in items[place].spans[field]:
            yield low
            yield high + 1


def holding(items, places, field, value):
    return tuple(place for place in places if any(low <= value <= high for low, high in items[place].spans[field]))


class Writer:
    """The nodes of the certificate's diagram, each once."""

    def __init__(self, rules, entries):
        self.rules, self.entries = rules, entries
        self.numbers, self.nodes = {}, []

    def number(self, node):
        if node not in self.numbers:
            self.numbers[node] = len(self.nodes)
            self.nodes.append(node)
        return self.numbers[node]

    @functools.lru_cache(maxsize=None)
    def node(self, field, rules, entries):
        if field == 5:
            return self.number((rules[:1], entries[:1]))
        greatest = WHOLE[field][1]
        starts = {0, *cuts(self.rules, rules, field), *cuts(self.entries, entries, field)}
        edges = []
        ordered = sorted(start for start in starts if start <= greatest)
        for start, end in zip(ordered, [*ordered[1:], greatest + 1]):
            left = shortened(self.rules, holding(self.rules, rules, field, start), field + 1)
            right = shortened(self.entries, holding(self.entries, entries, field, start), field + 1)
            child = self.node(field + 1, left, right)
            if edges and edges[-1][1] == child:
                edges.pop()
            edges.append((end - 1, child))
        return self.number(tuple(edges))

    def rows(self, number, field, box):
        if field == 5:
            first_rule, first_entry = self.nodes[number]
            yield " ".join([*box, *(str(first[0] + 1) if first else "-" for first in (first_rule, first_entry))])
            return
        low = 0
        for high, child in self.nodes[number]:
            yield from self.rows(child, field + 1, [*box, f"{low}-{high}"])
            low = high + 1


def lines(rules, entries):
    """The lines of the certificate."""
    writer = Writer(rules, entries)
    count = 0
    for row in writer.rows(writer.node(0, tuple(range(len(rules))), tuple(range(len(entries)))), 0, []):
        yield row
        count += 1
    yield f"rows {count}"
