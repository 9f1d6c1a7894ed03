"""Where rules and entries of any words decide otherwise, worked out slowly from the meaning alone.

In each field values are alike that the same rules and entries take, and the least of them stands for all; so the least headers
of all combinations stand for every header, and the first of them that is decided otherwise is the least.
"""
import functools
import itertools

from model import meaning
from tcam_razor.headers import WIDTHS


@functools.lru_cache(maxsize=200_000)
def classes(width, takers):
    """The least value of this width for each set of takers that take the same values; sets are bits of numbers.

    A taker is spans of values, or a value and a mask: pairs in either case, with its kind before them.
    """
    if all(is_settled(taker, width) for taker in takers):
        return {sum(takes(taker, 0) << place for place, taker in enumerate(takers)): 0}
    found = {}
    for bit in (0, 1):
        for alike, value in classes(width - 1, tuple(half(taker, width - 1, bit) for taker in takers)).items():
            found.setdefault(alike, value | bit << width - 1)
    return found


def is_settled(taker, width):
    """Whether all values of this width are taken, or none."""
    kind, *pairs = taker
    if kind == "word":
        return not pairs or pairs[0][1] == 0
    return not pairs or pairs == [(0, (1 << width) - 1)]


def takes(taker, value):
    kind, *pairs = taker
    if kind == "word":
        return any(value & mask == wanted for wanted, mask in pairs)
    return any(low <= value <= high for low, high in pairs)


def half(taker, width, bit):
    """What the taker takes of the values behind a first bit, of which there are so many more bits."""
    kind, *pairs = taker
    if kind == "word":
        rest = (1 << width) - 1
        return kind, *((value & rest, mask & rest) for value, mask in pairs if not mask >> width & 1 or value >> width == bit)
    first, last = bit << width, (bit + 1 << width) - 1
    return kind, *((max(low, first) - first, min(high, last) - first) for low, high in pairs if low <= last and first <= high)


def takers(rules, entries, field):
    """What each rule and each entry takes in a field."""
    of_rules = (("spans", *joined(rule.spans[field])) for rule in rules)
    of_entries = (("word", (entry.fields[field].value, entry.fields[field].mask)) for entry in entries)
    return *of_rules, *of_entries


def joined(spans):
    """The same values in rising spans that don't touch."""
    made = []
    for low, high in sorted(spans):
        if made and low <= made[-1][1] + 1:
            made[-1] = made[-1][0], max(high, made[-1][1])
        else:
            made.append((low, high))
    return tuple(made)


def fields(rules, entries):
    """For each field the least values of all classes, in rising order, each with its rules and entries."""
    return [sorted(least_values(width, takers(rules, entries, field))) for field, width in enumerate(WIDTHS)]


def least_values(width, takers):
    """The least value of each class, with its takers; those that take the same are looked at once."""
    kinds = tuple(dict.fromkeys(takers))
    for alike, value in classes(width, kinds).items():
        taking = {kind for place, kind in enumerate(kinds) if alike >> place & 1}
        yield value, sum((taker in taking) << place for place, taker in enumerate(takers))


def count(of_fields):
    """How many headers stand for all."""
    return functools.reduce(lambda product, field: product * len(field), of_fields, 1)


def least_difference(rules, entries, of_fields):
    """The least header that is decided otherwise, with both names, or nothing."""
    for combination in itertools.product(*of_fields):
        matching = functools.reduce(int.__and__, (alike for _, alike in combination))
        left = meaning.decided(rules, matching & (1 << len(rules)) - 1)
        right = meaning.decided(entries, matching >> len(rules))
        if left != right:
            return tuple(value for value, _ in combination), left, right
    return None
