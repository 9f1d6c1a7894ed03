"""The verdict on a proof that a list and a table decide alike, or where they first don't, worked out from the text's description.

`verdict` gives the line that `check` has to write, and `loose` writes a proof of another kind than the program does: each rule
and each entry is covered by the open one behind the last, so that all pairs that meet are open.
"""
import dataclasses
import re

from model.agreement import joined
from tcam_razor.headers import MISS, WHOLE, WIDTHS

BITS = sum(WIDTHS)
ALL = (1 << BITS) - 1

# Where each field's last bit stands in a word.
PLACES = tuple(sum(WIDTHS[field + 1 :]) for field in range(5))

MOST = 2**32

NUMBER = "(0|[1-9][0-9]*)"
FIRST = re.compile(f"proof 1 rules {NUMBER} entries {NUMBER}(?: before {NUMBER} {NUMBER} {NUMBER} {NUMBER} {NUMBER})?")
LINE = re.compile(f"(?:e|r|p {NUMBER} {NUMBER})((?: [^ ]+)+)")
LAST = re.compile(f"pairs {NUMBER}")
STEP = re.compile("[er][1-9][0-9]*|0|[1-9][0-9]*|-|>")


class Wrong(Exception):
    """Why a line is wrong."""


class OutOfSteps(Exception):
    """No cover was found within so many halves."""


@dataclasses.dataclass(frozen=True)
class Cube:
    """The headers that have this value in the bits of the mask."""

    value: int = 0
    mask: int = 0

    def is_open(self, bit):
        return not self.mask >> bit & 1

    def half(self, bit, one):
        return Cube(self.value | one << bit, self.mask | 1 << bit)

    def has_bits_of(self, other):
        return other.mask & ~self.mask == 0 and self.value & other.mask == other.value

    def meets(self, other):
        return (self.value ^ other.value) & self.mask & other.mask == 0

    def meet(self, other):
        return Cube(self.value | other.value, self.mask | other.mask)

    def box(self):
        """In each field the least value and the greatest."""
        for place, width in zip(PLACES, WIDTHS):
            bits = (1 << width) - 1
            value, mask = self.value >> place & bits, self.mask >> place & bits
            yield value, value | mask ^ bits


def key(header):
    return sum(value << place for value, place in zip(header, PLACES))


def cube_of_entry(entry):
    return Cube(key(field.value for field in entry.fields), key(field.mask for field in entry.fields))


def cube_of_rule(rule):
    """In each field the longest prefix that holds all values of the rule."""
    value = mask = 0
    for spans, place, width in zip(rule, PLACES, WIDTHS):
        low, high = spans[0][0], spans[-1][1]
        fixed = ((1 << width) - 1) >> (low ^ high).bit_length() << (low ^ high).bit_length()
        value, mask = value | (low & fixed) << place, mask | fixed << place
    return Cube(value, mask)


class Sides:
    """Rules and entries with an open one behind the last of each; numbers count from 1, and at 0 there is nothing."""

    def __init__(self, rules, entries, before=None):
        self.rules = [None, *(tuple(map(joined, rule.spans)) for rule in rules), tuple((span,) for span in WHOLE)]
        self.of_rules = [None, *map(cube_of_rule, self.rules[1:])]
        self.of_entries = [None, *map(cube_of_entry, entries), Cube()]
        self.rule_names = [None, *(rule.decision for rule in rules), MISS]
        self.entry_names = [None, *(entry.decision for entry in entries), MISS]
        self.before = before

    def names(self, header):
        """What both decide of a header."""
        at = Cube(key(header), ALL)
        rule = next(number for number in range(1, len(self.rules)) if self.lies_in_rule(at, number))
        entry = next(number for number in range(1, len(self.of_entries)) if at.has_bits_of(self.of_entries[number]))
        return self.rule_names[rule], self.entry_names[entry]

    def lies_in_rule(self, cube, number):
        return all(any(low <= first and last <= high for low, high in spans) for spans, (first, last) in zip(self.rules[number], cube.box()))

    def misses_rule(self, cube, number):
        return any(all(last < low or high < first for low, high in spans) for spans, (first, last) in zip(self.rules[number], cube.box()))

    def is_shown(self, step, cube, own, rules, entries):
        """Whether a word of a cover says why the cube is covered, by rules and entries below these."""
        match step[0]:
            case "r":
                return int(step[1:]) < rules and self.lies_in_rule(cube, int(step[1:]))
            case "e":
                return int(step[1:]) < entries and cube.has_bits_of(self.of_entries[int(step[1:])])
            case "-":
                return self.misses_rule(cube, own)
        return cube.value >= key(self.before)

    def covers(self, steps, cube, own, rules, entries):
        """Whether the words are a cover of the cube."""
        due = [cube]
        for step in steps:
            if step.isdigit():
                cube = due.pop()
                if not cube.is_open(int(step)):
                    return False
                due += [cube.half(int(step), 1), cube.half(int(step), 0)]
            elif not self.is_shown(step, due.pop(), own, rules, entries):
                return False
        return True

    def open_pairs(self, of_entries, of_rules):
        """The open pairs, by entries and then by rules, for the greatest rule and entry that each cover names."""
        for entry, word in enumerate(self.of_entries[1:], 1):
            for rule in range(1, of_entries[entry] + 1):
                differ = self.rule_names[rule] != self.entry_names[entry]
                if differ and entry <= of_rules[rule] and word.meets(self.of_rules[rule]) and not self.misses_rule(word, rule):
                    yield entry, rule


def verdict(rules, entries, text):
    """What `check` says of a text, whose lines end with line feeds."""
    if not text.startswith("proof "):
        return "wrong row 1: form" if text else "wrong row 1: ends early"
    *lines, rest = text.split("\n")
    reader = Reader(rules, entries)
    for number, line in enumerate([*lines, *[rest] * bool(rest)], 1):
        try:
            if number > len(lines):
                raise Wrong("form")
            reader.take(line)
        except Wrong as wrong:
            return f"wrong line {number}: {wrong}"
    return reader.says if reader.ended else f"wrong line {len(lines) + 1}: ends early"


class Reader:
    """What was read of a proof so far."""

    def __init__(self, rules, entries):
        self.listed, self.tabled = rules, entries
        self.sides, self.says, self.ended = None, "", False
        self.of_entries, self.of_rules, self.pairs = [None], [None], []

    def take(self, line):
        if self.ended:
            raise Wrong("form")
        if self.sides is None:
            self.take_first(line)
        elif len(self.of_entries) <= len(self.tabled) + 1:
            self.take_entry(line)
        elif len(self.of_rules) <= len(self.listed) + 1:
            self.take_rule(line)
        elif line.startswith("pairs"):
            self.take_last(line)
        else:
            self.take_pair(line)

    def take_first(self, line):
        found = FIRST.fullmatch(line)
        if found is None:
            raise Wrong("form")
        rules, entries, *header = (None if word is None else int(word) for word in found.groups())
        before = None if header[0] is None else tuple(header)
        if max(rules, entries) >= MOST or before and any(value > last for value, (_, last) in zip(before, WHOLE)):
            raise Wrong("form")
        if (rules, entries) != (len(self.listed), len(self.tabled)):
            raise Wrong(f"counts differ, stated {rules} {entries} found {len(self.listed)} {len(self.tabled)}")
        sides = Sides(self.listed, self.tabled, before)
        if before and sides.names(before)[0] == sides.names(before)[1]:
            raise Wrong("decisions do not differ")
        self.sides = sides

    def steps(self, line, kind):
        """The numbers of a pair, and the words of a cover."""
        found = LINE.fullmatch(line)
        if found is None or line[0] != kind:
            raise Wrong("form")
        steps, due = found[3][1:].split(" "), 1
        for step in steps:
            if due == 0 or not self.is_step(step, kind):
                raise Wrong("form")
            due += 1 if step.isdigit() else -1
        numbers = [int(word) for word in found.groups()[:2] if word is not None]
        if due or not all(1 <= number <= most for number, most in zip(numbers, (len(self.listed) + 1, len(self.tabled) + 1))):
            raise Wrong("form")
        return numbers, steps

    def is_step(self, step, kind):
        if not STEP.fullmatch(step):
            return False
        if step[0] in "er":
            return int(step[1:]) <= len(self.tabled if step[0] == "e" else self.listed) + 1
        return kind != "e" if step == "-" else self.sides.before is not None if step == ">" else int(step) < BITS

    def take_entry(self, line):
        _, steps = self.steps(line, "e")
        entry = len(self.of_entries)
        if not self.sides.covers(steps, self.sides.of_entries[entry], None, len(self.listed) + 2, entry):
            raise Wrong("cover of entry")
        self.of_entries.append(greatest(steps, "r"))

    def take_rule(self, line):
        _, steps = self.steps(line, "r")
        rule = len(self.of_rules)
        if not self.sides.covers(steps, self.sides.of_rules[rule], rule, rule, len(self.tabled) + 2):
            raise Wrong("cover of rule")
        self.of_rules.append(greatest(steps, "e"))

    def take_pair(self, line):
        (rule, entry), steps = self.steps(line, "p")
        if self.pairs and (entry, rule) <= self.pairs[-1]:
            raise Wrong("order")
        if not self.sides.covers(steps, self.sides.of_rules[rule].meet(self.sides.of_entries[entry]), rule, rule, entry):
            raise Wrong("cover of pair")
        self.pairs.append((entry, rule))

    def take_last(self, line):
        found = LAST.fullmatch(line)
        if found is None or int(found[1]) >= MOST:
            raise Wrong("form")
        lined = set(self.pairs)
        for entry, rule in self.sides.open_pairs(self.of_entries, self.of_rules):
            if (entry, rule) not in lined:
                raise Wrong(f"pair {rule} {entry} missing")
        if int(found[1]) != len(lined):
            raise Wrong(f"counts differ, stated {found[1]} found {len(lined)}")
        before = self.sides.before
        shown = " ".join(["differ", *map(str, before), *self.sides.names(before)]) if before else "equal"
        self.says, self.ended = f"valid {shown} pairs={len(lined)}", True


def greatest(steps, kind):
    """The greatest rule or entry that a cover names, or 0."""
    return max((int(step[1:]) for step in steps if step[0] == kind), default=0)


def loose(rng, rules, entries, before=None, most=300):
    """The lines of a proof by open covers, with a line for each pair that they leave open."""
    sides = Sides(rules, entries, before)
    first, last = len(rules) + 1, len(entries) + 1
    heading = f"proof 1 rules {len(rules)} entries {len(entries)}" + (f" before {' '.join(map(str, before))}" if before else "")
    pairs = list(sides.open_pairs([None, *[first] * last], [None, *[last] * first]))
    if len(pairs) > most:
        raise OutOfSteps
    lines = (f"p {rule} {entry} {' '.join(Coverer(rng, sides, rule, entry, most // len(pairs) + 20).steps())}" for entry, rule in pairs)
    return [heading, *[f"e r{first}"] * last, *[f"r e{last}"] * first, *lines, f"pairs {len(pairs)}"]


class Coverer:
    """Seeks a cover of a pair by halves at bits that are drawn among those that anything before it asks for."""

    def __init__(self, rng, sides, rule, entry, most):
        self.rng, self.sides, self.rule, self.entry, self.left = rng, sides, rule, entry, most
        self.asked = 0
        for cube in (*sides.of_rules[1 : rule + 1], *sides.of_entries[1:entry]):
            self.asked |= cube.mask

    def steps(self):
        return self.of(self.sides.of_rules[self.rule].meet(self.sides.of_entries[self.entry]))

    def of(self, cube):
        ways = [*(f"r{number}" for number in range(1, self.rule)), *(f"e{number}" for number in range(1, self.entry)), "-", *[">"] * (self.sides.before is not None)]
        for step in self.rng.sample(ways, len(ways)):
            if self.sides.is_shown(step, cube, self.rule, self.rule, self.entry):
                return [step]
        self.left -= 1
        bits = [bit for bit in range(BITS) if cube.is_open(bit)]
        asked = [bit for bit in bits if self.asked >> bit & 1]
        if self.left < 0 or not bits:
            raise OutOfSteps
        bit = self.rng.choice(asked) if asked else max(bits)
        return [str(bit), *self.of(cube.half(bit, 0)), *self.of(cube.half(bit, 1))]
