"""The commands of the program and their words, as its usage text spells them.

    usage = grammar.usage(program)
    grammar.spelled(grammar.forms(usage), ["compile", "--limit", "9", "web.list"])

What a label of the usage text stands for says one line of `PLACES` or `VALUES`, so a further option needs one line there, and
none where its label is known.
"""
from __future__ import annotations

import dataclasses
import itertools
import re
import subprocess
from collections.abc import Iterable, Mapping, Sequence

from tcam_razor.headers import WIDTHS

MOST_ENTRIES = 262_144
MOST_RULES = 65_536

# As many words a command takes at most where its last one may come again.
MOST_AGAIN = 8

USAGE = "usage: razor COMMAND\n"
LINE = re.compile(r"  (\w+)((?: \[?--\w+ \w+\]?)*)((?: [A-Z]+)+)( \.\.)?")
OPTION = re.compile(r"(\[)?(--\w+) (\w+)\]?")

NUMBER = re.compile("[0-9]{1,10}")
SPAN = re.compile("([0-9]{1,10})-([0-9]{1,10})")
DECISION = re.compile("[A-Za-z0-9_.-]{1,32}")
OWN_NAME = re.compile("#([1-9][0-9]{0,4})")


@dataclasses.dataclass(frozen=True)
class File:
    """A file, and which text it has."""

    text: str

    def takes(self, word: str) -> bool:
        return True


@dataclasses.dataclass(frozen=True)
class Number:
    """One of these numbers."""

    values: Sequence[int]

    def takes(self, word: str) -> bool:
        return NUMBER.fullmatch(word) is not None and int(word) in self.values


@dataclasses.dataclass(frozen=True)
class Choice:
    """One of these words."""

    values: tuple[str, ...]

    def takes(self, word: str) -> bool:
        return word in self.values


@dataclasses.dataclass(frozen=True)
class Span:
    """A star, or two numbers of which the second is neither below the first nor above the greatest."""

    greatest: int

    def takes(self, word: str) -> bool:
        found = SPAN.fullmatch(word)
        return word == "*" or found is not None and int(found[1]) <= int(found[2]) <= self.greatest


@dataclasses.dataclass(frozen=True)
class Decision:
    """A decision word, `miss`, or the name of a rule that has no decision word."""

    def takes(self, word: str) -> bool:
        own = OWN_NAME.fullmatch(word)
        return DECISION.fullmatch(word) is not None or own is not None and int(own[1]) <= MOST_RULES


Kind = File | Number | Choice | Span | Decision

ORDERS = tuple(map("".join, itertools.permutations("01234")))

# What each label of the usage text stands for: among the plain words, and as the value of an option.
PLACES: dict[str, Kind] = {
    **dict.fromkeys(("LIST", "A", "B"), File("list")),
    "TABLE": File("table"),
    "CERT": File("certificate"),
    "TRACE": File("trace"),
    "SCRIPT": File("script"),
    "MEMORY": File("memory"),
    "PLAN": File("plan"),
    "SEED": Number(range(2**31)),
    "N": Number(range(MOST_RULES + 1)),
    **{label: Span((1 << width) - 1) for label, width in zip(("S", "D", "SP", "DP", "P"), WIDTHS)},
    "DECISION": Decision(),
}
VALUES: dict[str, Kind] = {
    "N": Number(range(1, MOST_ENTRIES + 1)),
    "W": Number((104, 144, 288)),
    "P": Choice((*ORDERS, "best")),
    "S": Choice(("whole", "patch")),
    "M": Choice(("compile", "shorten")),
}

# What a label stands for in one command alone: a session's script has edits, and no order is sought for it.
PARTICULAR: dict[tuple[str, str], Kind] = {
    ("session", "SCRIPT"): File("session"),
    ("session", "P"): Choice(ORDERS),
}

# Options that aren't taken beside a value of another one.
NOT_BESIDE = {"--order": ("--by", "shorten")}


@dataclasses.dataclass(frozen=True)
class Option:
    """An option of a command: its name, what its value is called and what it is, and whether it has to be there."""

    name: str
    label: str
    kind: Kind
    is_needed: bool


@dataclasses.dataclass(frozen=True)
class Place:
    """A plain word of a command: what it is called, and what it is."""

    label: str
    kind: Kind


@dataclasses.dataclass(frozen=True)
class Form:
    """A command: its name, its options, and its plain words, of which the last one may come again."""

    name: str
    options: tuple[Option, ...]
    places: tuple[Place, ...]
    repeats: bool

    def option(self, name: str) -> Option | None:
        return next((option for option in self.options if option.name == name), None)

    def kinds(self, count: int) -> tuple[Kind, ...] | None:
        """What each of so many plain words is; none where the command doesn't take so many."""
        again = count - len(self.places)
        if again < 0 or again and (not self.repeats or again >= MOST_AGAIN):
            return None
        return (*(place.kind for place in self.places), *[self.places[-1].kind] * again)

    @property
    def labels(self) -> str:
        """The plain words as the usage text has them."""
        return " ".join([*(place.label for place in self.places), *([".."] if self.repeats else [])])


@dataclasses.dataclass(frozen=True)
class Spelled:
    """What words spell: a command, the values of its options, and its plain words with what each is."""

    form: Form
    options: Mapping[str, str]
    places: Sequence[tuple[Kind, str]]

    @property
    def files(self) -> list[tuple[str, str]]:
        """The files, each with the text that it has to have."""
        return [(kind.text, word) for kind, word in self.places if isinstance(kind, File)]


def usage(program: str) -> str:
    """The usage text that the program prints."""
    ended = subprocess.run([program], stdin=subprocess.DEVNULL, capture_output=True, text=True)
    if ended.returncode != 2 or not ended.stderr.startswith(USAGE):
        raise ValueError(f"{program} has no usage text of razor")
    return ended.stderr


def forms(usage: str) -> dict[str, Form]:
    """The commands of a usage text by their names, in its order."""
    return {form.name: form for form in map(form_of, usage.removeprefix(USAGE).splitlines())}


def form_of(line: str) -> Form:
    found = LINE.fullmatch(line)
    if found is None:
        raise ValueError(f"no line of a usage text: {line}")
    name, options, labels, again = found.groups()
    return Form(
        name,
        tuple(Option(each[2], each[3], kind_of(name, each[3], VALUES), not each[1]) for each in OPTION.finditer(options)),
        tuple(Place(label, kind_of(name, label, PLACES)) for label in labels.split()),
        bool(again),
    )


def kind_of(name: str, label: str, kinds: Mapping[str, Kind]) -> Kind:
    kind = PARTICULAR.get((name, label)) or kinds.get(label)
    if kind is None:
        raise ValueError(f"{name}: nothing is known of {label}")
    return kind


def parted(form: Form, words: Iterable[str]) -> tuple[dict[str, str], list[str]] | None:
    """The options and the plain words behind the name; none where an option isn't one, comes twice or has no value."""
    options: dict[str, str] = {}
    places: list[str] = []
    ended = False
    rest = iter(words)
    for word in rest:
        if ended or word == "-" or not word.startswith("-"):
            places.append(word)
        elif word == "--":
            ended = True
        else:
            name, sign, text = word.partition("=")
            values = [text] if sign else [*itertools.islice(rest, 1)]
            if not values or name in options or form.option(name) is None:
                return None
            options[name] = values[0]
    return options, places


def spelled(forms: Mapping[str, Form], words: Sequence[str]) -> Spelled | None:
    """What the words spell, or none."""
    form = forms.get(words[0]) if words else None
    parts = None if form is None else parted(form, words[1:])
    if form is None or parts is None:
        return None
    options, places = parts
    kinds = form.kinds(len(places))
    if kinds is None or not are_taken(form, options) or not all(kind.takes(word) for kind, word in zip(kinds, places)):
        return None
    made = Spelled(form, options, list(zip(kinds, places)))
    names = [name for _, name in made.files]
    return made if len(set(names)) == len(names) else None


def are_taken(form: Form, options: Mapping[str, str]) -> bool:
    """Whether the command takes these options with these values, and lacks none."""
    for option in form.options:
        value = options.get(option.name)
        if option.is_needed if value is None else not option.kind.takes(value):
            return False
    return not any(name in options and options.get(other) == value for name, (other, value) in NOT_BESIDE.items())
