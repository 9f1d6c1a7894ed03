"""What the program reads and answers, as values: lists, tables, memories and plans, and differences between them."""
from __future__ import annotations

import os
import pathlib
from dataclasses import dataclass
from typing import Literal, NamedTuple, TypeVar

from .headers import Header

State = Literal["live", "droppable", "never"]
Span = tuple[int, int]
# A span in each field.
Box = tuple[Span, Span, Span, Span, Span]

Given = TypeVar("Given", bound="Text")


@dataclass(frozen=True)
class Text:
    """A text that the program reads, and the name by which it is told in messages."""

    text: str
    name: str = "text"

    @classmethod
    def load(cls: type[Given], path: str | os.PathLike[str]) -> Given:
        """The text of a file, with its path as its name."""
        return cls(pathlib.Path(path).read_bytes().decode("utf-8", "surrogateescape"), os.fspath(path))

    def heading(self, word: str) -> int:
        """The number behind a word of the first line."""
        words = self.text.split("\n", 1)[0].split()
        return int(words[words.index(word) + 1])


@dataclass(frozen=True)
class List(Text):
    """A packet filter list."""

    name: str = "list"


@dataclass(frozen=True)
class Table(Text):
    """A ternary table, and how many rules its list has, where it was made of one."""

    name: str = "table"
    rules: int | None = None

    @property
    def entries(self) -> int:
        return self.heading("entries")

    @property
    def composed(self) -> int:
        """How many entries it had before any was left out."""
        return self.heading("composed")

    @property
    def slot(self) -> int:
        """How many bits its slots have."""
        return self.heading("slot")


@dataclass(frozen=True)
class Memory(Text):
    """What the slots of a ternary memory hold."""

    name: str = "memory"

    @property
    def slots(self) -> int:
        return self.heading("slots")

    @property
    def entries(self) -> int:
        return self.heading("entries")


@dataclass(frozen=True)
class Plan(Text):
    """Writes to the slots of a memory, in order."""

    name: str = "plan"

    @property
    def slots(self) -> int:
        return self.heading("slots")

    @property
    def writes(self) -> int:
        return self.heading("writes")


@dataclass(frozen=True)
class Certificate(Text):
    """That a list and a table decide every header alike."""

    name: str = "certificate"

    @property
    def rows(self) -> int:
        return int(self.text.split()[-1])


@dataclass(frozen=True)
class Proof(Text):
    """That a list and a table decide every header alike, or which header is the least that they don't."""

    name: str = "proof"

    @property
    def pairs(self) -> int:
        """How many pairs of a rule and an entry have a line."""
        return int(self.text.split()[-1])

    @property
    def header(self) -> Header | None:
        """The least header that is decided otherwise; None where all are decided alike."""
        _, _, values = self.text.split("\n", 1)[0].partition(" before ")
        return Header(*map(int, values.split())) if values else None


@dataclass(frozen=True)
class Difference:
    """The least header on which two texts decide differently, and how; None stands for no decision."""

    header: Header
    left: str | None
    right: str | None


@dataclass(frozen=True)
class WrongRow:
    """The first row of a certificate that is wrong, and why."""

    row: int
    reason: str


@dataclass(frozen=True)
class WrongLine:
    """The first line of a proof that is wrong, and why."""

    line: int
    reason: str


@dataclass(frozen=True)
class RuleState:
    """Whether a list needs a rule, and the header that shows it: of a rule that is `never` the first to match there is none."""

    number: int
    state: State
    header: Header | None


class Answered(NamedTuple):
    """How a run of the program ended with an answer."""

    status: int
    text: str
    told: str
