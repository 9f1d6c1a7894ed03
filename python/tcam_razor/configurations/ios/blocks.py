"""The access lists and object groups of a configuration, each with its lines. All other lines are passed over.

A block goes on to the next line that isn't indented and is none of its own. Comments (`!`) end nothing, as on a device.
"""
from __future__ import annotations

import re
from dataclasses import dataclass, field

from ..addresses import is_number
from ..names import IOS_PROTOCOLS

# What looks like an entry, also where it is cut short or in capitals, so that it is refused and not passed over.
ENTRY = re.compile(r"\d+ |(no )?(per(m(it?)?)?|de(ny?)?|rem(a(rk?)?)?|evaluate|dynamic)\b|no \d", re.IGNORECASE)
MEMBER = re.compile(rf"(host|range|group-object|description|any|ip|tcp-udp|{'|'.join(IOS_PROTOCOLS)})\b|\d+(\.\d+){{3}}\b|\d+$")
# Lists of other kinds, whose lines look alike.
OTHER_LIST = re.compile(r"(ip|ipv6|mac) access-list ")

Key = tuple[str, str]
LIST, NETWORK, SERVICE = "list", "network", "service"


@dataclass(frozen=True)
class Line:
    number: int
    text: str

    @property
    def place(self) -> str:
        return f"line {self.number}"

    def told(self, why: str) -> str:
        return f"{self.place}: {why}: {self.text}"


@dataclass
class Block:
    """A list or a group: its lines, and what is wrong with it as a whole, which is told where it is read."""

    is_begun: bool = False
    is_numbered: bool = False  # by `access-list NUMBER` in front of each line
    lines: list[Line] = field(default_factory=list)
    faults: list[str] = field(default_factory=list)


@dataclass
class Blocks:
    """The blocks by kind and name, and the lines that look like entries and stand in none."""

    dialect: str
    found: dict[Key, Block] = field(default_factory=dict)
    faults: list[str] = field(default_factory=list)
    open: Block | None = None
    # What is read over there: nothing as yet, a command of other kind, or a list of other kind.
    passed: str = ""
    kind: str = ""

    def lists(self) -> list[str]:
        """The names of the lists."""
        return [name for (kind, name), block in self.found.items() if kind == LIST and block.is_begun]

    def read(self, text: str) -> None:
        for number, raw in enumerate(text.split("\n"), 1):
            line = Line(number, " ".join(raw.split()))
            if not line.text or line.text.startswith("!"):
                continue
            if raw[0] in " \t":
                self.inner(line)
            else:
                self.outer(line)

    def inner(self, line: Line) -> None:
        """A line that is indented."""
        if self.open:
            self.open.lines.append(line)
        elif not self.passed and ENTRY.match(line.text):
            self.faults.append(line.told("outside of a list"))

    def outer(self, line: Line) -> None:
        """A line that isn't indented: a head, a line of the open block all the same, or a command that ends it."""
        words = line.text.split()
        if head := head_of(words, self.dialect):
            self.begin(head, line)
        elif number := numbered(words, self.dialect):
            self.number(number, line)
        elif words[0] == "no" and (gone := head_of(words[1:], self.dialect) or numbered(words[1:], self.dialect)):
            if self.block(gone).is_begun:
                self.block(gone).faults.append(line.told("takes away what stands before it"))
            self.pass_over("command")
        elif self.open and (ENTRY if self.kind == LIST else MEMBER).match(line.text):
            self.open.lines.append(line)
        elif OTHER_LIST.match(line.text):
            self.pass_over("list")
        elif not ENTRY.match(line.text):
            self.pass_over("command")
        elif self.passed != "list":
            self.faults.append(line.told("outside of a list"))

    def block(self, key: Key) -> Block:
        return self.found.setdefault(key, Block())

    def begin(self, key: Key, line: Line) -> None:
        """The head of a block."""
        self.kind, self.open, self.passed = key[0], self.block(key), ""
        if self.open.is_begun:
            self.open.faults.append(line.told("begins a second time"))
        self.open.is_begun = True

    def number(self, key: Key, line: Line) -> None:
        """A line of a numbered list, which has its number in front."""
        block = self.block(key)
        if block.is_begun and not block.is_numbered:
            block.faults.append(line.told("begins a second time"))
        block.is_begun = block.is_numbered = True
        block.lines.append(line)
        self.pass_over("command")

    def pass_over(self, what: str) -> None:
        self.open, self.passed = None, what


def head_of(words: list[str], dialect: str) -> Key | None:
    """The block that a head begins, if the words are one."""
    match words:
        case ["ip", "access-list", "extended", name] if dialect == "ios":
            return LIST, name
        case ["ip", "access-list", name] if dialect == "eos":
            return LIST, name
        case ["object-group", ("network" | "service") as kind, name] if dialect == "ios":
            return kind, name
    return None


def numbered(words: list[str], dialect: str) -> Key | None:
    """The numbered extended list of which the words are a line, if they are one."""
    if dialect == "ios" and len(words) > 1 and words[0] == "access-list" and is_number(words[1], 2699):
        number = int(words[1])
        if 100 <= number <= 199 or 2000 <= number:
            return LIST, words[1]
    return None
