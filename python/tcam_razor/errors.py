"""How the program and this package fail, as exceptions by status. Their messages are the program's own."""
from __future__ import annotations

import re

LINE = re.compile(r"line (\d+): (.*)", re.DOTALL)


class RazorError(Exception):
    """The program ended otherwise than with an answer."""

    status = -1

    def __init__(self, message: str) -> None:
        super().__init__(message)
        self.message = message


class Misuse(RazorError):
    """The words are no command of the program: a limit or another value is out of its range."""

    status = 2


class BadText(RazorError):
    """A text has a bad line, or doesn't fit: `file` is the caller's name of it, `line` is 0 where no line is named."""

    status = 3

    def __init__(self, file: str, told: str) -> None:
        super().__init__(f"{file}: {told}" if file else told)
        found = LINE.fullmatch(told)
        self.file = file
        self.line = int(found[1]) if found else 0
        self.reason = found[2] if found else told


class Flagged(BadText):
    """A rule of the list has a flags mask, which takes no part; say `flags=True` where that is meant."""


class NotImported(BadText):
    """Lines of a configuration have no exact form as rules: `faults` are all of them."""

    def __init__(self, file: str, faults: tuple[str, ...]) -> None:
        super().__init__(file, faults[0])
        self.faults = faults


class NotExported(NotImported):
    """A list has no exact form as a configuration, or the one that was written decides a header otherwise."""


class TooMany(RazorError):
    """An input is too long, or more entries or slots are needed than there may be."""

    status = 4


class ReadFault(RazorError):
    """The program couldn't read a text."""

    status = 5


class WriteFault(RazorError):
    """The program couldn't write its answer."""

    status = 6


class OutOfMemory(RazorError):
    """The system refused memory."""

    status = 7


class NotFound(RazorError):
    """There is no program: neither does RAZOR name one that can be run, nor has PATH a `razor`; or nft isn't there."""

    status = 126


BY_STATUS = {kind.status: kind for kind in (Misuse, TooMany, ReadFault, WriteFault, OutOfMemory)}
