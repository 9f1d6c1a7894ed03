"""How the commands of this package read their words, read and write files, and end."""
from __future__ import annotations

import argparse
import sys
from typing import Any, Callable

from . import script
from .errors import RazorError, ReadFault, WriteFault

# Statuses; those of the program.
DONE, DIFFERENT, REFUSED = 0, 1, 3


class Pairs(argparse.Action):
    """An option of the form KEY=VALUE, each key at most once."""

    def __call__(self, parser: argparse.ArgumentParser, namespace: argparse.Namespace, values: Any, option: str | None = None) -> None:
        key, equals, value = str(values).partition("=")
        pairs = dict(getattr(namespace, self.dest))
        if not key or not equals or key in pairs:
            parser.error(f"{option} {values}: KEY=VALUE, each key once")
        setattr(namespace, self.dest, pairs | {key: value})


def count(word: str) -> int:
    """A positive number."""
    if not (word.isascii() and word.isdigit() and 0 < int(word)):
        raise argparse.ArgumentTypeError(f"{word} is no number from 1 on")
    return int(word)


def read(file: str) -> str:
    """The text of a file, or of standard input for `-`. Bytes that aren't UTF-8 stay as they are."""
    try:
        if file == "-":
            return sys.stdin.buffer.read().decode("utf-8", "surrogateescape")
        with open(file, "rb") as opened:
            return opened.read().decode("utf-8", "surrogateescape")
    except OSError:
        raise ReadFault(f"{file}: read fault") from None


def write(file: str, text: str) -> None:
    try:
        with open(file, "wb") as opened:
            opened.write(text.encode("utf-8", "surrogateescape"))
    except OSError:
        raise WriteFault(f"{file}: write fault") from None


def answer(text: str) -> None:
    """Writes the answer to standard output, whole."""
    sys.stdout.buffer.write(text.encode("utf-8", "surrogateescape"))
    sys.stdout.buffer.flush()


def tell(line: str) -> None:
    """Says something beside the answer, in one line, of which nothing is obeyed by a terminal."""
    print(script.shown(line), file=sys.stderr)


def call(command: Callable[[list[str]], int]) -> None:
    """Runs a command on the words that the process was given, and ends with its status."""
    script.run(lambda: sys.exit(status_of(command)))


def status_of(command: Callable[[list[str]], int]) -> int:
    """How a command ends; where that is with a fault, it is told as the program tells its own."""
    try:
        return command(sys.argv[1:])
    except RazorError as fault:
        tell(fault.message)
        return fault.status
