"""What the program answers, as JSON, for pipelines.

    razor-json equiv A B
    razor-json audit [--map MAP] LIST

Files are named by their paths, or by `-` for standard input. `--map` names the map that razor-import wrote with the list; then
each rule has the place and the text of the line that it comes from. A list with a flags mask, which takes no part, is refused,
unless `--flags count` is said.

The status is that of the program: 0, and of equiv 1 where the lists differ; 2 for wrong words, 3 for bad lines, 126 where
there is no program.
"""
from __future__ import annotations

import argparse
import json
from typing import Any, Callable

from . import commands, lines, program, razor, script
from .answers import List
from .configurations.listing import dotted
from .errors import BadText
from .headers import Header

VERSION = 1


def header_data(header: Header | None) -> dict[str, Any] | None:
    if header is None:
        return None
    return header._asdict() | {"source": dotted(header.source), "destination": dotted(header.destination)}


def equiv_data(left: List, right: List, flags: bool) -> dict[str, Any]:
    """Whether two lists decide alike, else the least header on which they don't, and what each decides."""
    found = program.equiv(left, right, flags=flags)
    if found is None:
        return {"version": VERSION, "equal": True, "header": None, "left": None, "right": None}
    return {"version": VERSION, "equal": False, "header": header_data(found.header), "left": found.left, "right": found.right}


def audit_data(rules: List, found: lines.Map | None, flags: bool) -> dict[str, Any]:
    """Of each rule its state, a header that shows it, and where it comes from."""
    states = program.audit(rules, flags=flags)
    owners = found.owners() if found else {}
    if found and found.rules != len(states):
        raise ValueError(f"a map of {found.rules} rules, and a list of {len(states)}")
    return {"version": VERSION, "rules": [
        {"number": state.number, "state": state.state, "header": header_data(state.header), "source": source_data(owners.get(state.number))}
        for state in states
    ]}


def source_data(row: lines.Row | None) -> dict[str, str] | None:
    return {"place": row.place, "text": row.text} if row else None


def read(file: str) -> List:
    return List(commands.read(file), file)


def answered(asked: argparse.Namespace) -> dict[str, Any]:
    flags = asked.flags == "count"
    if asked.command == "equiv":
        return equiv_data(read(asked.left), read(asked.right), flags)
    try:
        found = lines.parsed(commands.read(asked.map)) if asked.map is not None else None
        return audit_data(read(asked.list), found, flags)
    except ValueError as fault:
        raise BadText(asked.map, str(fault)) from None


def run(words: list[str]) -> int:
    parser = script.words(__doc__)
    inner = parser.add_subparsers(dest="command", required=True, metavar="COMMAND")
    equiv = inner.add_parser("equiv", allow_abbrev=False)
    equiv.add_argument("left", metavar="A")
    equiv.add_argument("right", metavar="B")
    audit = inner.add_parser("audit", allow_abbrev=False)
    audit.add_argument("--map", metavar="MAP")
    audit.add_argument("list", metavar="LIST")
    for command in (equiv, audit):
        command.add_argument("--flags", choices=("refuse", "count"), default="refuse")
    data = answered(parser.parse_args(words))
    commands.answer(json.dumps(data) + "\n")
    return commands.DONE if data.get("equal", True) else commands.DIFFERENT


def call(program_of: Callable[[], str] = razor.found) -> None:
    """Runs the command; the function finds the program where RAZOR names none."""
    program.find_by(program_of)
    commands.call(run)
