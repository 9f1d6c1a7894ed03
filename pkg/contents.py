"""What others get: the program, scripts that show its texts, its manual, completions for shells, documents and examples.

Each part is a dict from paths to bytes; what is run is told by `mode`.
"""
import functools
import pathlib

import commands
from building import programs
from building.sources import ROOT
from completions import SHELLS
from tcam_razor import grammar

# The folder with the scripts' sources, below a prefix.
SOURCES = "share/tcam-razor"

# A script that is called as a command; its folder stands beside that of the sources.
SCRIPT = """#!/usr/bin/env -S python3 -B
import pathlib
import sys

sys.path[0] = str(pathlib.Path(__file__).resolve().parent.parent / "{sources}")

from tcam_razor import {module}

{module}.call()
"""

# The commands, and the modules that they call.
COMMANDS = {
    "razor-export": "exporting",
    "razor-flows": "flows",
    "razor-import": "importing",
    "razor-json": "data",
    "razor-judge": "judge",
    "razor-lines": "lines",
    "razor-report": "report",
    "razor-show": "show",
}

DOCUMENTS = (".md", ".svg", ".png")

# What is of use beside the sources alone.
OF_SOURCES = ("PROVING.md",)

# What the README of a program says first that isn't proved.
UNPROVED = "**This program isn't proved.** It is built of the sources of a verified compiler, but nobody has proved it as it was built: what is said below of a verified one doesn't hold of it."


def program():
    """The program that the variable RAZOR names, or the one that is there or built."""
    return pathlib.Path(path_of_program()).read_bytes()


@functools.cache
def path_of_program():
    return programs.program("razor_cli")


@functools.cache
def is_proved():
    """Whether the program is known to be proved, of the sources here."""
    return programs.is_proved("razor_cli", path_of_program())


def manual():
    """The pages of the manual."""
    return {page.name: page.read_bytes() for page in sorted((ROOT / "docs/man").glob("*.[1-9]"))}


def completions():
    """The completions, by the shells' names."""
    forms = grammar.forms(grammar.usage(path_of_program()))
    unfit = list(commands.faults(forms))
    if unfit:
        raise ValueError("docs/commands doesn't fit the usage text of the program:\n" + "\n".join(unfit))
    return {name: "".join(line + "\n" for line in lines(list(forms.values()))).encode() for name, lines in SHELLS.items()}


def documents():
    """What is written below docs/ for those who have the program."""
    return below(ROOT / "docs", lambda path: path.suffix in DOCUMENTS and path.name not in OF_SOURCES)


def examples():
    return below(ROOT / "examples", lambda path: True)


def scripts(folder=SOURCES):
    """The scripts that want nothing but Python, and in this folder their sources, below a prefix."""
    sources = below(ROOT / "python", lambda path: path.suffix in (".py", ".css", ".typed") and "tcam_razor" in path.parts)
    commands = {f"bin/{command}": SCRIPT.format(sources=folder, module=module).encode() for command, module in COMMANDS.items()}
    return {**commands, **under(folder, sources)}


def readme(proved):
    """The README of an installed program."""
    title, text = (ROOT / "pkg/README.md").read_text().split("\n\n", 1)
    return "\n\n".join([title, *([] if proved else [UNPROVED]), text]).encode()


def below(folder, is_wanted):
    return {str(path.relative_to(folder)): path.read_bytes() for path in sorted(folder.rglob("*")) if path.is_file() and is_wanted(path)}


def mode(data):
    """The mode of a file: programs and scripts can be run."""
    return 0o755 if data.startswith((b"\x7fELF", b"#!")) else 0o644


def under(front, files):
    """The files with their paths below a folder."""
    return {f"{front}/{path}": data for path, data in files.items()}
