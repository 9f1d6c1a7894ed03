"""The programs that scripts run."""
import os
import pathlib
import shutil
import subprocess
import sys

from building.sources import ROOT, below, checksums, listed, note
from tcam_razor.script import shown

# The variables of the environment by which the program of a crate can be given.
GIVEN = {"razor_cli": "RAZOR", "razor_bench": "RAZOR_BENCH"}

# The command that prints the path of a program which runs what the sources say, proved or not; the others are always proved.
READY = {"razor_cli": ("tools/program",)}


def program(crate, given=None):
    """The path of a crate's program: the one that is given or that the environment names, or the one that is there or built."""
    return found_or_made(crate, given, READY.get(crate, ("tools/build", crate)))


def proved(crate, given=None):
    """The path of a crate's program: the one that is given or that the environment names, or else one that is proved."""
    return found_or_made(crate, given, ("tools/build", crate))


def found_or_made(crate, given, command):
    name = given or os.environ.get(GIVEN[crate])
    return found(name) if name else made(*command)


def found(name):
    path = shutil.which(name)
    if path is None:
        raise ValueError(f"there is no program {shown(name)}")
    return os.path.abspath(path)


def made(command, *words):
    """The path that a command of the repository prints; where it makes no program, it has said why."""
    ended = subprocess.run([ROOT / command, *words], stdin=subprocess.DEVNULL, stdout=subprocess.PIPE, text=True)
    if ended.returncode != 0:
        sys.exit(ended.returncode)
    return ended.stdout.strip()


def is_proved(crate, path):
    """Whether the note beside a crate's program says that it was proved and built of the sources here."""
    crates, beside = listed(), pathlib.Path(f"{path}.sources")
    checksum = checksums(crates, below(crates, crate))[crate]
    return beside.exists() and beside.read_text() == note(crates[crate], checksum, pathlib.Path(path))
