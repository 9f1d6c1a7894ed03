"""The sources that the gate proved, as the file PROVED at the root says: a checksum of them, and the logic that proved them.

They are all that the program and its proofs are made of: HANDLES, and of the program's crate and those below it their lines of
crates.txt and what lies in src, specs and proofs.
"""
import hashlib

from building.kit import logic
from building.sources import ROOT, below, checksums

FILE = ROOT / "PROVED"
PROGRAM = "razor_cli"


def checksum(crates):
    whole = hashlib.sha256((ROOT / "HANDLES").read_bytes())
    whole.update(checksums(crates, below(crates, PROGRAM))[PROGRAM].encode())
    return whole.hexdigest()


def text(crates, version):
    """What the file says where a kit of this version proves the sources as they are."""
    return f"sources {checksum(crates)}\nlogic {logic(version)}\n"


def written():
    """What the file says: the words behind `sources` and `logic`; nothing where there is no file."""
    lines = FILE.read_text().splitlines() if FILE.exists() else []
    return dict(line.split(" ", 1) for line in lines)


def are_current(crates, version=None):
    """Whether the sources are those that the gate proved, and where a version is given, whether that kit has its logic."""
    said = written()
    return said.get("sources") == checksum(crates) and (version is None or said.get("logic") == logic(version))
