"""The crates of crates.txt, with checksums of the sources that each is built of."""
import contextlib
import dataclasses
import functools
import hashlib
import os
import pathlib

ROOT = pathlib.Path(__file__).resolve().parent.parent.parent
PARTS = ("src", "specs", "proofs")


@dataclasses.dataclass(frozen=True)
class Crate:
    """A crate: its line of crates.txt, and the crates of the repository that it names there."""

    name: str
    line: str
    needs: tuple

    @property
    def folder(self):
        return ROOT / "crates" / self.name

    @property
    def is_program(self):
        return (self.folder / "src/main.rt").exists()

    @property
    def program(self):
        return self.folder / "out" / self.name

    @property
    def library(self):
        return self.folder / "out/rlib"

    @property
    def stamp(self):
        """Where it is noted of which sources the crate was built; `rt` removes it with the library."""
        return self.program.with_suffix(".sources") if self.is_program else self.library / "sources"

    @functools.cached_property
    def lines(self):
        return sum(path.read_bytes().count(b"\n") for path in self.files())

    def files(self):
        for part in PARTS:
            for at, folders, names in os.walk(self.folder / part):
                folders.sort()
                yield from (pathlib.Path(at) / name for name in sorted(names))


def listed():
    """The crates by their names, as crates.txt has them."""
    lines = [line.partition("#")[0].strip() for line in (ROOT / "crates.txt").read_text().splitlines()]
    rows = [(line.split(":")[0].split()[0], line) for line in lines if line]
    names = {name for name, _ in rows}
    return {name: Crate(name, line, tuple(it for it in line.partition(":")[2].split() if it in names)) for name, line in rows}


def below(crates, name):
    """The crate and those that it stands on, each behind those that it needs."""
    found = {}

    def visit(crate):
        if crate.name not in found:
            for other in crate.needs:
                visit(crates[other])
            found[crate.name] = crate

    visit(crates[name])
    return list(found)


def checksums(crates, names):
    """A checksum for each of these crates: of its line, of its sources, and of those that it stands on."""
    found = {}
    for name in names:
        crate = crates[name]
        whole = hashlib.sha256(crate.line.encode())
        for path in crate.files():
            whole.update(f"\n{path.relative_to(crate.folder)}\n".encode())
            whole.update(hashlib.sha256(path.read_bytes()).digest())
        whole.update("".join(found[it] for it in crate.needs).encode())
        found[name] = whole.hexdigest()
    return found


def note(crate, checksum, program=None):
    """What is noted of a crate that was proved and built of these sources: for a program, here or elsewhere, with a checksum of its own."""
    return f"{checksum} {hashlib.sha256((program or crate.program).read_bytes()).hexdigest()}\n" if crate.is_program else f"{checksum}\n"


def is_current(crate, checksum):
    """Whether the crate is built of these sources."""
    made = crate.program if crate.is_program else crate.library / f"{crate.name}.rlib"
    return made.exists() and crate.stamp.exists() and crate.stamp.read_text() == note(crate, checksum)


def put_note(crate, checksum):
    # Other checkouts may have second names for the files of a library.
    crate.stamp.unlink(missing_ok=True)
    crate.stamp.write_text(note(crate, checksum))


def mark(path, moment):
    """Gives a note on a program the time at which the sources were those that it was built of: `razor` compares times."""
    # Whoever may not write here still may run the program; and another build may have just moved it.
    with contextlib.suppress(OSError):
        os.utime(path, (moment, moment))
