"""A room to build one crate in: a small checkout of its own.

`rt` takes hold of a crate's folder and of all below it while it works, so in one checkout one crate is built at a time.
A room has copies of the sources of its crate and of those below, with what was built of those below; what `rt` made of
the crate earlier is moved into the room, and back when it is left.
"""
import contextlib
import os
import shutil
import subprocess

from building.sources import PARTS, ROOT, below

ROOMS = ROOT / "out/build"


def clear():
    """Removes the rooms that a build left which was cut off, and gives the crates back what was moved there."""
    for room in ROOMS.glob("*"):
        kept, home = room / "crates" / room.name / "out", ROOT / "crates" / room.name / "out"
        if kept.exists() and not home.exists():
            kept.rename(home)
    shutil.rmtree(ROOMS, ignore_errors=True)


@contextlib.contextmanager
def room(crates, crate):
    """The crate's folder in a room of its own, while it is built."""
    at = ROOMS / crate.name
    names = below(crates, crate.name)
    for name in names:
        copy_sources(crates[name], at / "crates" / name)
    for name in names[:-1]:
        # These files get a second name: `rt` makes a library anew, and changes none.
        shutil.copytree(crates[name].library, at / "crates" / name / "out/rlib", copy_function=os.link)
    (at / "crates.txt").write_text("".join(crates[name].line + "\n" for name in names))
    folder, home = at / "crates" / crate.name, crate.folder / "out"
    if home.exists():
        home.rename(folder / "out")
    try:
        yield folder
    finally:
        if (folder / "out").exists():
            (folder / "out").rename(home)
        shutil.rmtree(at)


def copy_sources(crate, folder):
    """Copies the sources of a crate, and the files that a program is run on."""
    folder.mkdir(parents=True)
    for entry in crate.folder.iterdir():
        if entry.name in PARTS:
            shutil.copytree(entry, folder / entry.name, copy_function=shutil.copyfile)
        elif entry.is_file():
            shutil.copyfile(entry, folder / entry.name)


def build(folder, crate, jobs, log):
    """Has `rt` build the crate in its room, and says whether it is built. A program is also run then, on words of its own."""
    command, given = ["rt", "lib", "--jobs", str(jobs)], folder / "stdin"
    made = folder / "out" / crate.name
    if crate.is_program:
        words = folder / "args"
        command = ["rt", "run", "--jobs", str(jobs), "--", *(words.read_text().splitlines() if words.exists() else [])]
        made.unlink(missing_ok=True)
    with open(given if given.exists() else os.devnull, "rb") as stdin:
        ended = subprocess.run(command, cwd=folder, stdin=stdin, stdout=log, stderr=subprocess.STDOUT)
    return made.exists() if crate.is_program else ended.returncode == 0
