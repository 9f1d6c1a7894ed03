"""The Rattle kit that `rt` belongs to."""
import functools
import pathlib
import subprocess


def said(word):
    return subprocess.run(["rt", word], capture_output=True, text=True, check=True).stdout.strip()


@functools.cache
def kit():
    """The folder of the kit."""
    return pathlib.Path(said("doc")).parent


@functools.cache
def version():
    """What the kit says of itself: its name, and behind it its logic."""
    return said("version")


def logic(version):
    """The logic of a kit, of what it says of itself."""
    return version.split()[-1]
