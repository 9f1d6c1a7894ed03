"""The program, and runs of it in a folder."""
import dataclasses
import os
import pathlib
import shutil
import subprocess
import sys
from typing import Iterable

from tcam_razor.errors import NotFound
from tcam_razor.program import in_path
from tcam_razor.script import shown


@dataclasses.dataclass(frozen=True)
class Ended:
    """How a run ended: its status, what it wrote and what it said."""

    status: int
    out: str
    err: str

    @property
    def lines(self) -> list[str]:
        return self.out.splitlines()


def written(lines: Iterable[object]) -> str:
    """The text of lines."""
    return "".join(f"{line}\n" for line in lines)


def found(given: str | None = None) -> str:
    """The path of the program: the one that is given or that the variable RAZOR names, or that lies beside the script or is found as commands are."""
    name = given or os.environ.get("RAZOR")
    if name:
        return path_of(name)
    beside = shutil.which("razor", path=str(pathlib.Path(sys.argv[0]).parent))
    return os.path.abspath(beside or in_path())


def path_of(name: str) -> str:
    path = shutil.which(name)
    if path is None:
        raise NotFound(f"there is no program {shown(name)}")
    return os.path.abspath(path)


class Razor:
    """The program, run in a folder."""

    def __init__(self, program: str, folder: str | os.PathLike[str]) -> None:
        self.program, self.folder = program, pathlib.Path(folder)

    def run(self, *words: object, given: str = "", seconds: float | None = None) -> Ended:
        """How the program ends on these words, with a text as its standard input."""
        ended = subprocess.run([self.program, *map(str, words)], cwd=self.folder, input=given, capture_output=True, text=True, timeout=seconds)
        return Ended(ended.returncode, ended.stdout, ended.stderr)

    def made(self, *words: object, given: str = "") -> str:
        """What the program writes on these words, which must be right."""
        ended = self.run(*words, given=given)
        if ended.status != 0:
            raise ValueError(f"razor {' '.join(map(str, words))} ended with {ended.status}: {ended.err}")
        return ended.out

    def put(self, name: str, text: str) -> pathlib.Path:
        """Writes a file of the folder, and gives its path."""
        path = self.folder / name
        path.write_text(text)
        return path
