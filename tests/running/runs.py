"""Runs of the program over a row's files, and what came where something else was wanted."""
import dataclasses
import functools
import os
import pathlib
import shlex
import shutil
import subprocess
import tempfile

from running import texts
from running.rows import FAULTS, OUTPUTS

SECONDS = 120
SHOWN = 160


@dataclasses.dataclass(frozen=True)
class Ended:
    """How a run ended."""

    status: int
    out: bytes
    err: bytes


@dataclasses.dataclass(frozen=True)
class Result:
    """What came of a row: how many calls it made, and each difference as the lines that show it; or that it was skipped."""

    row: object
    calls: int = 0
    faults: tuple = ()
    skipped: bool = False


class Runner:
    """Runs rows with a program, each in a folder of its own below this one."""

    def __init__(self, program, folder):
        self.program, self.folder = program, pathlib.Path(folder)
        self.library = compiled(self.folder)

    def run(self, folder, words, given=b"", faults=None):
        """How the program ends in the folder on the words; with None in place of a status where it doesn't end."""
        extra = {FAULTS[key]: str(number) for key, number in (faults or {}).items()}
        if extra:
            extra["LD_PRELOAD"] = str(self.library)
        try:
            ended = subprocess.run(
                [self.program, *words], cwd=folder, env={**os.environ, **extra}, input=given, capture_output=True, timeout=SECONDS
            )
        except subprocess.TimeoutExpired as late:
            return Ended(None, late.stdout or b"", late.stderr or b"")
        return Ended(ended.returncode, ended.stdout, ended.stderr)

    def result(self, row):
        if row.faults and not self.library:
            return Result(row, skipped=True)
        with tempfile.TemporaryDirectory(dir=self.folder) as folder:
            return RowRun(self, row, pathlib.Path(folder)).result()


class RowRun:
    """The calls of one row, in its folder."""

    def __init__(self, runner, row, folder):
        self.runner, self.row, self.folder = runner, row, folder
        self.output_of = functools.lru_cache(None)(self.output)

    def output(self, words):
        ended = self.runner.run(self.folder, words)
        if ended.status != 0:
            raise ValueError(f"{shlex.join(words)} ended with {ended.status}: {shown(ended.err)}")
        return ended.out

    def made(self, text):
        return texts.made(text, self.row.shared, lambda words: self.output_of(tuple(words)))

    def wanted(self):
        """What is wanted of the outputs; where that is what a call writes, it writes something."""
        wanted = {key: self.made(self.row.said[key]) for key in OUTPUTS if key in self.row.said}
        for key, text in wanted.items():
            if not text and isinstance(self.row.said[key], dict):
                raise ValueError(f"nothing is wanted of {key}: {self.row.said[key]}")
        return wanted

    def result(self):
        calls, faults = 0, []
        try:
            files = {}
            for name, text in self.row.files.items():
                files[name] = self.made(text)
                (self.folder / name).write_bytes(files[name])
            given = self.made(self.row.said.get("given", ""))
            wanted = self.wanted()
            for case in self.row.cases():
                for name, length in case.fronts.items():
                    (self.folder / name).write_bytes(files[name][:length])
                ended = self.runner.run(self.folder, case.words, given, case.faults)
                calls += 1
                differences = [*differences_of(self.row.said["status"], wanted, case, ended)]
                if differences:
                    faults.append([said_of(case), *differences])
        except (OSError, ValueError) as fault:
            faults.append([f"not tried: {fault}"])
        return Result(self.row, calls, tuple(faults))


def differences_of(status, wanted, case, ended):
    if ended.status != status:
        yield f"status: wanted {status}, came {said_status(ended.status)}"
    if "out-begins" in wanted or "out-ends" in wanted:
        begins, ends = wanted.get("out-begins", b""), wanted.get("out-ends", b"")
        if not ended.out.startswith(begins):
            yield from difference("out begins", begins, ended.out[: len(begins)])
        if not ended.out.endswith(ends):
            yield from difference("out ends", ends, ended.out[-len(ends) :])
    else:
        # What there is room for, where it is said.
        yield from difference("out", wanted.get("out", b"")[: case.faults.get("room")], ended.out)
    yield from difference("err", wanted.get("err", b""), ended.err)


def difference(what, wanted, came):
    """The first line in which the texts differ, if they do."""
    if wanted == came:
        return
    ours, theirs = wanted.splitlines(keepends=True), came.splitlines(keepends=True)
    place = next((place for place, (left, right) in enumerate(zip(ours, theirs)) if left != right), min(len(ours), len(theirs)))
    ours, theirs = (lines[place] if place < len(lines) else None for lines in (ours, theirs))
    yield f"{what}: line {place + 1}"
    yield f"  wanted {shown(ours)}"
    yield f"  came   {shown(theirs)}"


def shown(text):
    """A text in one line, cut where it is long."""
    if text is None:
        return "no line"
    line = repr(text)[1:]
    return line if len(line) <= SHOWN else f"{line[:SHOWN]}.. ({len(text):,} bytes)"


def said_status(status):
    if status is None:
        return f"no end in {SECONDS} seconds"
    return f"signal {-status}" if status < 0 else str(status)


def said_of(case):
    """A case in a line: its words, and what it meets."""
    met = [f"{key} {number}" for key, number in case.faults.items()]
    cut = [f"{name} cut at {length} bytes" for name, length in case.fronts.items()]
    return ", ".join([f"razor {shlex.join(case.words)}", *met, *cut])


def compiled(folder):
    """The library of faults, compiled into the folder; None where there is no C compiler."""
    compiler = shutil.which("cc") or shutil.which("gcc") or shutil.which("clang")
    if compiler is None:
        return None
    library = folder / "faults.so"
    source = texts.ROOT / "tests/edge/faults.c"
    subprocess.run([compiler, "-shared", "-fPIC", "-O1", "-Wall", "-o", library, source, "-ldl"], check=True)
    return library
