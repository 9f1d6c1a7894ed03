"""Rows as they stand in tests/rows, read and checked for their form. tests/README.md says what each key means."""
import dataclasses
import itertools
import tomllib

from running import texts

FOLDER = texts.ROOT / "tests/rows"

# What a run may meet, each a number or several: the key of a row, and the variable of tests/edge/faults.c.
FAULTS = {
    "reads-at-most": "FAULTS_READS_AT_MOST",
    "failing-read": "FAULTS_FAILING_READ",
    "failing-write": "FAULTS_FAILING_WRITE",
    "failing-write-err": "FAULTS_FAILING_WRITE_ERR",
    "room": "FAULTS_ROOM",
}

# Faults that are counted from 1.
COUNTED = set(FAULTS) - {"room"}

CALLS = ("call", "words", "calls")
OUTPUTS = ("out", "out-begins", "out-ends", "err")
KEYS = {"name", "files", "given", "status", *CALLS, *OUTPUTS, *FAULTS}


@dataclasses.dataclass(frozen=True)
class Case:
    """One run of a row: its words, the faults that it meets, and the numbers of bytes at which its files are cut."""

    words: list
    faults: dict
    fronts: dict


@dataclasses.dataclass(frozen=True)
class Row:
    """A row, with the texts of its file."""

    path: str
    said: dict
    shared: dict

    @property
    def name(self):
        return self.said["name"]

    @property
    def files(self):
        return self.said.get("files", {})

    @property
    def calls(self):
        [key] = [key for key in CALLS if key in self.said]
        calls = self.said[key] if key == "calls" else [self.said[key]]
        return [texts.words_of(call) for call in calls]

    @property
    def faults(self):
        return {key: texts.numbers_of(self.said[key]) for key in FAULTS if key in self.said}

    @property
    def fronts(self):
        """The files that are cut at several places, each in turn, and these places."""
        cut = {name: texts.fronts_of(text) for name, text in self.files.items()}
        return {name: places for name, places in cut.items() if places}

    def cases(self):
        faults, fronts = self.faults, self.fronts
        for words in self.calls:
            for numbers in itertools.product(*faults.values(), *fronts.values()):
                met, cut = numbers[: len(faults)], numbers[len(faults) :]
                yield Case(words, dict(zip(faults, met)), dict(zip(fronts, cut)))


def check(row, used):
    """Sees that a row has the form of one, and that it can fail."""
    said = row.said
    unknown = set(said) - KEYS
    if unknown:
        raise ValueError(f"unknown: {', '.join(sorted(unknown))}")
    if not isinstance(said.get("name"), str) or not said["name"]:
        raise ValueError("it has no name")
    if sum(key in said for key in CALLS) != 1:
        raise ValueError("it has not one of call, words and calls")
    if not row.calls:
        raise ValueError("it calls nothing")
    if type(said.get("status")) is not int:
        raise ValueError("it has no status")
    if "out" in said and ("out-begins" in said or "out-ends" in said):
        raise ValueError("it has two outputs")
    if any(said.get(key) == "" for key in ("out-begins", "out-ends")):
        raise ValueError("every output begins and ends with nothing")
    if "room" in said and "out" not in said:
        raise ValueError("it has room, and no output that is cut there")
    if any(0 in numbers for key, numbers in row.faults.items() if key in COUNTED):
        raise ValueError("reads, writes and their bytes are counted from 1")
    if not isinstance(row.files, dict) or any("/" in name for name in row.files):
        raise ValueError("its files have no names of a folder's files")
    for text in (*row.files.values(), *(said[key] for key in ("given", *OUTPUTS) if key in said)):
        texts.check(text, row.shared, used)
    if any(len(texts.fronts_of(said[key])) > 1 for key in ("given", *OUTPUTS) if key in said):
        raise ValueError("only files are cut at several places")


def read(path, faults):
    """The rows of a file; what is wrong with its form is put among the faults."""
    name = str(path.relative_to(texts.ROOT)) if path.is_relative_to(texts.ROOT) else str(path)
    try:
        said = tomllib.loads(path.read_text())
    except ValueError as fault:
        faults.append(f"{name}: {fault}")
        return []
    shared, used = said.pop("texts", {}), set()
    rows = [Row(name, row, shared) for row in said.pop("row", [])]
    faults.extend(f"{name}: unknown: {key}" for key in said)
    if not rows:
        faults.append(f"{name}: it has no rows")
    for place, row in enumerate(rows, 1):
        try:
            check(row, used)
        except (ValueError, TypeError) as fault:
            faults.append(f"{name}: {row.said.get('name') or f'row {place}'}: {fault}")
    before = set()
    for key, text in shared.items():
        try:
            texts.check(text, before, used)
        except (ValueError, TypeError) as fault:
            faults.append(f"{name}: text {key}: {fault}")
        before.add(key)
    names = [row.said.get("name") for row in rows]
    faults.extend(f"{name}: {it}: two rows have this name" for it in sorted({it for it in names if it and names.count(it) > 1}))
    faults.extend(f"{name}: text {key}: no row uses it" for key in shared if key not in used)
    return rows
