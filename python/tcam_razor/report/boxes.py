"""Boxes of headers, a span in each field: where two lists decide differently.

A header is decided differently only where a rule matches it that one of the lists hasn't: of two rules that both lists
have, in the same order, the earlier one that matches it decides in both. So only the boxes of such rules are asked for.
"""
import dataclasses
import functools
import itertools
import subprocess
import threading
import time
from typing import Callable, Iterable, Iterator, Sequence

from tcam_razor.headers import MISS, WHOLE, Header
from tcam_razor.lists import Rule
from tcam_razor.razor import Razor

# As many boxes are asked for apart; where there are more, one is asked for that holds all.
MOST_REGIONS = 64

# As many names are asked for in a box, and as many lines of each answer are read.
MOST_NAMES = 16
MOST_LINES = 200_000

Span = tuple[int, int]
# A span in each field.
Box = tuple[Span, ...]


@dataclasses.dataclass(frozen=True, order=True)
class Changed:
    """A box in which one list decides one name, and the other one another name."""

    box: Box
    old: str
    new: str

    @property
    def first(self) -> Header:
        """The least header of the box."""
        source, destination, source_port, destination_port, protocol = (low for low, _ in self.box)
        return Header(source, destination, source_port, destination_port, protocol)


@dataclasses.dataclass(frozen=True)
class Branch:
    """A span of a field, and the branches of the field behind it."""

    span: Span
    below: list["Branch"]


@dataclasses.dataclass(frozen=True)
class Search:
    """What was found, and whether that is all."""

    found: list[Changed]
    is_all: bool


def regions(rules: Sequence[Rule]) -> list[Box]:
    """Boxes that hold the headers that these rules match, no two of which meet."""
    found: list[Box] = []
    for box in itertools.chain.from_iterable(itertools.product(*rule.spans) for rule in rules):
        pieces = [box]
        for other in found:
            pieces = [left for piece in pieces for left in without(piece, other)]
        found += pieces
        if len(found) > MOST_REGIONS:
            return [hull(box for rule in rules for box in itertools.product(*rule.spans))]
    return found


def hull(boxes: Iterable[Box]) -> Box:
    """The smallest box that holds these boxes."""
    return tuple((min(low for low, _ in spans), max(high for _, high in spans)) for spans in zip(*boxes))


def without(box: Box, other: Box) -> list[Box]:
    """Boxes that hold what is in the first box and not in the other one."""
    if any(high < low_of_other or high_of_other < low for (low, high), (low_of_other, high_of_other) in zip(box, other)):
        return [box]
    found: list[Box] = []
    rest = list(box)
    for field, (low, high) in enumerate(other):
        first, last = rest[field]
        if first < low:
            found.append((*rest[:field], (first, low - 1), *rest[field + 1 :]))
        if high < last:
            found.append((*rest[:field], (high + 1, last), *rest[field + 1 :]))
        rest[field] = (max(first, low), min(last, high))
    return found


def meets(rule: Rule, box: Box) -> bool:
    """Whether a header of the box may match the rule."""
    return all(any(low <= last and first <= high for low, high in spans) for spans, (first, last) in zip(rule.spans, box))


class Lists:
    """Two lists of the program, by their paths and rules, and how long they may be asked."""

    def __init__(self, razor: Razor, paths: tuple[str, str], rules: Sequence[Rule], seconds: float) -> None:
        self.razor, self.paths, self.rules = razor, paths, rules
        self.seconds, self.until, self.is_all = seconds, 0.0, True

    def changed(self, rules: Sequence[Rule], most: int, is_sought: Callable[[str, str], bool]) -> Search:
        """The boxes in which the lists decide differently in the way that is sought, of those that these rules match.

        They come in rising order: so many are found at most in time, and then joined.
        """
        pieces: list[Changed] = []
        self.until = time.monotonic() + self.seconds
        for region in regions(rules):
            pieces += itertools.islice(self.differences(region, is_sought), most - len(pieces))
            if len(pieces) == most or time.monotonic() > self.until:
                self.is_all = False
                break
        return Search(joined(pieces), self.is_all)

    def differences(self, region: Box, is_sought: Callable[[str, str], bool]) -> Iterator[Changed]:
        for left, right in itertools.permutations(self.names(region), 2):
            if is_sought(left, right):
                old, new = self.boxes(self.paths[0], region, left), self.boxes(self.paths[1], region, right)
                for box in meeting(tree(old), tree(new)):
                    yield Changed(box, left, right)

    @functools.lru_cache(maxsize=None)
    def names(self, region: Box) -> list[str]:
        """What may be decided in a box, as many names as are asked for."""
        found = list(dict.fromkeys([MISS, *(rule.decision for rule in self.rules if meets(rule, region))]))
        self.is_all &= len(found) <= MOST_NAMES
        return found[:MOST_NAMES]

    @functools.lru_cache(maxsize=None)
    def boxes(self, path: str, region: Box, name: str) -> list[Box]:
        """The boxes of `query`, as many as are read in time."""
        spans = ["*" if span == whole else f"{span[0]}-{span[1]}" for span, whole in zip(region, WHOLE)]
        words = [self.razor.program, "query", "--", path, *spans, name]
        with subprocess.Popen(words, cwd=self.razor.folder, stdout=subprocess.PIPE, stderr=subprocess.DEVNULL, text=True) as running:
            assert running.stdout is not None
            late = threading.Timer(max(self.until - time.monotonic(), 0), running.kill)
            late.start()
            lines = list(itertools.islice(running.stdout, MOST_LINES))
            if len(lines) == MOST_LINES:
                running.kill()
            late.cancel()
        # The last line says how many there are.
        self.is_all &= running.returncode == 0
        return [box_of(line) for line in lines if not line.startswith("boxes ") and line.endswith("\n")]


def box_of(line: str) -> Box:
    pairs = (span.split("-") for span in line.split())
    return tuple((int(low), int(high)) for low, high in pairs)


def tree(boxes: list[Box]) -> list[Branch]:
    """The boxes as spans of the first field, each with the branches behind it; they come in rising order."""
    if not boxes or not boxes[0]:
        return []
    return [Branch(span, tree([box[1:] for box in group])) for span, group in itertools.groupby(boxes, key=lambda box: box[0])]


def meeting(left: list[Branch], right: list[Branch], front: Box = ()) -> Iterator[Box]:
    """The boxes in which a box of one tree meets one of the other."""
    if len(front) == len(WHOLE):
        yield front
        return
    at = 0
    for one in left:
        low, high = one.span
        while at < len(right) and right[at].span[1] < low:
            at += 1
        for other in itertools.takewhile(lambda it: it.span[0] <= high, itertools.islice(right, at, None)):
            yield from meeting(one.below, other.below, (*front, (max(low, other.span[0]), min(high, other.span[1]))))


def joined(pieces: list[Changed]) -> list[Changed]:
    """The same boxes with neighbours joined, field by field, the last one first."""
    for field in reversed(range(len(WHOLE))):
        pieces.sort(key=lambda it: (it.old, it.new, it.box[:field], it.box[field + 1 :], it.box[field]))
        pieces = list(runs(pieces, field))
    return sorted(pieces)


def runs(pieces: Iterable[Changed], field: int) -> Iterator[Changed]:
    """The pieces, where those that touch in the field and are alike otherwise are one."""
    whole: Changed | None = None
    for piece in pieces:
        if whole and alike(whole, piece, field) and whole.box[field][1] + 1 == piece.box[field][0]:
            span = (whole.box[field][0], piece.box[field][1])
            whole = dataclasses.replace(whole, box=(*whole.box[:field], span, *whole.box[field + 1 :]))
            continue
        if whole:
            yield whole
        whole = piece
    if whole:
        yield whole


def alike(left: Changed, right: Changed, field: int) -> bool:
    others = [[*it.box[:field], *it.box[field + 1 :], it.old, it.new] for it in (left, right)]
    return others[0] == others[1]
