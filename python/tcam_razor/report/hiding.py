"""Why a rule is never the first to match: the earlier rules that are first for the headers that it matches."""
from __future__ import annotations

import itertools
import time
from typing import Callable, Sequence

from tcam_razor.lists import Rule
from tcam_razor.razor import Ended
from tcam_razor.report.boxes import Box, meets

# As many calls may be made for one rule.
MOST_CALLS = 64


class Hiding:
    """A list whose rules decide their numbers, by its path, and how long it may be asked."""

    def __init__(self, run: Callable[..., Ended | None], path: str, rules: Sequence[Rule], seconds: float) -> None:
        self.run, self.path, self.rules = run, path, rules
        self.until = time.monotonic() + seconds

    def hiders(self, hidden: Rule) -> tuple[Rule, ...]:
        """The first rule that alone matches all that a rule matches which is never first, or else those that do so together.

        There are none where these are too many to be asked for, or there is no answer in time.
        """
        before = self.rules[: hidden.number - 1]
        alone = next((rule for rule in before if rule.covers(hidden)), None)
        return (alone,) if alone else self.together(before, list(itertools.product(*hidden.spans)))

    def together(self, before: Sequence[Rule], boxes: Sequence[Box]) -> tuple[Rule, ...]:
        """The rules that are first for a header of the boxes."""
        asked = [rule for rule in before if any(meets(rule, box) for box in boxes)]
        if len(asked) * len(boxes) > MOST_CALLS:
            return ()
        found = []
        for rule in asked:
            is_first = self.is_first(rule, boxes)
            if is_first is None:
                return ()
            if is_first:
                found.append(rule)
        return tuple(found)

    def is_first(self, rule: Rule, boxes: Sequence[Box]) -> bool | None:
        """Whether the rule is the first for a header of the boxes; None where that isn't known in time."""
        for box in boxes:
            if time.monotonic() > self.until:
                return None
            ended = self.run("query", "--", self.path, *(f"{low}-{high}" for low, high in box), f"#{rule.number}")
            if ended is None or ended.status != 0:
                return None
            if ended.lines[-1] != "boxes 0":
                return True
        return False
