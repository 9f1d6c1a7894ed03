"""The words of a line, taken one by one."""
from __future__ import annotations

from .listing import Refused


class Words:
    def __init__(self, words: list[str]) -> None:
        self.left = list(words)

    @property
    def next(self) -> str:
        """The word that is taken next, or nothing."""
        return self.left[0] if self.left else ""

    def take(self) -> str:
        if not self.left:
            raise Refused("ends too early")
        return self.left.pop(0)
