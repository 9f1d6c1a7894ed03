"""Flags masks of a list, which take no part in matching. The program counts them, and doesn't refuse them.

This is the one place where the package looks for them itself. Once the program refuses them when it is asked to, this goes.
"""
from __future__ import annotations

import re

from .answers import List
from .errors import Flagged

# The column of the protocol, and that of the flags behind it.
FLAGS = re.compile(r"[ \t]0[xX][0-9A-Fa-f]{1,2}/0[xX][0-9A-Fa-f]{1,2}[ \t]+0[xX][0-9A-Fa-f]{1,4}/0[xX]([0-9A-Fa-f]{1,4})(?=[ \t\r]|$)")


def expect_none(rules: List) -> None:
    """Raises Flagged at the first rule with a flags mask. The list is one that the program has read without a fault."""
    for number, line in enumerate(rules.text.split("\n"), 1):
        found = None if line.lstrip(" \t").startswith("#") else FLAGS.search(line)
        if found and int(found[1], 16):
            raise Flagged(rules.name, f"line {number}: flags")
