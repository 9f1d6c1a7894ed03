"""Tries the built program on random cases, one after another, each drawn from a seed and its number alone."""
import collections
import random
import tempfile
import time

from tcam_razor.razor import Razor


class Wrong(Exception):
    """What is wrong with a case, in words."""


class Skipped(Exception):
    """What isn't there, so that nothing can be tried, and the Debian package that has it."""


def add_words(parser):
    """Gives a script the words that say which cases are tried."""
    parser.add_argument("--seed", type=int, default=1)
    parser.add_argument("--runs", type=int, help="how many cases are tried")
    parser.add_argument("--seconds", type=float, help="try no further case behind so many seconds")
    parser.add_argument("--case", type=int, help="try this case alone")


def try_all(given, trial, runs):
    """Calls `trial(razor, rng, seen)` for each case, each in an empty folder; gives how many there were, and what they counted.

    There are as many as are given, or else so many. The first case that is wrong ends it, and says how to try it again.
    """
    seen, count, until = collections.Counter(), 0, end_of(given)
    for case in range(given.runs or runs) if given.case is None else [given.case]:
        if time.monotonic() > until:
            break
        with tempfile.TemporaryDirectory() as folder:
            try:
                trial(Razor(given.program, folder), random.Random(f"{given.seed}/{case}"), seen)
            except Wrong as wrong:
                raise Wrong(f"{wrong}\nThis is case {case} of seed {given.seed}: --seed {given.seed} --case {case}") from None
        count += 1
    return count, seen


def end_of(given):
    """When no further case is begun."""
    return time.monotonic() + (given.seconds or float("inf"))
