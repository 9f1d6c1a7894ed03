"""How long proving may take, by what each crate cost the last time: the table that `tools/costs` wrote into bench/COSTS.md."""
import re

from building.schedule import way
from building.sources import ROOT

FILE = ROOT / "bench/COSTS.md"

# What a build does of all that the table has columns for.
KINDS = ("proof", "compiling")


def seconds():
    """The processor seconds of each crate's build; nothing where there is no table."""
    rows = [re.split(r" *\| *", line.strip("| ")) for line in FILE.read_text().splitlines() if line.startswith("|")] if FILE.exists() else []
    if not rows:
        return {}
    columns = [rows[0].index(kind) for kind in KINDS]
    return {row[0].strip("`"): sum(float(row[at]) for at in columns) for row in rows[2:] if row[0].startswith("`")}


class Forecast:
    """How long a build of some crates may take, each of which needs others of them."""

    def __init__(self, needs, jobs):
        known = seconds()
        self.needs, self.jobs = needs, jobs
        self.cost = {name: known[name] for name in needs if name in known}

    def minutes(self, left):
        """The minutes for the crates that are left; none where one of them isn't known."""
        if not all(name in self.cost for name in left):
            return None
        needs = {name: [it for it in self.needs[name] if it in left] for name in left}
        longest = max(way(needs, self.cost).values(), default=0)
        return max(longest, sum(self.cost[name] for name in left) / self.jobs) / 60
