"""What must hold of further runs over what a run wrote. Used by tests/fuzz/run."""
import os
import random
import re

from fuzz import texts
from fuzz.slots import Slots
from tcam_razor.grammar import MOST_ENTRIES

# Where what the run wrote stands, and what further runs write.
MADE, FURTHER = "table of it", "further"

NEEDED = re.compile(r"(\d+) entries needed, limit \d+\n")
FIRST_LINE = re.compile(r"table 2 slot \d+ composed (\d+) entries (\d+)\n")


class Further:
    """Runs of the program over what another run wrote. A run gives its status, what it wrote and what it said."""

    def __init__(self, started, read, seed):
        self.started, self.read, self.rng = started, read, random.Random(seed)

    def run(self, *words):
        status = self.started(list(words), out=FURTHER)
        return status, self.read(FURTHER), self.read("err")

    def faults(self, run):
        """What is wrong with a further run over what this one wrote, or nothing."""
        name, files = run.command.name, run.files()
        if (run.makes_table() or name == "trim") and run.status == 0:
            os.rename("out", MADE)
            return self.of_table(run) or (self.of_shortened(run) if name == "shorten" else self.of_trimmed(run) if name == "trim" else "")
        if name == "shorten" and NEEDED.fullmatch(run.err):
            return self.of_refused(run)
        if name == "equiv" and run.status in (0, 1):
            return self.of_compared(run)
        if name in ("verify", "prove") and run.status in (0, 1):
            return self.of_verified(run)
        if name == "cert" and run.status == 0:
            os.rename("out", "certificate of it")
            return "" if self.run("check", "--", *files, "certificate of it")[0] == 0 else "check refuses it"
        return Slots(self.run, self.read, self.rng).faults(run)

    def of_table(self, run):
        status, out, _ = self.run("migrate", MADE)
        return "" if (status, out) == (0, run.out) else "migrate changes it"

    def of_compared(self, run):
        status, out, _ = self.run("equiv", "--", *reversed(run.files()))
        words = run.out.split()
        words[6:] = reversed(words[6:])
        return "" if status == run.status and out.split() == words else "it compares otherwise from the other side"

    def of_verified(self, run):
        """What `verify` answers is shown by what `prove` writes, and by `cert` where that has an answer."""
        files = run.files()
        status, answer, _ = self.run("verify", "--", *files)
        proved = self.run("prove", "--", *files)[0]
        os.rename(FURTHER, "proof of it")
        if status != run.status or proved != status or run.command.name == "verify" and answer != run.out:
            return "it answers otherwise"
        checked = self.run("check", "--", *files, "proof of it")
        if checked[0] != status or not checked[1].startswith(f"valid {answer.strip()} pairs="):
            return f"check says {checked[1].strip()}"
        certified = self.run("cert", "--", *files)
        if certified[0] in (0, 1) and (certified[0] != status or status and certified[1] != answer):
            return "cert answers otherwise"
        return ""

    def of_shortened(self, run):
        """A shortened table is that of its list, needs each of its entries, and has no more than are allowed and promised."""
        [file], options = run.files(), run.options()
        composed, entries = map(int, FIRST_LINE.match(run.out).groups())
        if composed != entries or entries > int(options.get("--limit", MOST_ENTRIES)):
            return "more entries than it says, or than the limit"
        if self.run("trim", MADE)[:2] != (0, run.out):
            return "trim changes it"
        expanded = self.run("expand", "--", file)
        if expanded[0] == 0 and int(FIRST_LINE.match(expanded[1])[2]) < entries:
            return "it is longer than the expansion"
        if "--order" in options:
            arranged = self.run("arrange", "--order", options["--order"], "--", file)
            if arranged[0] == 0 and int(FIRST_LINE.match(arranged[1])[1]) < entries:
                return "it is longer than the least cost in its order"
        if self.run("verify", "--", file, MADE)[1] != "equal\n":
            return "verify says that it isn't the table of its list"
        status, out, _ = self.run("cert", "--", file, MADE)
        os.rename(FURTHER, "certificate of it")
        if status != 0:
            return f"cert: {out.strip()}"
        return "" if self.run("check", "--", file, MADE, "certificate of it")[0] == 0 else "check refuses its certificate"

    def of_refused(self, run):
        """No table comes only where the other ways need more than the limit too, and the lesser of them is said."""
        [file], options = run.files(), run.options()
        limit = ["--limit", options.get("--limit", str(MOST_ENTRIES))]
        others = [self.run("expand", *limit, "--", file)]
        if "--order" in options:
            others.append(self.run("arrange", "--order", options["--order"], *limit, "--", file))
        found = [NEEDED.fullmatch(err) for _, _, err in others]
        if not all(found):
            return "another command has a table within the limit"
        return "" if min(int(it[1]) for it in found) == int(NEEDED.fullmatch(run.err)[1]) else "it says another number than the others"

    def of_trimmed(self, run):
        """A trimmed table answers headers as the one that was read, and trim changes it no more."""
        with open("headers", "w") as file:
            file.writelines(" ".join(map(str, texts.header(self.rng))) + "\n" for _ in range(100))
        if self.run("trim", MADE)[:2] != (0, run.out):
            return "trim changes it again"
        return "" if self.run("trace", "--", run.files()[0], "headers")[:2] == self.run("trace", MADE, "headers")[:2] else "it answers otherwise"
