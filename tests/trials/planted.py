"""Plants faults in the importer, each in a copy of the package, and sees whether the trials of imports find them.

Two of the faults change nothing that can be seen: other prefixes that hold the same addresses, and the like.
"""
import pathlib
import shutil
import subprocess
import sys
import tempfile
import time
import typing

from model import cases

ROOT = pathlib.Path(__file__).resolve().parents[2]
# How many cases find a fault, if it can be found.
CASES = {"nft": 200, "iptables": 150, "access_lists": 200}
UNSEEN = 2


class Fault(typing.NamedTuple):
    """What stands in a file below `configurations`, what takes its place, and the trial that has to find it."""

    file: str
    old: str
    new: str
    trial: str


FAULTS = [Fault(*row) for row in (
    ("fields.py", "begin = high + 1", "begin = high + 2", "nft"),
    ("fields.py", "starts = [value & ~free & 0xFFFFFFFF]", "starts = [value & 0xFFFFFFFF]", "access_lists"),
    ("fields.py", "aligned = low & -low if low else 1 << 32", "aligned = low & -low if low else 1 << 31", "access_lists"),
    ("fields.py", "starts += [start | bit for start in starts]", "starts += [start | bit for start in starts[:1]]", "access_lists"),
    ("ios/ports.py", "found = fields.others(each, fields.EVERY_PORT)", "found = fields.others(each[:1], fields.EVERY_PORT)", "access_lists"),
    ("ios/ports.py", "fields.others(((0, values[0]),)", "fields.others(((0, values[0] - 1),)", "access_lists"),
    ("ios/ports.py", "fields.others(((values[0], 0xFFFF),)", "fields.others(((values[0] + 1, 0xFFFF),)", "access_lists"),
    ("ios/groups.py", "free = addresses.number_of(mask) ^ 0xFFFFFFFF", "free = addresses.number_of(mask)", "access_lists"),
    ("ios/groups.py", "((fields.TCP, fields.TCP), (fields.UDP, fields.UDP)) if", "((fields.TCP, fields.TCP),) if", "access_lists"),
    ("ios/groups.py", 'if numbers and words.next == "source"', 'if not numbers and words.next == "source"', "access_lists"),
    ("ios/entries.py", 'self.match_none_if(self.assumed.state == "new"', 'self.match_none_if(self.assumed.state == "established"', "access_lists"),
    ("ios/entries.py", "self.match_none_if(assumed_kind != kind or", "self.match_none_if(assumed_kind == kind or", "access_lists"),
    ("ios/lists.py", '[fields.WHOLE], "deny")', '[fields.WHOLE], "permit")', "access_lists"),
    ("names.py", '"cmd": 514', '"cmd": 513', "access_lists"),
    ("names.py", '"ospf": 89, "nos"', '"ospf": 88, "nos"', "access_lists"),
    ("listing.py", "for at in range(0, len(ports), MOST_RANGES)]", "for at in range(0, min(len(ports), MOST_RANGES), MOST_RANGES)]", "nft"),
    ("listing.py", "for low, high in protocols for number in range(low, high + 1)]\n\n\ndef", 'for low, high in protocols for number in range(low, high)] or ["0x00/0x00"]\n\n\ndef', "nft"),
    ("chains.py", "return self.enter(source, step, matched,", "return self.enter(source, step, step.boxes,", "nft"),
    ("chains.py", "(*behind, (name, at + 1))", "(*behind, (name, at))", "nft"),
    ("chains.py", 'if step.act == "goto" and not is_over:', 'if step.act == "goto" and is_over:', "nft"),
    ("chains.py", "if matched and not is_last:\n", "if matched and is_last:\n", "nft"),
    ("chains.py", "is_last = at + 1 == len(self.chains[name])", "is_last = at + 2 >= len(self.chains[name])", "nft"),
    ("chains.py", "            if not behind:\n", "            if behind:\n", "nft"),
    ("chains.py", "is_over = is_over or is_done and matched == live", "is_over = is_over or is_done", "nft"),
    ("nft/values.py", "span = (first, bound - 1)", "span = (first, bound)", "nft"),
    ("nft/values.py", "return fields.others(asked, kind.every)", "return fields.others(asked[:1], kind.every)", "nft"),
    ("nft/conditions.py", "fields.single(HEADERS[protocol])", "fields.single(6)", "nft"),
    ("nft/conditions.py", '("ipv4", 2)', '("ipv6", 2)', "nft"),
    ("nft/conditions.py", 'case "ip6" | "icmpv6", _:\n                raise Never("matches no IPv4 packet")', 'case "ip6" | "icmpv6", _:\n                return fields.WHOLE', "nft"),
    ("nft/conditions.py", 'return (self.assumed.state in asked) == (operator != "!=")', 'return (self.assumed.state in asked) == (operator == "!=")', "nft"),
    ("nft/conditions.py", 'zip(left, element["concat"])', 'zip(left[:1], element["concat"])', "nft"),
    ("nft/conditions.py", "return Box(protocols=fields.single(1))", "return fields.WHOLE", "nft"),
    ("nft/statements.py", "boxes = fields.meet(self.boxes, self.conditions.match({", "boxes = fields.meet([fields.WHOLE], self.conditions.match({", "nft"),
    ("iptables/rules.py", "if is_negated else source + destination", "if is_negated else source", "iptables"),
    ("iptables/rules.py", "return fields.meet(source, destination) if is_negated", "return source + destination if is_negated", "iptables"),
    ("iptables/rules.py", '"goto" if option == "-g" else "jump"', '"jump"', "iptables"),
    ("iptables/rules.py", '"65535" if colon else low', '"65534" if colon else low', "iptables"),
    ("iptables/rules.py", "fits = name == asked or", "fits = name != asked or", "iptables"),
    ("iptables/rules.py", 'name = "source" if option in', 'name = "destination" if option in', "iptables"),
    ("iptables/rules.py", "addresses.number_of(mask) ^ 0xFFFFFFFF", "addresses.number_of(mask) ^ 0xFFFFFFFE", "iptables"),
    ("iptables/rules.py", "fits = int(kind) in (255, assumed_kind) and (not slash or", "fits = int(kind) in (255, assumed_kind) and (slash or", "iptables"),
)]


def is_seen(fault, given):
    """Whether the fault's trial fails over a copy in which it is planted."""
    with tempfile.TemporaryDirectory() as folder:
        root = pathlib.Path(folder)
        for part in ("python", "tests", "tools"):
            shutil.copytree(ROOT / part, root / part, ignore=shutil.ignore_patterns("__pycache__"))
        path = root / "python/tcam_razor/configurations" / fault.file
        text = path.read_text()
        if text.count(fault.old) != 1:
            raise cases.Wrong(f"{fault.file} has {text.count(fault.old)} places for a fault: {fault.old}")
        path.write_text(text.replace(fault.old, fault.new))
        words = ["tests/try", "--program", given.program, "--seed", given.seed, "--runs", CASES[fault.trial], fault.trial]
        ended = subprocess.run([sys.executable, "-B", *map(str, words)], cwd=root, capture_output=True, text=True)
        if "1 skipped" in ended.stdout:
            raise cases.Skipped(ended.stdout.split("skipped: ", 1)[1].splitlines()[0])
        return ended.returncode != 0


def run(given):
    until, tried, unseen = cases.end_of(given), 0, []
    for number, fault in enumerate(FAULTS):
        if given.case in (None, number) and time.monotonic() < until and tried < (given.runs or len(FAULTS)):
            tried += 1
            if not is_seen(fault, given):
                unseen.append(f"{fault.file}: {fault.new}")
    if len(unseen) > UNSEEN or tried == len(unseen):
        raise cases.Wrong("\n".join(["faults that no trial saw:", *unseen]))
    return "\n".join([f"of {tried} planted faults {tried - len(unseen)} were seen", *(f"  not seen: {fault}" for fault in unseen)])
