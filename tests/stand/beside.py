"""The kernel beside a list: what every trial of a ruleset has in common."""
import contextlib
import os
import shutil

from tcam_razor.exporting import FOLDERS
from tcam_razor.judge.kernel import OWN, TAGS, Form, Kernel, Unavailable
from model import cases

# The interface by which packets come in.
INCOMING = "v1"
# What is assumed of a packet, and of which protocols packets are then sent: connection tracking takes others for invalid.
STATES = {None: None, "new": (6, 17, 1, 100), "untracked": None, "invalid": (6,)}

# Behind the chain that is judged: what comes out is logged, and ends.
LAST = f"""table ip last {{
 chain last {{
  type filter hook prerouting priority 300
  log prefix "passed" group {OWN}
  drop
 }}
}}
"""
UNTRACKED = "table ip untracked {\n chain first {\n  type filter hook prerouting priority -300\n  notrack\n }\n}\n"


@contextlib.contextmanager
def kernel(*tools):
    """A namespace in which these tools are run; Skipped where it can't be had."""
    for tool, package in tools:
        if shutil.which(tool, path=FOLDERS) is None:
            raise cases.Skipped(f"there is no {tool}, which Debian's package {package} has")
    try:
        judge = Kernel(INCOMING, "v2")
    except Unavailable as unavailable:
        raise cases.Skipped(str(unavailable)) from None
    with judge:
        yield judge


def name_program(given):
    """Lets the package call the program that is tried."""
    os.environ["RAZOR"] = str(given.program)


def drawn_state(rng):
    return rng.choice([None, None, "new", "untracked", "invalid"])


def assumed(state, **more):
    return {"in": INCOMING, "icmp": "8/0", "fragments": "no"} | ({"state": state} if state else {}) | more


def verdicts(judge, headers, state):
    """Of each header the tags that rules logged, and whether it was accepted."""
    for messages in judge.logged(headers, Form(is_spoiled=state == "invalid")):
        yield [prefix for group, prefix in messages if group == TAGS], (OWN, "passed") in messages


def expect_taken(listing, allowed):
    """Whether a configuration was imported; what is refused may be refused for few reasons alone."""
    others = [fault for fault in listing.faults if not any(reason in fault for reason in allowed)]
    if others:
        raise cases.Wrong(f"refused: {others[0]}")
    return not listing.faults


def expect_most_loaded(seen, count):
    """A draw that the kernel mostly refuses tries nothing."""
    if count >= 20 and seen["taken"] * 2 < count:
        raise cases.Wrong(f"of {count} rulesets {seen['taken']} were loaded and imported")
