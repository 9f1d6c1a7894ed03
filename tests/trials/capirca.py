"""Tries the imports by a third hand: capirca writes one drawn policy for IOS, EOS and iptables, and the kernel judges the last.

The lists that are imported from all three texts must decide as the kernel does.
"""
import functools

from tcam_razor import importing
from model import cases
from stand import beside, policies
from stand.first_match import corners, decided, read

HEADERS = 80
RUNS = 250
CALL = {"permit": "accept", "deny": "drop"}


def restored(text):
    """The text of capirca, which are commands, as one for iptables-restore, at a hook that packets of a wire meet."""
    lines = [line.replace(" INPUT", " PREROUTING") for line in text.splitlines() if line.startswith("-")]
    chains = [f":{line[3:]} - [0:0]" for line in lines if line.startswith("-N")]
    return "\n".join(["*mangle", ":PREROUTING DROP [0:0]", *chains, *(line for line in lines if line.startswith("-A")), "COMMIT", ""])


def trial(judge, razor, rng, seen):
    made = policies.texts(rng, razor.folder)
    if made is None:
        return
    seen["taken"] += 1
    ios, eos, commands = made
    judge.run("nft", "flush", "ruleset")
    judge.run("iptables-legacy-restore", text=restored(commands))
    judge.run("nft", "-f", "-", text=beside.LAST)
    saved = judge.run("iptables-legacy-save", "-t", "mangle")
    lists = {}
    for dialect, pick, text in (("ios", "EDGE", ios), ("eos", "EDGE", eos), ("iptables", "mangle PREROUTING", saved)):
        listing = importing.read(dialect, text, pick, call=CALL, most=65536).listing
        if listing.faults:
            raise cases.Wrong(f"{dialect}: refused: {next(iter(listing.faults))}\n{text}")
        lists[dialect] = read(listing.rules)
    headers = [header for rules in lists.values() for header in corners(rules, rng, HEADERS)]
    for header, (_, is_accepted) in zip(headers, beside.verdicts(judge, headers, None)):
        seen["headers"] += 1
        for dialect, rules in lists.items():
            if (decided(rules, header)[1] == "accept") != is_accepted:
                raise cases.Wrong(f"the list of {dialect} decides {header} {decided(rules, header)}, and the kernel accepts it: {is_accepted}\n{made}")


def run(given):
    tools = ("nft", "nftables"), ("iptables-legacy", "iptables"), ("ip", "iproute2"), ("aclgen", "python3-capirca")
    with beside.kernel(*tools) as judge:
        count, seen = cases.try_all(given, functools.partial(trial, judge), RUNS)
    beside.expect_most_loaded(seen, count)
    return f"{seen['taken']} policies in three dialects, {seen['headers']} headers, each decided as the kernel does"
