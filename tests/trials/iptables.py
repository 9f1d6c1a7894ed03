"""Tries the import of iptables beside the kernel, which judges each table in a network namespace.

A table is drawn, loaded by iptables-legacy or iptables-nft, and saved; what is saved is imported. Then packets are sent, and for
each the list must decide as the kernel does, by the line that the kernel decides it by.
"""
import functools
import re

from tcam_razor import importing
from tcam_razor.judge.kernel import NotLoaded
from model import cases
from stand import beside
from stand.draw_iptables import Draw
from stand.first_match import corners, decided, read, source_of

HEADERS = 200
RUNS = 1000
REFUSED = ("rules needed", "rules in all", "both ports negated")
EMPTY = "*mangle\n:PREROUTING ACCEPT [0:0]\nCOMMIT\n"


def trial(judge, razor, rng, seen):
    state, program = beside.drawn_state(rng), rng.choice(["iptables-legacy", "iptables-nft"])
    text = Draw(rng, state).tables()
    try:
        saved = load(judge, program, text, state, rng)
    except NotLoaded:
        seen["not loaded"] += 1
        return
    listing = importing.read("iptables", saved, "mangle PREROUTING", beside.assumed(state), most=65536).listing
    if not beside.expect_taken(listing, REFUSED):
        return
    seen["taken"] += 1
    rules = read(listing.rules)
    headers = corners(rules, rng, HEADERS, beside.STATES[state])
    for header, (tags, is_accepted) in zip(headers, beside.verdicts(judge, headers, state)):
        seen["headers"] += 1
        number, word = decided(rules, header)
        found = re.search(r'--comment "?(t\d+)="?', source_of(listing, number).text)
        if (word == "accept") != is_accepted or ([found[1]] if found else []) != tags:
            raise cases.Wrong(f"with state {state}, {program}, the list decides {header} {word} by rule {number}; the kernel passed {tags}, accepted {is_accepted}\n{saved}")


def load(judge, program, text, state, rng):
    """Loads a table in place of the one before, and gives what is saved of it."""
    judge.run("nft", "flush", "ruleset")
    judge.run("iptables-legacy-restore", text=EMPTY)
    judge.run(f"{program}-restore", text=text)
    saved = judge.run(f"{program}-save", *rng.choice([[], ["-c"]]), "-t", "mangle")
    judge.run("nft", "-f", "-", text=beside.LAST + (beside.UNTRACKED if state == "untracked" else ""))
    return saved


def run(given):
    with beside.kernel(("nft", "nftables"), ("iptables-legacy", "iptables"), ("ip", "iproute2")) as judge:
        count, seen = cases.try_all(given, functools.partial(trial, judge), RUNS)
    beside.expect_most_loaded(seen, count)
    return f"{count} tables, {seen['taken']} of them loaded and imported, {seen['headers']} headers, each decided as the kernel does"
