"""Tries the import of nftables beside the kernel, which judges each ruleset in a network namespace.

A ruleset is drawn, loaded, and listed by nft; the listing is imported. Then packets are sent, and for each the list must decide
as the kernel does, by a rule of the line that the kernel decides it by.
"""
import functools
import re

from tcam_razor import importing
from tcam_razor.judge.kernel import NotLoaded
from model import cases
from stand import beside
from stand.draw_nft import Draw
from stand.first_match import corners, decided, read, source_of

HEADERS = 200
RUNS = 2000
# A drawn rule may need more rules than are made, or be one that nft loads otherwise than it lists.
REFUSED = ("rules needed", "rules in all", "both ports negated", "both type and code negated")


def trial(judge, razor, rng, seen):
    state = beside.drawn_state(rng)
    draw = Draw(rng, state)
    text = draw.ruleset()
    try:
        judge.run("nft", "-f", "-", text="flush ruleset\n" + text + beside.LAST + (beside.UNTRACKED if state == "untracked" else ""))
        listed = judge.run("nft", rng.choice(["-j", "-nj"]), "list", "ruleset")
    except NotLoaded:
        seen["not loaded"] += 1
        return
    listing = importing.read("nft", listed, f"{draw.family} t judged", beside.assumed(state), most=65536).listing
    if not beside.expect_taken(listing, REFUSED):
        return
    seen["taken"] += 1
    rules = read(listing.rules)
    headers = draw.headers(HEADERS // 2, beside.STATES[state]) + corners(rules, rng, HEADERS // 2, beside.STATES[state])
    for header, (tags, is_accepted) in zip(headers, beside.verdicts(judge, headers, state)):
        seen["headers"] += 1
        number, word = decided(rules, header)
        told = tag_of(source_of(listing, number).text)
        if (word == "accept") != is_accepted or not fits(told, tags):
            raise cases.Wrong(f"with state {state} the list decides {header} {word} by rule {number}, tag {told}; the kernel passed {tags}, accepted {is_accepted}\n{text}")


def tag_of(text):
    found = re.search(r'"prefix": "(\w+)"', text)
    return found[1] if found else "policy"


def fits(told, tags):
    """Whether the kernel decided by the rule with this tag. The tag of a map is logged too where no key of it matches."""
    last = tags[-1] if tags else "policy"
    return last == told if told[0] in "tv" else told == "policy" and last[0] != "t"


def run(given):
    with beside.kernel(("nft", "nftables"), ("ip", "iproute2")) as judge:
        count, seen = cases.try_all(given, functools.partial(trial, judge), RUNS)
    beside.expect_most_loaded(seen, count)
    return f"{count} rulesets, {seen['taken']} of them loaded and imported, {seen['headers']} headers, each decided as the kernel does"
