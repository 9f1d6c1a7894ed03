"""Tries exports: each drawn list becomes an access list of IOS and of EOS and a chain of nftables, and has to come back.

The package compares each text with its list by `razor equiv` before it gives it. Here headers are compared besides, by plain
first match over both lists; and where there is a namespace the kernel judges the chain.
"""
import functools

import tcam_razor
from tcam_razor import importing
from model import cases
from stand import beside
from stand.access_lists import Draw
from stand.first_match import corners, decided, read

HEADERS = 100
RUNS = 500
MOST_RULES = 800


def trial(judge, razor, rng, seen):
    draw = Draw(rng, rng.choice(["ios", "eos"]))
    text, _ = draw.configuration()
    assume = {"icmp": "8/0", "fragments": "no"} | ({"state": draw.state} if draw.state else {})
    listing = importing.read(draw.dialect, text, assume=assume).listing
    if listing.faults or len(listing.rules) > MOST_RULES:
        return
    seen["taken"] += 1
    source = tcam_razor.List("".join(f"{rule}\n" for rule in listing.rules))
    rules = read(listing.rules)
    headers = corners(rules, rng, HEADERS)
    for dialect in ("ios", "eos"):
        back = importing.read(dialect, tcam_razor.exported(dialect, source, name="BACK"))
        expect_same(f"the text of {dialect}", text, headers, rules, [decided(read(back.listing.rules), header)[1] for header in headers])
        seen["texts"] += 1
    chain = tcam_razor.exported("nft", source, name="BACK")
    judge.run("nft", "-f", "-", text="flush ruleset\n" + chain.replace("hook forward", "hook prerouting") + beside.LAST)
    accepted = [is_accepted for _, is_accepted in beside.verdicts(judge, headers, None)]
    expect_same("the kernel", text, headers, rules, ["permit" if it else "deny" for it in accepted])
    seen["texts"] += 1
    seen["headers"] += 3 * len(headers)


def expect_same(who, text, headers, rules, words):
    for header, word in zip(headers, words):
        if decided(rules, header)[1] != word:
            raise cases.Wrong(f"{who} decides {header} {word}, and the list {decided(rules, header)}\n{text}")


def run(given):
    beside.name_program(given)
    with beside.kernel(("nft", "nftables"), ("ip", "iproute2")) as judge:
        count, seen = cases.try_all(given, functools.partial(trial, judge), RUNS)
    beside.expect_most_loaded(seen, count)
    return f"{seen['texts']} texts of {seen['taken']} lists, each equal to its list, and {seen['headers']} headers decided alike"
