"""Tries the import of access lists of IOS and EOS beside predicates that were made apart from it.

A configuration is drawn with the meaning of each of its words, imported, and for headers at the ends of its rules the list must
decide as the meaning says, by the line that it says. No device judges it: the meaning is remembered from the vendors' references.
"""
import re

from tcam_razor import importing
from model import cases
from stand.access_lists import Draw, meant
from stand.beside import expect_most_loaded, expect_taken
from stand.first_match import corners, decided, read, source_of

HEADERS = 200
RUNS = 2000
# A drawn entry may need more rules than are made.
REFUSED = ("needs more than 256 prefixes", "rules needed", "rules in all")


def trial(razor, rng, seen):
    draw = Draw(rng, rng.choice(["ios", "eos"]))
    text, entries = draw.configuration()
    assume = {"icmp": "8/0", "fragments": "no"} | ({"state": draw.state} if draw.state else {})
    listing = importing.read(draw.dialect, text, assume=assume, most=65536).listing
    if not expect_taken(listing, REFUSED):
        return
    seen["taken"] += 1
    seen["lines"] += len(listing.sources)
    rules = read(listing.rules)
    for header in corners(rules, rng, HEADERS):
        seen["headers"] += 1
        number, word = decided(rules, header)
        action, told = meant(entries, header)
        source = source_of(listing, number).text
        if word != action or not re.search(rf"(^|\s){re.escape(told)}$", source):
            raise cases.Wrong(f"with state {draw.state} the list decides {header} {word} by `{source}`; it is meant to be {action}, by `{told}`\n{text}")


def run(given):
    count, seen = cases.try_all(given, trial, RUNS)
    expect_most_loaded(seen, count)
    return f"{count} access lists, {seen['taken']} of them imported with {seen['lines']} lines, {seen['headers']} headers, each decided as the words mean"
