"""Writes certificates of random lists and tables, and compares them.

Lists have few rules and tables few entries, with few values in each field, so that they meet, nest and repeat; a table
is compiled, expanded, or drawn by itself, and an entry may say `miss`. What `razor cert` writes must be, byte for byte,
the coarsest certificate of tests/model/certificates.py, which cuts fields and joins neighbours, or the least header on
which list and table differ by name; and `razor check` must find each certificate valid, and none that is spoiled. A
compiled table must decide as its list, and no longer do so with any one of its entries left out.
"""
from model import cases, certificates, lists
from tcam_razor.headers import MISS
from tcam_razor.lists import rules_of
from tcam_razor.razor import written
from tcam_razor.tables import entries_of

WORDS = (
    ("00000000/00000000", "0A000000/FF000000", "0A000000/FF800000", "0A000007/FFFFFFFF"),
    ("00000000/00000000", "0A000000/FF000000", "FFFFFFFF/FFFFFFFF"),
    ("0000/0000", "0050/FFFF"),
    ("0000/0000", "0050/FFF0", "01BB/FFFF"),
    ("00/00", "06/FF", "11/FF", "00/80"),
)


def drawn_table(rng):
    entries = [" ".join([*map(rng.choice, WORDS), rng.choice((*lists.DECISIONS, MISS))]) for _ in range(rng.randrange(6))]
    return written([f"table 2 slot 144 composed 9 entries {len(entries)}", *entries])


def decision(items, claim):
    """The name that a row's claim decides."""
    return MISS if claim == "-" else items[int(claim) - 1].decision


def wanted(rules, entries):
    """The lines that have to be written: the certificate, or the least header on which rules and entries differ."""
    lines = list(certificates.lines(rules, entries))
    for row in lines[:-1]:
        *box, rule, entry = row.split()
        names = decision(rules, rule), decision(entries, entry)
        if names[0] != names[1]:
            return [" ".join(["differ", *(span.split("-")[0] for span in box), *names])]
    return lines


def differs(rules, entries):
    return wanted(rules, entries)[0].startswith("differ")


def expect_tight(list_text, table_text, rules, entries):
    """Refuses entries that decide otherwise than the rules, or still alike with one of them left out."""
    for at in range(len(entries) + 1):
        if differs(rules, entries[:at] + entries[at + 1 :]) != (at < len(entries)):
            raise cases.Wrong(f"compile writes\n{table_text}of\n{list_text}where entry {at + 1} is not needed, or one more is")


def spoiled(rng, text):
    """The certificate with two lines exchanged, one left out, or one of them twice."""
    lines = text.splitlines()
    at = rng.randrange(len(lines))
    kind = rng.randrange(3)
    if kind == 0 and len(lines) > 1:
        other = (at + 1) % len(lines)
        lines[at], lines[other] = lines[other], lines[at]
    elif kind == 1:
        del lines[at]
    else:
        lines.insert(at, lines[at])
    return written(lines)


def trial(razor, rng, seen):
    """Compares the certificate of a drawn list and a table."""
    text = written(lists.rules(rng, 7, default=0.6))
    razor.put("list", text)
    way = rng.choice(("compile", "expand", "draw"))
    table = drawn_table(rng) if way == "draw" else razor.made(way, "list")
    razor.put("table", table)
    rules, entries = rules_of("list", text.splitlines()), entries_of("table", table.splitlines(keepends=True))
    ended, want = razor.run("cert", "list", "table"), wanted(rules, entries)
    agree = not want[0].startswith("differ")
    if (ended.status, ended.lines) != (0 if agree else 1, want):
        raise cases.Wrong(f"cert writes\n{ended.out}and not\n{written(want)}of\n{text}{table}")
    if way == "compile":
        expect_tight(text, table, rules, entries)
    if agree:
        check(razor, rng, ended.out)
        seen["agree"] += 1


def check(razor, rng, text):
    razor.put("rows", text)
    if razor.run("check", "list", "table", "rows").status != 0:
        raise cases.Wrong(f"check refuses\n{text}")
    other = spoiled(rng, text)
    razor.put("rows", other)
    if other != text and razor.run("check", "list", "table", "rows").status != 1:
        raise cases.Wrong(f"check takes\n{other}")


def run(given):
    count, seen = cases.try_all(given, trial, runs=2_000)
    return f"{count:,} cases, in {seen['agree']:,} of which list and table agree"
