"""Tries `razor verify`, `prove` and `check` on random lists and tables of any words, at every header.

Lists have few rules and tables few entries, over few values or few bits of each field. A table is made of the list, with
entries joined or not, or has words over any bits; such a list may name each value that the words tell apart. Then entries may be
changed. `verify` must say the least header that is decided otherwise, by tests/model/agreement.py, which tries every header;
`prove` must end alike, and `check` find what it wrote valid. Each of many texts must get the verdict of tests/model/proofs.py,
which knows nothing of the program: proofs with words, numbers and lines changed, exchanged and left out, proofs of another kind
that are written here, and proofs of one pair for another one. None that is valid may say what isn't so.
"""
import re

from model import agreement, cases, lists, proofs
from tcam_razor.headers import MISS, WIDTHS
from tcam_razor.lists import rules_of
from tcam_razor.razor import written
from tcam_razor.tables import entries_of

# As many headers of different kinds a pair may have.
MOST_HEADERS = 30_000

NAMES = (*lists.DECISIONS, MISS)


def table_text(entries):
    return written([f"table 2 slot 144 composed {len(entries)} entries {len(entries)}", *entries])


def columns(fields):
    """The word of a table's line that asks these values of these bits."""
    return " ".join(f"{value:0{width // 4}X}/{mask:0{width // 4}X}" for (value, mask), width in zip(fields, WIDTHS))


def drawn_word(rng, bits):
    """A word that asks for some of these bits, each a field and a bit of it."""
    fields = [[0, 0] for _ in WIDTHS]
    for field, bit in bits:
        trit = rng.choice("01**")
        fields[field][0] |= (trit == "1") << bit
        fields[field][1] |= (trit != "*") << bit
    return columns(fields)


def of_any_words(rng, razor):
    """A list by itself, and a table of words over few bits."""
    bits = [(field, bit) for field in rng.sample(range(5), 3) for bit in rng.sample(range(WIDTHS[field]), 2)]
    entries = [f"{drawn_word(rng, bits)} {rng.choice(NAMES)}" for _ in range(rng.randrange(8))]
    return lists.rules(rng, 4, lists.opened(rng, lists.SPLITTING, 3), default=0.7), entries


def of_values(rng, razor):
    """A table of words over the last bits of two fields, behind entries for all other values, and the list of what it decides."""
    left, right = rng.choice(((3, 4), (2, 4), (3, 2))), rng.choice((2, 3))
    bits = [(field, bit) for field in left for bit in range(right)]
    inner = [f"{drawn_word(rng, bits)} {rng.choice(NAMES[:3])}" for _ in range(rng.randrange(1, 7))]
    entries = [*others(left, right), *inner, f"{columns([(0, 0)] * 5)} {rng.choice(NAMES[:3])}"]
    read = entries_of("table", table_text(entries).splitlines(keepends=True))
    rules = []
    for first in range(1 << right):
        for second in range(1 << right):
            header = [0] * 5
            header[left[0]], header[left[1]] = first, second
            rules.append(rule_of(left, header, next(entry.decision for entry in read if entry.matches(header))))
    rng.shuffle(rules)
    return [*rules, rule_of((), [0] * 5, "deny")], entries


def others(fields, right):
    """An entry for each further bit of two fields, whose values have it as the first that is one."""
    for field in fields:
        for bit in range(right, WIDTHS[field]):
            first = 1 << bit, (1 << WIDTHS[field]) - (1 << bit)
            yield f"{columns([first if each == field else (0, 0) for each in range(5)])} deny"


def rule_of(fields, header, decision):
    """The rule of these values in these fields, of which each is a port or the protocol."""
    ports = (f"{header[field]} : {header[field]}" if field in fields else "0 : 65535" for field in (2, 3))
    return " ".join(["@0.0.0.0/0 0.0.0.0/0", *ports, f"0x{header[4]:02X}/0xFF" if 4 in fields else "0x00/0x00", decision])


def of_program(rng, razor):
    """A list, and a table that the program makes of it."""
    rules = lists.rules(rng, 7, lists.opened(rng, rng.choice((lists.SPLITTING, lists.COLUMNS)), 2), default=0.6)
    razor.put("list", written(rules))
    text = razor.made(rng.choice(("compile", "expand", "shorten")), "list")
    if rng.random() < 0.5:
        razor.put("table", text)
        text = razor.made("merge", "table")
    return rules, text.splitlines()[1:]


def changed(rng, entries):
    """The entries with one of them changed, exchanged, left out or one more."""
    entries, at = list(entries), rng.randrange(len(entries) + 1)
    if at == len(entries):
        return [*entries, f"{drawn_word(rng, [(4, 0), (3, 1)])} {rng.choice(NAMES)}"]
    word, name = entries[at].rsplit(" ", 1)
    match rng.randrange(4):
        case 0:
            entries[at] = f"{word} {rng.choice(NAMES)}"
        case 1:
            del entries[at]
        case 2:
            entries[at - 1], entries[at] = entries[at], entries[at - 1]
        case 3:
            entries[at] = f"{drawn_word(rng, [(4, 0), (4, 1), (3, 0)])} {name}"
    return entries


class Pair:
    """A list and a table in files, and the least header that they decide otherwise."""

    def __init__(self, razor, rules, entries):
        self.razor = razor
        self.list, self.table = written(rules), table_text(entries)
        self.rules, self.entries = rules_of("list", rules), entries_of("table", self.table.splitlines(keepends=True))
        self.fields = agreement.fields(self.rules, self.entries)
        self.headers = agreement.count(self.fields)

    def put(self):
        self.razor.put("list", self.list)
        self.razor.put("table", self.table)

    def seek(self):
        self.difference = agreement.least_difference(self.rules, self.entries, self.fields)
        self.answer = " ".join(["differ", *map(str, self.difference[0]), *self.difference[1:]]) if self.difference else "equal"

    def expect(self, holds, otherwise):
        if not holds:
            raise cases.Wrong(f"{otherwise}\n{self.list}{self.table}")

    def proof(self):
        """What `prove` writes, where it and `verify` say what is so."""
        verified, proved = (self.razor.run(command, "list", "table") for command in ("verify", "prove"))
        status = 1 if self.difference else 0
        self.expect((verified.status, verified.out) == (status, f"{self.answer}\n"), f"verify says {verified.out}and not {self.answer} of")
        self.expect(proved.status == status, f"prove ends with {proved.status} of")
        says = self.check(proved.out)
        self.expect(re.fullmatch(rf"valid {re.escape(self.answer)} pairs=\d+", says), f"check says {says} of\n{proved.out}of")
        return proved.out

    def check(self, text):
        """What `check` says of a text, which is what has to be said."""
        self.razor.put("proof", text)
        checked, want = self.razor.run("check", "list", "table", "proof"), proofs.verdict(self.rules, self.entries, text)
        self.expect(checked.out == f"{want}\n", f"check says {checked.out}and not {want} of\n{text}of")
        self.expect(checked.status == (0 if want.startswith("valid equal") else 1), f"check ends with {checked.status} on\n{text}of")
        self.expect(not want.startswith("valid") or want.startswith(f"valid {self.answer} "), f"{want}, which isn't so, of\n{text}of")
        return want


def spoiled(rng, text):
    """A proof with words, numbers or lines changed, exchanged, left out or come again."""
    for _ in range(rng.choice((1, 1, 1, 2, 4))):
        text = rng.choice((lines_spoiled, words_spoiled, words_spoiled, numbers_spoiled, bytes_spoiled))(rng, text)
    return text


def lines_spoiled(rng, text):
    lines = text.splitlines()
    at, other = rng.randrange(len(lines) or 1), rng.randrange(len(lines) or 1)
    match rng.randrange(4) if lines else 4:
        case 0:
            lines[at], lines[other] = lines[other], lines[at]
        case 1:
            lines.insert(at, lines[other])
        case 2:
            lines[at] = lines[other]
        case 3:
            return without_line(lines, at)
    return written(lines)


def without_line(lines, at):
    """Without a line; where it is that of a pair, and a last line is there, with the number that is left."""
    line = lines.pop(at)
    if line.startswith("p ") and re.fullmatch(r"pairs [1-9]\d*", lines[-1]):
        lines[-1] = f"pairs {int(lines[-1].split()[1]) - 1}"
    return written(lines)


def words_spoiled(rng, text):
    """One word more, one less, or one in the place of another, most times of those that are there."""
    lines = [line.split(" ") for line in text.splitlines()]
    if not lines:
        return text
    words = rng.choice(lines)
    at = rng.randrange(len(words))
    others = [word for line in lines for word in line[1:]]
    drawn = (rng.choice(others or ["r1"]), rng.choice("er") + str(rng.randrange(12)), str(rng.randrange(110)), rng.choice("->"))
    words[at : at + rng.choice((0, 1, 1, 1))] = [rng.choice(drawn)] * rng.choice((0, 1, 1, 1))
    return written(" ".join(line) for line in lines)


def numbers_spoiled(rng, text):
    """One number more or less by one, or another one."""
    found = list(re.finditer(r"\d+", text))
    if not found:
        return text
    number = rng.choice(found)
    other = rng.choice((int(number[0]) + 1, int(number[0]) - 1, 0, rng.randrange(8), 2**32))
    return f"{text[: number.start()]}{other}{text[number.end() :]}"


def bytes_spoiled(rng, text):
    at = rng.randrange(len(text) + 1)
    if rng.random() < 0.5:
        return text[:at]
    return text[:at] + rng.choice((" ", "\n", "0", "\r", "e", "-")) + text[at + rng.randrange(2) :]


def trial(razor, rng, seen):
    rules, entries = rng.choice((of_any_words, of_values, of_values, of_program, of_program))(rng, razor)
    if rng.random() < 0.4:
        entries = changed(rng, entries)
    pair = Pair(razor, rules, entries)
    if pair.headers > MOST_HEADERS:
        return
    pair.put()
    pair.seek()
    text = pair.proof()
    seen.update({"pairs": 1, "alike": pair.difference is None, "headers": pair.headers})
    texts = [text, *others_of(rng, pair, seen)]
    for _ in range(4):
        seen["spoiled"] += 1
        seen["still valid"] += pair.check(spoiled(rng, rng.choice(texts))).startswith("valid")
    other = Pair(razor, rules, changed(rng, entries))
    if other.headers <= MOST_HEADERS:
        other.put()
        other.seek()
        seen["of another"] += 1
        other.check(text)


def others_of(rng, pair, seen):
    """A proof of another kind, if one is found, which is valid."""
    try:
        text = written(proofs.loose(rng, pair.rules, pair.entries, pair.difference and pair.difference[0]))
    except proofs.OutOfSteps:
        return
    says = pair.check(text)
    pair.expect(says.startswith("valid"), f"{says} of\n{text}of")
    seen["loose"] += 1
    yield text


def run(given):
    _, seen = cases.try_all(given, trial, runs=600)
    of_pairs = f"{seen['pairs']:,} pairs, {seen['alike']:,} of them alike, at all of {seen['headers']:,} headers"
    of_texts = f"{seen['spoiled']:,} spoiled proofs, of which {seen['still valid']:,} still hold, {seen['loose']:,} of another kind, {seen['of another']:,} for another pair"
    return f"{of_pairs}; {of_texts}: as worked out"
