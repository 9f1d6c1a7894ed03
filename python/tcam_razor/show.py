"""Shows what the program reads and writes with addresses in points and protocols by name: tools/show [--list LIST] [FILE]

    razor compile LIST | tools/show
    razor equiv OLD NEW | tools/show --list OLD
    razor audit LIST | tools/show --list LIST
    tools/show LIST [TABLE] SOURCE DESTINATION SOURCE-PORT DESTINATION-PORT PROTOCOL
    tools/show LIST [TABLE] $(razor equiv OLD NEW)

A table, a memory and a plan are shown as columns: the number of an entry or of a slot stands in front. In other texts, of
FILE or of standard input, lines with a header (five numbers, as in `differ`, in traces and in what `audit` writes) or with a
box (five spans, as in certificates and in what `query` writes) are shown so, and others as they are; what stands before and
behind stays. A line that no text of the program has is refused. With --list the list's line and rule stand behind each state
of `audit`, which counts rules, and behind each `differ` those of the first rule that matches the header.

With a list and a header, whose addresses may have points and whose protocol may have its name, the list's first rule is
shown that matches it, and with a table its first entry too. In place of the header a line `differ ..` may stand, as `equiv`
and `cert` write it.

The status is 1 where list and table decide the header differently, and where the text has a line `differ`; 0 else. It is 2
for words that are none, 3 for a bad line, 5 where a text can't be read, and 6 where the output can't be written.
"""
import itertools
import sys
from typing import Iterable, Sequence

from tcam_razor import headers, lists, memories, script, tables, texts
from tcam_razor.errors import BadText, Misuse
from tcam_razor.headers import MISS, Header
from tcam_razor.lists import Rule
from tcam_razor.script import shown
from tcam_razor.tables import Entry

FIELDS = len(headers.WIDTHS)


def labelled(name: str, lines: Sequence[str]) -> list[tuple[str, Entry | None]]:
    """What stands in front of each entry of a table, a memory or a plan, and the entry, or none."""
    match lines[0].partition(" ")[0]:
        case "plan":
            return [(str(write), write.entry) for write in memories.plan_of(name, lines).writes]
        case "memory":
            return [(str(slot), entry) for slot, entry in enumerate(memories.memory_of(name, lines), 1) if entry]
        case _:
            return [(str(entry.number), entry) for entry in tables.entries_of(name, lines)]


def show_columns(name: str, lines: Sequence[str]) -> None:
    rows = [("", *tables.COLUMNS), *((label, *(entry.columns() if entry else ("",) * len(tables.COLUMNS))) for label, entry in labelled(name, lines))]
    widths = [max(map(len, column)) for column in zip(*rows)]
    print(lines[0], end="")
    for label, *cells in rows:
        front = label.ljust(widths[0]) if " " in label else label.rjust(widths[0])
        print("  ".join([front, *(cell.ljust(width) for cell, width in zip(cells, widths[1:]))]).rstrip())


def show_text(path: str, rules: Sequence[Rule] | None) -> bool:
    """Shows a text, and says whether no line of it says `differ`."""
    name, lines = script.title(path), script.lines(path)
    first = next(lines, "")
    if first.startswith(("table ", "memory ", "plan ")):
        show_columns(name, [first, *lines])
        return True
    is_alike = True
    for number, line in enumerate(itertools.chain([first] if first else [], lines), 1):
        line = line.rstrip()
        text = texts.shown_line(line)
        if text is None:
            raise BadText(name, f"line {number}: no line that razor reads or writes")
        print(text + behind(rules, line))
        is_alike &= texts.differing(line) is None
    return is_alike


def behind(rules: Sequence[Rule] | None, line: str) -> str:
    """The line and the text of the rule that the line speaks of, of these rules."""
    if rules is None:
        return ""
    header = texts.differing(line)
    if header is not None:
        return f"  {told(first_of(rules, header))}"
    number = texts.is_state(line)
    if number is None:
        return ""
    if not 1 <= number <= len(rules):
        raise BadText("", f"the list has {len(rules)} rules, and no rule {number}")
    return f"  {told(rules[number - 1])}"


def told(rule: Rule | None) -> str:
    return f"line {rule.line}: {shown(rule.text)}" if rule else "no rule"


def first_of(rules: Iterable[Rule], header: Header) -> Rule | None:
    """The first rule that matches the header, or none."""
    return next((rule for rule in rules if rule.holds(header)), None)


def show_match(rules_of: str, table: str | None, header: Header) -> bool:
    """Shows what decides a header, of a list and of a table where there is one, and says whether they decide it alike."""
    rule = first_of(lists.rules(rules_of), header)
    entry = next((it for it in tables.entries(table) if it.matches(header)), None) if table is not None else None
    decided = rule.decision if rule else MISS
    print(header.shown)
    print(f"{shown(rules_of)}: {f'rule {rule.number}, ' if rule else ''}{told(rule)}")
    if table is None:
        print(f"it decides {decided}")
        return True
    print(f"{shown(table)}: {f'entry {entry.number}, line {entry.number + 1}: ' + '  '.join(entry.columns()) if entry else 'no entry'}")
    by_table = entry.decision if entry else MISS
    print(f"both decide {decided}" if decided == by_table else f"they differ: {decided}, {by_table}")
    return decided == by_table


def header_of(words: Sequence[str]) -> Header:
    """The header of five words, or of those of a line `differ`."""
    if len(words) != FIELDS:
        header = texts.differing(" ".join(words))
        if header is None:
            raise Misuse("no header: five values are wanted, or a line `differ`")
        return header
    try:
        return headers.header(words)
    except (OSError, ValueError) as fault:
        raise Misuse(f"{' '.join(words)}: no header: {fault}") from None


def files_of(words: Sequence[str]) -> tuple[list[str], Sequence[str]]:
    """The list and the table, where there is one, and the words of the header behind them."""
    count = words.index("differ") if "differ" in words[1:3] else len(words) - FIELDS
    if count not in (1, 2):
        raise Misuse("a file is wanted, or a list, a table where there is one, and the five values of a header")
    return list(words[:count]), words[count:]


def main() -> None:
    words = script.words(__doc__)
    words.add_argument("--list", metavar="LIST", help="the list that `audit` or `equiv` speaks of")
    words.add_argument("words", nargs="*", metavar="FILE", help="a text, standard input without it or for -; or a list, a table and a header")
    given = words.parse_args()
    if len(given.words) < 2:
        is_alike = show_text(given.words[0] if given.words else "-", lists.rules(given.list) if given.list else None)
    else:
        files, header = files_of(given.words)
        is_alike = show_match(files[0], files[1] if len(files) == 2 else None, header_of(header))
    sys.exit(0 if is_alike else 1)


def call() -> None:
    """Runs the script."""
    script.run(main)
