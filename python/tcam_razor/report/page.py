"""The page that shows what a change of a list does."""
from __future__ import annotations

import collections
import pathlib
import shlex
from typing import Any, Iterable, Iterator, Sequence

from tcam_razor import headers, texts
from tcam_razor.headers import Header
from tcam_razor.report.change import Size
from tcam_razor.report.findings import Deciding, Entries, Example, Findings, Idle, Kind, Piece, Row, Side
from tcam_razor.report.markup import Html, element, joined, rows

# As many rows are shown of what may be long.
MOST_BOXES = 50
MOST_WRITES = 50
MOST_RULES = 200

FIELDS = ("Source", "Destination", "Source port", "Destination port", "Protocol")
COLUMNS = ("Source", "Destination", "Source ports", "Destination ports", "Protocol", "Decision")

STYLE = (pathlib.Path(__file__).parent / "style.css").read_text()

# Nothing is fetched and nothing runs.
POLICY = "default-src 'none'; style-src 'unsafe-inline'"

VERDICTS = {True: "valid", False: "not valid", None: "not known"}
COLOURS = {True: "good", False: "bad", None: "note"}

LATE = "Not known: not all was looked at in time."

# What the states of `audit` are called in the field.
STATES = {"live": "needed", "droppable": "redundant", "never": "shadowed"}


def page(it: Findings) -> str:
    """The whole page."""
    head = element(
        "head",
        Html('<meta charset="utf-8">'),
        Html(f'<meta http-equiv="Content-Security-Policy" content="{POLICY}">'),
        Html('<meta name="viewport" content="width=device-width, initial-scale=1">'),
        element("title", f"{it.old.title} → {it.new.title}"),
        element("style", Html(STYLE)),
    )
    parts = (top, flags, permitted, denied, first_difference, others, rules, idle, sizes, writes, validation, bottom)
    body = element("body", element("main", [part(it) for part in parts]))
    return f"<!DOCTYPE html>\n{element('html', head, body, lang='en')}\n"


def section(title: str, *parts: Any) -> Html:
    return element("section", element("h2", title), *parts)


def paragraph(*parts: Any, **attributes: Any) -> Html:
    return element("p", *parts, **attributes)


def scrolled(table: Html) -> Html:
    return element("div", table, class_="scroll")


def pill(text: str, kind: str = "plain") -> Html:
    return element("span", text, class_=f"pill {kind}")


def cell(text: Any, kind: str) -> Html:
    return element("td", text, class_=kind)


def counted(count: int, thing: str, things: str = "") -> str:
    return f"{count:,} {thing if count == 1 else things or f'{thing}s'}"


def either(words: Sequence[str]) -> str:
    """Words as they stand in a sentence."""
    *front, last = words
    return f"{', '.join(front)} or {last}" if front else last


def top(it: Findings) -> Html:
    return element(
        "header",
        paragraph("What a change does", class_="kicker"),
        element("h1", it.old.title, element("span", "→", class_="arrow"), it.new.title),
        element("dl", [tile(*facts) for facts in tiles(it)], class_="tiles"),
    )


def tile(title: str, value: str, says: str, kind: str = "") -> Html:
    return element("div", element("dt", title), element("dd", value, class_=f"value {kind}".strip()), element("dd", says, class_="soft"), class_="tile")


def tiles(it: Findings) -> Iterator[Sequence[str]]:
    yield "Newly permitted", *of_kind(it.permitted, "no header", "bad")
    if it.is_alike is None:
        yield "Decisions", "not known", f"no answer in {it.seconds:g} seconds", "bad"
    elif it.is_alike:
        yield "Decisions", "the same", "for every header", "good"
    else:
        yield "Decisions", "changed", "some headers are decided differently", "note"
    yield "Rules", f"{it.old.rules:,} → {it.new.rules:,}", f"{it.put_in:,} put in, {it.taken_out:,} taken out"
    before, after = it.shortened.old, it.shortened.new
    yield "Entries, shortened", " → ".join(f"{size.count:,}" if size.is_made else "–" for size in (before, after)), growth(before, after)
    if it.writes and not it.writes.needed:
        yield "Writes in place", f"{len(it.writes.lines):,}", f"{before.count + after.count:,} for a whole swap"
    if it.validation:
        yield "Validation", VERDICTS[it.validation.is_valid], it.validation.says, COLOURS[it.validation.is_valid]


def of_kind(kind: Kind, none: str, colour: str) -> Sequence[str]:
    if kind.first:
        return f"{'' if kind.is_all else 'at least '}{counted(len(kind.boxes), 'box', 'boxes')}", "of headers", colour
    return ("nothing", none, "good") if kind.is_all else ("not known", "not all was looked at", colour)


def growth(before: Size, after: Size) -> str:
    if not (before.is_made and after.is_made):
        return after.why or before.why
    difference = after.count - before.count
    return f"{'+' if difference > 0 else '−'}{abs(difference):,}" if difference else "unchanged"


def flags(it: Findings) -> list[Html]:
    """A warning where rules ask for flags, which take no part."""
    return [
        paragraph(f"In {side.title} {counted(side.flagged, 'rule asks', 'rules ask')} for flags. Flags take no part: such a rule matches whatever they are.", class_="warning")
        for side in (it.old, it.new)
        if side.flagged
    ]


def permitted(it: Findings) -> Html:
    title, kind = "What is newly permitted", it.permitted
    words = either(it.deny)
    if not it.old.denies:
        return section(title, paragraph(f"Nothing: no rule of the old list says {words}. Other words that deny are named by ", element("code", "--deny"), "."))
    if kind.first is None:
        says = f"Nothing: each header that {words} decided before is decided so now." if kind.is_all else LATE
        return section(title, paragraph(says))
    return section(
        title,
        paragraph(f"Headers that {words} decided before, and that another word decides now, or none. The least of the first box is:"),
        *shown_example(it, kind.first),
        *shown_boxes(kind),
    )


def denied(it: Findings) -> Html | None:
    kind = it.denied
    if not kind.boxes and kind.is_all:
        return None
    says = f"Headers that {either(it.deny)} decides now, and didn't before." if kind.boxes else LATE
    return section("What is newly denied", paragraph(says), *(shown_boxes(kind) if kind.boxes else []))


def others(it: Findings) -> Html | None:
    kind = it.others
    if not kind.boxes:
        return None
    return section("What else is decided differently", paragraph("Permitted before and now, or denied before and now, by another word."), *shown_boxes(kind))


def first_difference(it: Findings) -> Html | None:
    title = "First difference"
    if it.is_alike is None:
        return section(title, paragraph(f"Not known: the lists weren't compared in {it.seconds:g} seconds."))
    if it.difference is None:
        return section(title, paragraph("There is none: both lists decide every header alike."))
    if it.permitted.first and it.difference.header == it.permitted.first.header:
        return None
    return section(title, paragraph("Of all headers that are decided differently this is the least."), *shown_example(it, it.difference))


def shown_example(it: Findings, example: Example) -> Iterator[Html]:
    """A header, and which rules decide it."""
    values = map(texts.shown_span, ((value, value) for value in example.header), headers.WIDTHS)
    fields = [element("div", element("span", name, class_="label"), element("span", value, class_="number")) for name, value in zip(FIELDS, values)]
    yield element("div", fields, class_="packet")
    deciding = [deciding_row(it.old, example.old, "plain"), deciding_row(it.new, example.new, "note")]
    yield scrolled(rows(("List", "Decides", "By its first rule that matches"), deciding))


def deciding_row(side: Side, by: Deciding, kind: str) -> Sequence[Any]:
    return cell(side.title, "name"), pill(by.decision, kind), cell(f"line {by.line}: {by.rule}" if by.rule else "no rule matches", "rule")


def shown_boxes(kind: Kind) -> Iterator[Html]:
    """The boxes of a kind: how many there are by their decisions, and the first of them."""
    counts = collections.Counter((box.old, box.new) for box in kind.boxes)
    more = "" if kind.is_all else " There are more: the search was cut off."
    shown_of = f" The first {MOST_BOXES:,} are shown, of {len(kind.boxes):,}." if len(kind.boxes) > MOST_BOXES else ""
    yield paragraph("Each row is a box of headers: all that lie in its five spans.", more, shown_of, unnamed(counts))
    yield paragraph(*(element("span", arrow(*pair), f" in {counted(count, 'box', 'boxes')}", class_="kind") for pair, count in counts.items()))
    if kind.boxes:
        yield scrolled(rows(COLUMNS, map(box_row, kind.boxes[:MOST_BOXES]), class_="boxes"))


def box_row(piece: Piece) -> Iterator[Html]:
    for span in map(texts.shown_span, piece.box, headers.WIDTHS):
        first, sign, last = span.partition("-")
        # A span may be parted behind its sign, and nowhere else.
        yield element("td", element("span", first, sign, class_="nowrap"), Html("<wbr>"), element("span", last, class_="nowrap"))
    yield element("td", arrow(piece.old, piece.new))


def unnamed(counts: Iterable[tuple[str, str]]) -> str | None:
    """What is to be said where rules without a decision are named by their places, which a change moves."""
    return " A rule without a decision is named by its number among the rules." if any(name.startswith("#") for pair in counts for name in pair) else None


def arrow(old: str, new: str) -> Html:
    return joined([pill(old), " → ", pill(new, "note")])


def rules(it: Findings) -> Html:
    if not it.put_in and not it.taken_out:
        return section("Rules", paragraph("Both lists have the same rules in the same order."))
    lines = list(patch_rows(it.hunks))
    more = paragraph(f"The first {MOST_RULES:,} rows are shown, of {len(lines):,}.") if len(lines) > MOST_RULES else None
    head = element("thead", element("tr", [element("th", text, scope="col", class_="number") for text in ("Old", "New", "")], element("th", "Rule", scope="col")))
    table = element("table", head, element("tbody", lines[:MOST_RULES]), class_="patch")
    return section("Rules", paragraph("What was put in and taken out, and the rules around, by the lines of both lists."), more, scrolled(table))


def patch_rows(hunks: Sequence[Sequence[Row]]) -> Iterator[Html]:
    for number, hunk in enumerate(hunks):
        if number:
            yield element("tr", element("td", "⋯", colspan="4"), class_="rest")
        yield from map(patch_row, hunk)


def patch_row(row: Row) -> Html:
    kind, sign = ("gone", "−") if row.new_line is None else ("put", "+") if row.old_line is None else ("kept", "")
    numbers = [cell("" if number is None else number, "number soft") for number in (row.old_line, row.new_line)]
    return element("tr", numbers, cell(sign, "sign"), cell(row.rule, "rule"), class_=kind)


def idle(it: Findings) -> Html:
    title = "Rules that do nothing now"
    if it.idle is None:
        return section(title, paragraph("The states of the rules weren't found in time."))
    if not it.idle:
        return section(title, paragraph("No rule became shadowed or redundant, and none was put in that is."))
    says = "A shadowed rule is the first match of no header. A redundant one is, but without it every header is decided alike."
    return section(title, paragraph(says), scrolled(rows(("Line", "Rule", "Before", "Now", "Why"), map(idle_row, it.idle))))


def idle_row(rule: Idle) -> Sequence[Any]:
    return (
        cell(f"{rule.line:,}", "number"),
        cell(rule.rule, "rule"),
        STATES[rule.before] if rule.before else "a new rule",
        pill(STATES[rule.now], "bad" if rule.now == "never" else "note"),
        because(rule.header, rule.hidden_by),
    )


def because(header: Header | None, hidden_by: Sequence[int]) -> str:
    if header:
        return f"first match of {header.shown}, which later rules decide alike"
    if not hidden_by:
        return "earlier rules together match all that it matches"
    *others, last = (f"{line:,}" for line in hidden_by)
    if not others:
        return f"line {last} matches all that it matches"
    return f"lines {', '.join(others)} and {last} together match all that it matches"


def sizes(it: Findings) -> Html:
    """The sizes of both lists' tables, as bars."""
    most = max([1, *(size.count for each in it.entries for size in (each.old, each.new) if size.is_made)])
    body = [row for each in it.entries for row in bar_rows(each, most)]
    head = element("thead", element("tr", [element("th", text, scope="col") for text in ("Command", "List", "Entries")]))
    return section(
        "Table sizes",
        paragraph("How many entries a ternary memory has to hold, by the command that makes the table."),
        scrolled(element("table", head, element("tbody", body), class_="bars")),
    )


def bar_rows(entries: Entries, most: int) -> Iterator[Html]:
    for side, size, place in (("old", entries.old, "first"), ("new", entries.new, "last")):
        text = f"{size.count:,}" if size.is_made else size.why
        more = f" ({growth(entries.old, size)})" if side == "new" and size.is_made and entries.old.is_made else ""
        # What isn't made is no measure: its bar leaves room for the reason.
        width = 100 * size.count / most if size.is_made else 50
        parts = [bar(width) if size.count else None, element("span", text, element("span", more, class_="soft"))]
        cells = [element("td", element("code", entries.command) if side == "old" else None), cell(side, "soft")]
        yield element("tr", cells, element("td", element("div", parts, class_=f"bar {side if size.is_made else 'refused'}")), class_=place)


def bar(width: float) -> Html:
    """A bar as wide as so much of its place."""
    return Html(f'<svg width="{max(width, 0.5):.1f}%" height="15" aria-hidden="true"><rect x="1" y="1" width="calc(100% - 2px)" height="13" rx="2"/></svg>')


def writes(it: Findings) -> Html | None:
    """The writes that lead from the old table to the new one; nothing where there is no plan."""
    plan = it.writes
    if plan is None:
        return None
    title = "Writes"
    if plan.needed:
        return section(title, paragraph(f"In {plan.slots:,} slots there is no room: {plan.needed:,} are needed."))
    count, whole = len(plan.lines), it.shortened.old.count + it.shortened.new.count
    says = f"From the old shortened table to the new one in {plan.slots:,} slots. After each write every header is decided as by the old table or as by the new one."
    bars = [write_row(name, each, max(count, whole, 1)) for name, each in (("in place", count), ("whole swap", whole))]
    lines = [[cell(f"{number:,}", "number"), cell(texts.shown_line(line) or line, "rule")] for number, line in enumerate(plan.lines[:MOST_WRITES], 1)]
    return section(
        title,
        paragraph(says, f" The first {MOST_WRITES:,} are shown." if count > MOST_WRITES else None),
        scrolled(element("table", element("tbody", bars), class_="bars")),
        scrolled(element("table", element("tbody", [element("tr", line) for line in lines]), class_="writes")) if lines else None,
    )


def write_row(name: str, count: int, most: int) -> Html:
    parts = [bar(100 * count / most) if count else None, element("span", counted(count, "write"))]
    return element("tr", cell(name, "nowrap"), element("td", element("div", parts, class_=f"bar {'new' if name == 'in place' else 'old'}")))


def validation(it: Findings) -> Html:
    title, verdict = "Validation", it.validation
    if verdict is None:
        return section(title, paragraph("There is no shortened table of the new list."))
    says = (element("code", "verify"), ", which knows nothing of the compiler, compared the new list and its shortened table on every header: ", verdict.says, ".")
    return section(title, paragraph(pill(VERDICTS[verdict.is_valid], COLOURS[verdict.is_valid]), " ", *says))


def bottom(it: Findings) -> Html:
    """How to see the same again."""
    old, new = (shlex.quote(side.path) for side in (it.old, it.new))
    facts = (
        ("first difference", f"razor equiv {old} {new}"),
        ("boxes", f"razor query {new} SOURCE DESTINATION SOURCE-PORTS DESTINATION-PORTS PROTOCOL DECISION"),
        ("states of rules", f"razor audit {new}"),
        ("table", f"razor shorten {new} > TABLE"),
        ("writes", f"razor place --slots {it.writes.slots if it.writes else 'N'} OLD-TABLE > MEMORY; razor patch MEMORY TABLE"),
        ("validation", f"razor verify {new} TABLE"),
        ("old list", f"sha256 {it.old.sha256}"),
        ("new list", f"sha256 {it.new.sha256}"),
        ("program", f"sha256 {it.program_sha256}"),
    )
    return element(
        "footer",
        paragraph("Each answer is the program's own, and can be asked for again."),
        element("table", element("tbody", [element("tr", element("th", name, scope="row"), element("td", element("code", text))) for name, text in facts])),
    )
