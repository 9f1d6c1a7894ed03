"""Tries `razor audit` and `razor query` on random lists.

Lists have up to eight rules with few values in each field, so that they meet, nest and repeat; some have no decision
word. What both commands write must be, byte for byte, what the slow program below works out from the meaning alone: it
cuts each field where a rule begins or ends, so that one header stands for all between cuts. For `audit` it takes each
rule out in turn and looks for the least header that is decided otherwise. For `query` it takes the headers of the box
that the list decides so, and joins neighbours that lead to the same boxes, field by field, the last one first.
"""
from model import cases, lists
from model.meaning import Cut, decided, first
from tcam_razor.headers import WHOLE
from tcam_razor.lists import rules_of
from tcam_razor.razor import written

ASKED = ("accept", "deny", "log", "miss", "miss", "#1", "#2", "#9", "nobody")
DECISIONS = (*lists.DECISIONS, "")


def states(rules):
    """The lines of `audit`."""
    cut = Cut(rules)
    changed, met = {}, {}
    for header, matching in zip(cut.headers(), cut.matches()):
        if matching:
            met.setdefault(first(matching), header)
        for at in range(len(rules)):
            if matching >> at & 1 and decided(rules, matching ^ 1 << at) != decided(rules, matching):
                changed.setdefault(at, header)
    for at in range(len(rules)):
        name, header = ("live", changed[at]) if at in changed else ("droppable", met[at]) if at in met else ("never", ())
        yield " ".join(["rule", str(at + 1), name, *map(str, header)])


def boxes(rules, box, name):
    """The lines of `query`."""
    found = grouped(Cut(rules, box), name, 0, (1 << len(rules)) - 1)
    return [*(" ".join(f"{low}-{high}" for low, high in each) for each in found), f"boxes {len(found)}"]


def grouped(cut, name, field, left):
    """The boxes over the fields from this one on, where these rules are left."""
    if field == 5:
        return [()] if decided(cut.items, left) == name else []
    groups = []
    for low, high, holding in cut.fields[field]:
        rest = grouped(cut, name, field + 1, left & holding)
        if rest and groups and groups[-1][1] + 1 == low and groups[-1][2] == rest:
            groups[-1][1] = high
        elif rest:
            groups.append([low, high, rest])
    return [((low, high), *box) for low, high, rest in groups for box in rest]


OPEN = "@0.0.0.0/0 0.0.0.0/0 0 : 65535 0 : 65535"
NET = ("@0.0.0.0/0 10.0.0.0/8 0 : 65535 0 : 65535 0x06/0xFF accept", f"{OPEN} 0x00/0x00 deny")

# Lists with the words of a command, and what was worked out by hand.
WORKED = (
    ((*NET, f"{OPEN} 0x06/0xFF deny"), "audit", ("rule 1 live 0 167772160 0 0 6", "rule 2 live 0 0 0 0 0", "rule 3 never")),
    ((f"{OPEN} 0x06/0xFF deny", f"{OPEN} 0x00/0x00 deny"), "audit", ("rule 1 droppable 0 0 0 0 6", "rule 2 live 0 0 0 0 0")),
    (NET, "query * * * * * accept", ("0-4294967295 167772160-184549375 0-65535 0-65535 6-6", "boxes 1")),
    (
        NET,
        "query * 167772160-167772161 * * 0-7 deny",
        ("0-4294967295 167772160-167772161 0-65535 0-65535 0-5", "0-4294967295 167772160-167772161 0-65535 0-65535 7-7", "boxes 2"),
    ),
    (NET, "query * * * * * miss", ("boxes 0",)),
    ((), "audit", ()),
    ((), "query * * * * * miss", ("0-4294967295 0-4294967295 0-65535 0-65535 0-255", "boxes 1")),
)


def wanted(lines, words):
    """What the command of these words has to write of the list of these lines."""
    rules = rules_of("list", lines)
    if words[0] == "audit":
        return list(states(rules))
    *spans, name = words[1:]
    box = tuple(whole if word == "*" else tuple(map(int, word.split("-"))) for word, whole in zip(spans, WHOLE))
    return boxes(rules, box, name)


def drawn_words(rng):
    """The words of a query."""
    spans = ["*" if rng.random() < 0.7 else "{}-{}".format(*sorted(rng.choices(values, k=2))) for values in lists.VALUES]
    return ["query", *spans, rng.choice(ASKED)]


def compare(razor, lines, words):
    """The lines of the command, which must be those that are wanted."""
    name, *rest = words
    ended, want = razor.run(name, "list", *rest), wanted(lines, words)
    if ended.status or ended.err or ended.lines != want:
        said = f"{' '.join(words)} ends with {ended.status}, says {ended.err!r} and writes\n{ended.out}"
        raise cases.Wrong(f"{said}and not\n{written(want)}of\n{written(lines)}")
    return want


def trial(razor, rng, seen):
    """Compares the states of a drawn list, and three of its queries."""
    lines = lists.rules(rng, 7, lists.few(rng, lists.COLUMNS, 2), DECISIONS, default=0.4)
    razor.put("list", written(lines))
    seen.update(line.split()[2] for line in compare(razor, lines, ["audit"]))
    seen["boxes"] += sum(len(compare(razor, lines, drawn_words(rng))) - 1 for _ in range(3))


def run(given):
    for lines, command, want in WORKED:
        if wanted(lines, command.split()) != list(want):
            raise cases.Wrong(f"the slow program writes {wanted(lines, command.split())} for {command}, and not {list(want)}")
    count, seen = cases.try_all(given, trial, runs=2_000)
    of_rules = ", ".join(f"{seen[name]:,} {name}" for name in ("live", "droppable", "never"))
    return f"{count:,} lists: {of_rules}, and {seen['boxes']:,} boxes"
