"""What must hold of a run, by its words, its status and what it wrote. Used by tests/fuzz/run."""
import dataclasses
import re

import commands
from tcam_razor.grammar import Spelled

OF_ENTRIES = "first line|field form|value outside mask|decision|count of entries differs, stated [0-9]+ found [0-9]+"

REASONS = {
    "list": (
        "no @|address|length|port form|port order|port range|protocol form|protocol mask|flags form|decision form|reserved word|extra column"
        "|one rule too many|byte not ASCII|too many ranges"
    ),
    "table": f"{OF_ENTRIES}|word length|trit|padding|not a prefix word|slot width",
    "trace": "too few columns|not a number|value too large",
    "script": "unknown command|arguments",
    "session": "unknown command|arguments|rule",
    "memory": f"{OF_ENTRIES}|slot",
    "plan": "first line|field form|value outside mask|decision|slot|unknown write|count of writes differs, stated [0-9]+ found [0-9]+|slot width|slots",
}
LIMITS = {
    "list": 16_777_216,
    "table": 134_217_728,
    "trace": 67_108_864,
    "certificate": 268_435_456,
    "script": 1_048_576,
    "session": 1_048_576,
    "memory": 134_217_728,
    "plan": 134_217_728,
}

NUMBER = "(0|[1-9][0-9]*)"
NAME = r"(miss|#[1-9][0-9]*|[A-Za-z0-9_.-]{1,32})"
DIFFER = f"differ( {NUMBER}){{5}} {NAME} {NAME}\n"
WRONG_ROW = (
    f"wrong row {NUMBER}: (form|not the next box|rule claim|entry claim|decisions differ, {NAME} {NAME}|ends early"
    f"|count differs, stated {NUMBER} found {NUMBER})\n"
)
WRONG_LINE = (
    f"wrong line {NUMBER}: (form|counts differ, stated {NUMBER} {NUMBER} found {NUMBER} {NUMBER}|decisions do not differ|order"
    f"|cover of (entry|rule|pair)|pair {NUMBER} {NUMBER} missing|counts differ, stated {NUMBER} found {NUMBER}|ends early)\n"
)
NO = f"{WRONG_ROW}|{WRONG_LINE}|valid differ( {NUMBER}){{5}} {NAME} {NAME} pairs={NUMBER}\n"
STEPS = f"( ([er][1-9][0-9]*|{NUMBER}|-|>))+"
CLAIMS = f"(e{STEPS}\n)+(r{STEPS}\n)+(p {NUMBER} {NUMBER}{STEPS}\n)*pairs {NUMBER}\n"
ENTRY = f"[0-9A-F]{{8}}/[0-9A-F]{{8}} [0-9A-F]{{8}}/[0-9A-F]{{8}} [0-9A-F]{{4}}/[0-9A-F]{{4}} [0-9A-F]{{4}}/[0-9A-F]{{4}} [0-9A-F]{{2}}/[0-9A-F]{{2}} {NAME}\n"
TABLE = f"table 2 slot (104|144|288) composed {NUMBER} entries {NUMBER}\n({ENTRY})*"
MEMORY = f"memory 1 slots {NUMBER} width (104|144|288) entries {NUMBER}\n({NUMBER} {ENTRY})*"
PLAN = f"plan 1 slots {NUMBER} width (104|144|288) writes {NUMBER}\n(set {NUMBER} {ENTRY}|clear {NUMBER}\n)*"
SPAN = f"{NUMBER}-{NUMBER}"
STATE_LINE = f"rule {NUMBER} ((live|droppable)( {NUMBER}){{5}}|never)\n"
SCRIPT_LINE = f"(begun {NUMBER}|busy|no room {NUMBER} {NUMBER}( {NUMBER})?|stage {NUMBER} of {NUMBER}( back)?|idle|device fault|{NAME})\n"
EDIT_LINE = f"(rules {NUMBER}|no place {NUMBER}|list full|{NUMBER} entries needed, limit {NUMBER})\n"

# Each text that a command writes, as docs/commands calls it.
OUTPUTS = {
    "table": TABLE,
    "memory": MEMORY,
    "plan": PLAN,
    "states": f"({STATE_LINE})*",
    "boxes": f"({SPAN} {SPAN} {SPAN} {SPAN} {SPAN}\n)*boxes {NUMBER}\n",
    "agreement": "equal\n",
    "difference": DIFFER,
    "certificate": f"({SPAN} {SPAN} {SPAN} {SPAN} {SPAN} ({NUMBER}|-) ({NUMBER}|-)\n)*rows {NUMBER}\n",
    "verdict": f"valid (rows|equal pairs)={NUMBER}\n",
    "wrong": NO,
    "proof": f"proof 1 rules {NUMBER} entries {NUMBER}\n{CLAIMS}",
    "proof of a difference": f"proof 1 rules {NUMBER} entries {NUMBER} before( {NUMBER}){{5}}\n{CLAIMS}",
    "decisions": f"({NAME}\n)*",
    "script answers": f"({SCRIPT_LINE})*",
    "session answers": f"({SCRIPT_LINE}|{EDIT_LINE})*",
    "list": "(@[^\n]*\n)*",
    "summary": f"rules {NUMBER} composed {NUMBER} entries {NUMBER} headers 256 accept {NUMBER} deny {NUMBER} log {NUMBER} miss {NUMBER}\n",
}


@dataclasses.dataclass
class Run:
    """A run: its words, what they spell and what is said of that command, whether all texts are right and the output is full, and what came of it."""

    words: list
    spelled: Spelled | None
    command: commands.Command | None
    clean: bool
    full: bool
    unreadable: set = dataclasses.field(default_factory=set)
    status: int = 0
    out: str = ""
    err: str = ""

    def files(self):
        """The file words of the command that is spelled."""
        return [name for _, name in self.spelled.files] if self.spelled else []

    def options(self):
        """The options of the command that is spelled, with their values."""
        return self.spelled.options

    def makes_table(self):
        """Whether a table is made of a list."""
        return self.command.writes == "table" and self.spelled.form.labels == "LIST"


def matches(pattern, text):
    return re.fullmatch(pattern, text) is not None


def faults(run, usage):
    """What is wrong with the run: nothing, or a sentence."""
    if run.status < 0:
        return f"signal {-run.status}"
    try:
        "".join(run.words).encode()
    except UnicodeEncodeError:
        return "" if (run.status, run.out, run.err) == (8, "", "") else "words that aren't text"
    if run.spelled is None:
        return "" if (run.status, run.out, run.err) == (2, "", usage) else "words that spell no command"
    if run.status == 2:
        return "words that spell a command"
    return of_status(run) or of_output(run) or of_message(run)


def of_status(run):
    allowed = {0, 3, 4, 5, 7}
    if run.command.or_writes:
        allowed.add(1)
    if run.full:
        allowed.add(6)
    if run.unreadable:
        allowed -= {0, 1}
    else:
        allowed.discard(5)
    if run.clean:
        allowed.discard(3)
    if not run.files():
        allowed -= {3, 5}
    elif run.files()[0] in run.unreadable:
        allowed &= {5, 7}
    return "" if run.status in allowed else f"status {run.status} where only {sorted(allowed)} may come"


def of_output(run):
    name = run.command.name
    if run.full:
        return ""
    if run.status in (0, 1):
        pattern = OUTPUTS[run.command.writes if run.status == 0 else run.command.or_writes]
    elif name == "trace" or (run.command.writes_as_it_goes and run.status == 7):
        pattern = "([^\n]+\n)*"
    else:
        pattern = ""
    if not matches(pattern, run.out):
        return "an output of another form"
    return "" if run.status != 0 or is_counted(run.command.writes, run.out.splitlines()) else "lines that are counted wrongly"


def is_counted(text, lines):
    """Whether the numbers of the lines of a text are right."""
    match text:
        case "states":
            return all(line.split()[1] == str(number) for number, line in enumerate(lines, 1))
        case "boxes" | "certificate":
            return lines[-1].split()[1] == str(len(lines) - 1)
        case "proof":
            return lines[-1] == f"pairs {sum(line[0] == 'p' for line in lines[1:-1])}"
        case "table" | "memory" | "plan":
            return lines[0].endswith(f" {len(lines) - 1}")
    return True


def of_message(run):
    name, files = run.command.name, run.spelled.files
    if run.status == 3:
        patterns = [f"{re.escape(text)}: line [1-9][0-9]*: ({REASONS[kind]})\n" for kind, text in files if kind in REASONS]
    elif run.status == 4:
        patterns = [f"{re.escape(text)}: more than {LIMITS[kind]} bytes\n" for kind, text in files]
        if run.command.counts_entries:
            patterns.append(f"{NUMBER} entries needed, limit {NUMBER}\n")
    elif run.status == 5:
        patterns = [f"{re.escape(text)}: read fault\n" for _, text in files if text in run.unreadable]
    else:
        patterns = [{6: "write fault\n", 7: "out of memory\n"}.get(run.status, "")]
        if run.status == 0 and run.makes_table():
            order = ", order [0-4]{5}" if name == "arrange" or "--order" in run.options() else ""
            patterns = [f"rules {NUMBER}, flagged {NUMBER}{order}\n"]
    return "" if any(matches(pattern, run.err) for pattern in patterns) else "a message of another form"
