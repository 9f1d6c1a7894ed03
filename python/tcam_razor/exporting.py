"""A configuration from a list, read back and compared with the list before it is written.

    razor-export DIALECT [--name NAME] [--call WORD=VERDICT].. [--unchecked] LIST

Dialects: `ios`, `eos`, `nft`. LIST is a path, or `-` for standard input. Each rule becomes lines in order, numbered by tens; of
nft the last rule becomes the policy. The text is imported again (of nft: loaded into a namespace of its own, and listed), and
`razor equiv` compares it with the list.

  --name NAME          the name of the access list, or of nft's table; RAZOR if not said
  --call WORD=VERDICT  the verdict that a decision stands for: permit and accept let a packet pass, deny and drop don't; these four
                       words need no --call
  --unchecked          writes the text without reading it back, where razor, nft or unshare isn't there

A list that was imported under assumptions says them in its first line. They aren't in the text: lines that matched nothing under
them are gone, and lines on ICMP types are open. So such a text is none to load in the place of the one imported: a notice says so.

The status is 0 where the text was written, 2 for wrong words, 3 where rules have no exact form or the text decides a header
otherwise, 5 and 6 for faults of reading and writing, 126 where what compares them isn't there.
"""
from __future__ import annotations

import contextlib
import os
import re
import shutil
import subprocess
from itertools import product
from typing import Callable, Iterator, Mapping

from . import commands, importing, lists, program, razor, script
from .answers import List
from .configurations import fields, listing, names
from .configurations.fields import Box, Spans
from .configurations.listing import Refused, dotted
from .errors import BadText, NotExported, NotFound

# The words that let a packet pass and that don't, by dialect.
VERDICTS = {"ios": ("permit", "deny"), "eos": ("permit", "deny"), "nft": ("accept", "drop")}
KNOWN = {"permit": 0, "accept": 0, "deny": 1, "drop": 1}
LIST_NAME = re.compile(r"[A-Za-z][A-Za-z0-9_.-]{0,62}")
TABLE_NAME = re.compile(r"[A-Za-z][A-Za-z0-9_]{0,30}")
# Protocols that IOS and EOS name alike; others are written as numbers.
BY_NAME = {names.IOS_PROTOCOLS[name]: name for name in ("icmp", "sctp", "tcp", "udp")}
NFT_HEADERS = {number: name for name, number in names.LINUX_PROTOCOLS.items() if number in fields.PORTED}
# The first line of a list that was imported under assumptions.
ASSUMED = re.compile(r"# (?:ios|eos|nft|iptables) .*?, ((?:state|fragments|icmp|in|out)=.*)")
# A network namespace of its own. Root needs no other user there, for whom the kernel takes no long texts at once.
NAMESPACE = ["unshare", "-n"] if os.geteuid() == 0 else ["unshare", "-rn"]
# Where administrators' programs are, though a user's PATH may not say so.
FOLDERS = os.pathsep.join([os.environ.get("PATH", os.defpath), "/usr/sbin", "/sbin"])


def exported(dialect: str, rules: List, *, name: str = "RAZOR", call: Mapping[str, str] | None = None, unchecked: bool = False) -> str:
    """The configuration of a list. Raises NotExported, or NotFound where what compares it isn't there."""
    calls = verdicts(dialect, name, call or {})
    found = read(rules)
    text = written(dialect, rules.name, found, name, calls)
    if not unchecked:
        compare(dialect, called(rules, found, calls), text, name)
    return text


def verdicts(dialect: str, name: str, call: Mapping[str, str]) -> dict[str, str]:
    """The dialect's word for each decision. A ValueError says which words are wrong."""
    if dialect not in VERDICTS:
        raise ValueError(f"dialect {dialect}: one of {', '.join(VERDICTS)}")
    if not (TABLE_NAME if dialect == "nft" else LIST_NAME).fullmatch(name):
        raise ValueError(f"--name {name}: letters, digits and `_`, a letter first")
    for word, verdict in call.items():
        if verdict not in KNOWN:
            raise ValueError(f"--call {word}={verdict}: permit, accept, deny or drop")
    return {word: VERDICTS[dialect][KNOWN[verdict]] for word, verdict in {**{word: word for word in KNOWN}, **call}.items()}


def read(rules: List) -> list[lists.Rule]:
    """The rules of a list. What is wrong with it the program says, where it is there."""
    try:
        return lists.rules_of(rules.name, rules.text.split("\n"))
    except BadText:
        with contextlib.suppress(NotFound):
            program.equiv(rules, rules, flags=True)
        raise


def assumptions(rules: List) -> str | None:
    """What was assumed where the list was imported."""
    found = ASSUMED.fullmatch(rules.text.partition("\n")[0].rstrip("\r"))
    return found[1] if found else None


def box_of(rule: lists.Rule) -> Box:
    return Box(*(fields.union(list(spans)) for spans in rule.spans))


def written(dialect: str, list_name: str, rules: list[lists.Rule], name: str, calls: Mapping[str, str]) -> str:
    """The text, not compared as yet."""
    lines: list[str] = []
    faults: list[str] = []
    for rule in rules:
        try:
            lines += lines_of(dialect, rule, calls)
        except Refused as refused:
            faults.append(f"line {rule.line}: {refused.reason}: {rule.text}")
    if not rules or box_of(rules[-1]) != fields.WHOLE:
        faults.append("the last rule doesn't match every header, and a configuration decides every one: add a rule that does")
    if faults:
        raise NotExported(list_name, tuple(faults))
    return chain(name, lines) if dialect == "nft" else access_list(dialect, name, lines)


def access_list(dialect: str, name: str, lines: list[str]) -> str:
    head = f"ip access-list extended {name}" if dialect == "ios" else f"ip access-list {name}"
    return "".join([f"{head}\n", *(f" {10 * number} {line}\n" for number, line in enumerate(lines, 1)), "!\n"])


def chain(name: str, lines: list[str]) -> str:
    """A chain of nft at hook forward, whose policy is the verdict of the last line."""
    inner = [f"type filter hook forward priority 0; policy {lines[-1].split()[-1]};", *lines[:-1]]
    return f"table ip {name} {{\n chain filter {{\n" + "".join(f"  {line}\n" for line in inner) + " }\n}\n"


def lines_of(dialect: str, rule: lists.Rule, calls: Mapping[str, str]) -> Iterator[str]:
    """The lines of a rule."""
    box = box_of(rule)
    if rule.is_flagged:
        raise Refused("has a flags mask, which takes no part")
    if box.has_ports and not listing.are_ported(box.protocols):
        raise Refused("ports of every protocol, or of one that has none: make a rule for each that is meant")
    if box.protocols == fields.single(0):
        raise Refused("protocol 0: devices take it for every protocol")
    if rule.decision not in calls:
        raise Refused(f"decision {rule.decision}: say --call {rule.decision}={'|'.join(VERDICTS[dialect])}")
    if dialect == "nft":
        return iter([statement(box, calls[rule.decision])])
    return entries(dialect, box, calls[rule.decision])


def entries(dialect: str, box: Box, verdict: str) -> Iterator[str]:
    """The entries of an access list that match a box."""
    number = box.protocols[0][0]
    if box.has_ports and number in (fields.DCCP, fields.UDPLITE):
        raise Refused(f"ports of protocol {number}, which {dialect} hasn't")
    protocol = "ip" if box.protocols == fields.EVERY_PROTOCOL else BY_NAME.get(number, str(number))
    source, destination = address(dialect, box.source), address(dialect, box.destination)
    return (f"{verdict} {protocol} {source}{source_port} {destination}{destination_port}"
            for source_port, destination_port in product(operators(box.source_ports), operators(box.destination_ports)))


def address(dialect: str, prefix: Spans) -> str:
    (value, length), = fields.prefixes(prefix)
    match length:
        case 0:
            return "any"
        case 32:
            return f"host {dotted(value)}"
    return f"{dotted(value)}/{length}" if dialect == "eos" else f"{dotted(value)} {dotted((1 << 32 - length) - 1)}"


def operators(ports: Spans) -> list[str]:
    """The port operators that together ask for these ports."""
    if ports == fields.EVERY_PORT:
        return [""]
    return [f" eq {low}" if low == high else f" range {low} {high}" for low, high in ports]


def statement(box: Box, verdict: str) -> str:
    """The rule of nft that decides a box."""
    parts = [f"ip {word} {dotted(value)}/{length}" for word, prefix in (("saddr", box.source), ("daddr", box.destination))
             for value, length in fields.prefixes(prefix) if length]
    ported = [(word, ports) for word, ports in (("sport", box.source_ports), ("dport", box.destination_ports)) if ports != fields.EVERY_PORT]
    number = box.protocols[0][0]
    parts += [f"{NFT_HEADERS[number]} {word} {{ {', '.join(ranges(ports))} }}" for word, ports in ported]
    if not ported and box.protocols != fields.EVERY_PROTOCOL:
        parts.append(f"meta l4proto {number}")
    return " ".join([*parts, verdict])


def ranges(ports: Spans) -> list[str]:
    return [str(low) if low == high else f"{low}-{high}" for low, high in ports]


def called(rules: List, found: list[lists.Rule], calls: Mapping[str, str]) -> List:
    """The list with the verdicts in place of its decisions, and else as it stands."""
    lines = rules.text.split("\n")
    for rule in found:
        line = lines[rule.line - 1].rstrip()
        front = line if rule.decision.startswith("#") else line.removesuffix(rule.decision)
        lines[rule.line - 1] = f"{front} {calls[rule.decision]}"
    return List("\n".join(lines), rules.name)


def compare(dialect: str, rules: List, text: str, name: str) -> None:
    """Reads the text back, and compares it with the list."""
    if dialect == "nft":
        back = importing.read("nft", listed(rules.name, text), f"ip {name} filter")
    else:
        back = importing.read(dialect, text, name)
    for fault in back.listing.faults:
        raise NotExported(rules.name, (f"the text isn't read back: {fault}",))
    difference = program.equiv(rules, List(back.text, "the text"), flags=True)
    if difference:
        raise NotExported(rules.name, (f"the text decides {difference.header} otherwise",))


def listed(list_name: str, text: str) -> str:
    """What nft lists of a text that it has loaded, in a namespace of its own."""
    for tool, package in (("unshare", "util-linux"), ("nft", "nftables")):
        if shutil.which(tool, path=FOLDERS) is None:
            raise NotFound(f"no program {tool} to compare the text with the list: Debian's package {package} has it; or say --unchecked")
    words = [*NAMESPACE, "sh", "-c", "nft -f - && nft -nj list ruleset"]
    ended = subprocess.run(words, input=text, capture_output=True, text=True, env=os.environ | {"PATH": FOLDERS})
    if ended.returncode and ended.stderr.startswith("unshare:"):
        raise NotFound(f"no namespace to compare the text with the list: {ended.stderr.strip()}; or say --unchecked")
    if "Message too long" in ended.stderr:
        raise NotFound("the text is too long to be compared with the list without root; or say --unchecked")
    if ended.returncode:
        raise NotExported(list_name, (f"nft doesn't load the text: {ended.stderr.strip().splitlines()[0]}",))
    return ended.stdout


def run(words: list[str]) -> int:
    parser = script.words(__doc__)
    parser.add_argument("dialect", metavar="DIALECT", choices=tuple(VERDICTS))
    parser.add_argument("--name", metavar="NAME", default="RAZOR")
    parser.add_argument("--call", metavar="WORD=VERDICT", action=commands.Pairs, default={})
    parser.add_argument("--unchecked", action="store_true")
    parser.add_argument("list", metavar="LIST")
    asked = parser.parse_args(words)
    rules = List(commands.read(asked.list), asked.list)
    try:
        text = exported(asked.dialect, rules, name=asked.name, call=asked.call, unchecked=asked.unchecked)
    except NotExported as refused:
        for fault in refused.faults:
            commands.tell(f"{asked.list}: {fault}")
        return commands.REFUSED
    except ValueError as fault:
        parser.error(str(fault))
    commands.answer(text)
    assumed = assumptions(rules)
    if assumed:
        commands.tell(f"{asked.list}: notice: made for {assumed} alone, which the text doesn't ask for: don't load it in the place of the one imported")
    if asked.unchecked:
        commands.tell(f"{asked.list}: notice: the text wasn't compared with the list")
    return commands.DONE


def call(program_of: Callable[[], str] = razor.found) -> None:
    """Runs the command; the function finds the program where RAZOR names none."""
    program.find_by(program_of)
    commands.call(run)
