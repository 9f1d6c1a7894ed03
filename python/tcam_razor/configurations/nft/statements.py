"""The statements of a rule: conditions, and the verdict at its end."""
from __future__ import annotations

from dataclasses import dataclass, field
from typing import Any

from .. import fields, names
from ..chains import Never, Step
from ..fields import Box
from ..listing import Refused
from .conditions import Conditions

# They decide nothing.
PASSED = ("counter", "log", "comment")
# Fields beside each other in a header, of which nft 1.0.6 loads two `!=` as one comparison.
NEIGHBOURS = (("sport", "dport"), ("type", "code"))
Statement = dict[str, Any]


def steps(statements: list[Statement], conditions: Conditions, family: str) -> list[Step]:
    """What a rule does. It is refused for its first statement without a form, but not if it matches nothing by another one."""
    rule = Rule(conditions, family)
    for statement in statements:
        try:
            rule.read(statement)
        except Refused as refused:
            rule.refusal = rule.refusal or refused
        except (AttributeError, IndexError, KeyError, RecursionError, TypeError, ValueError):
            rule.refusal = rule.refusal or Refused("a statement of a form that isn't known")
    for pair in NEIGHBOURS:
        if set(pair) <= negated(statements):
            rule.refusal = rule.refusal or Refused(f"both {'ports' if pair[0] == 'sport' else 'type and code'} negated:"
                                                   " nft 1.0.6 loads not both where it lists neither; make two rules of it")
    if rule.refusal:
        raise rule.refusal
    if not rule.boxes:
        raise Never("matches no header")
    return rule.steps


def negated(statements: list[Statement]) -> set[str]:
    """The fields of payloads that are compared by `!=` with one value."""
    found = set()
    for statement in statements:
        match statement:
            case {"match": {"op": "!=", "left": {"payload": {"field": name}}, "right": int() | str() as right}} if not str(right).startswith("@"):
                found.add(str(name))
    return found


@dataclass
class Rule:
    conditions: Conditions
    family: str
    boxes: list[Box] = field(default_factory=lambda: [fields.WHOLE])
    steps: list[Step] = field(default_factory=list)
    refusal: Refused | None = None

    def read(self, statement: Statement) -> None:
        (kind, value), = statement.items()
        if self.steps:
            raise Refused("something follows the verdict")
        match kind:
            case "match":
                self.boxes = fields.meet(self.boxes, self.conditions.match(value))
                if not self.boxes:
                    raise Never("matches no header")
            case "accept" | "drop":
                self.steps = [Step(self.boxes, "decide", kind)]
            case "reject":
                self.reject(value or {})
            case "jump" | "goto":
                self.steps = [Step(self.boxes, kind, value["target"])]
            case "return":
                self.steps = [Step(self.boxes, "return")]
            case "continue":
                self.steps = [Step(self.boxes, "pass")]
            case "vmap":
                self.steps = self.verdicts(value)
            case _ if kind not in PASSED or kind == "log" and isinstance(value, dict) and value.get("level") == "audit":
                raise Refused(f"{kind} statement")

    def reject(self, value: dict[str, Any]) -> None:
        kind = value.get("type", "icmp" if self.family == "ip" else "icmpx")
        if kind == "icmpv6":
            raise Never("matches no IPv4 packet")
        if kind == "tcp reset":
            self.boxes = fields.meet(self.boxes, [Box(protocols=fields.single(fields.TCP))])
            self.steps = [Step(self.boxes, "decide", "reject-tcp-reset")]
            return
        answer = value.get("expr", "port-unreachable")
        answer = names.NFT_REJECTIONS[kind].get(answer, answer)
        if answer not in names.NFT_REJECTIONS[kind].values():
            raise Refused(f"reject with {kind} {answer}")
        self.steps = [Step(self.boxes, "decide", f"reject-{kind}-{answer}")]

    def verdicts(self, value: dict[str, Any]) -> list[Step]:
        """A step for each key of a map of verdicts."""
        data = value["data"]
        pairs = self.conditions.sets.named(data) if isinstance(data, str) else data["set"]
        found = [step for key, verdict in pairs for step in self.verdict(value["key"], key, verdict)]
        if not found:
            raise Never("matches no packet that the list speaks of")
        return found

    def verdict(self, left: dict[str, Any], key: Any, verdict: dict[str, Any]) -> list[Step]:
        try:
            boxes = fields.meet(self.boxes, self.conditions.match({"op": "==", "left": left, "right": {"set": [key]}}))
        except Never:
            return []
        (act, more), = verdict.items()
        match act:
            case "accept" | "drop":
                return [Step(boxes, "decide", act)]
            case "jump" | "goto":
                return [Step(boxes, act, more["target"])]
            case "return":
                return [Step(boxes, "return")]
            case "continue":
                return [Step(boxes, "pass")]
        raise Refused(f"verdict {act}")
