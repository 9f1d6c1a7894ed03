"""The conditions of a rule, as boxes of headers. What isn't of the five fields is decided by what is assumed, or is refused."""
from __future__ import annotations

from dataclasses import dataclass
from typing import Any

from .. import fields, names
from ..chains import Never
from ..fields import Box
from ..listing import Assumed, Refused
from . import values
from .values import Sets

HEADERS = {"tcp": fields.TCP, "udp": fields.UDP, "dccp": fields.DCCP, "sctp": fields.SCTP, "udplite": fields.UDPLITE}
INTERFACES = {"iif": "in", "iifname": "in", "oif": "out", "oifname": "out"}
# What `meta` says of an IPv4 packet, by name and by number.
OF_IPV4: dict[str, tuple[Any, ...]] = {"nfproto": ("ipv4", 2), "protocol": ("ip", 0x0800)}

Condition = dict[str, Any]


@dataclass(frozen=True)
class Conditions:
    sets: Sets
    assumed: Assumed

    def match(self, condition: Condition) -> list[Box]:
        """The headers that a condition holds for; Never where it holds for no packet that the list speaks of."""
        (kind, what), = condition["left"].items()
        operator, right = condition["op"], condition["right"]
        match kind, what:
            case "concat", _:
                return self.concatenation(what, operator, right)
            case "payload", {"protocol": protocol, "field": name, **more} if not more:
                return [self.payload(protocol, name, operator, right)]
            case "meta", {"key": key, **more} if not more:
                return [self.meta(key, operator, right)]
            case "ct", {"key": "state", **more} if not more:
                return holds(self.state(operator, right), f"state={self.assumed.state}")
            case "&", [{"payload": {"protocol": "ip", "field": "frag-off"}}, 0x1FFF] if right == 0 and operator in ("==", "!="):
                return self.fragments(operator)
        raise outside(kind, what.get("key", "") if isinstance(what, dict) else "")

    def payload(self, protocol: str, name: str, operator: str, right: Any) -> Box:
        match protocol, name:
            case "ip", "saddr":
                return Box(source=self.sets.compared(values.ADDRESS, operator, right))
            case "ip", "daddr":
                return Box(destination=self.sets.compared(values.ADDRESS, operator, right))
            case "ip", "protocol":
                return Box(protocols=self.sets.compared(values.PROTOCOL, operator, right))
            case _, "sport" | "dport" if protocol == "th" or protocol in HEADERS:
                return self.ports(protocol, name, operator, right)
            case "icmp", "type" | "code":
                return self.icmp(name, operator, right)
            case "ip6" | "icmpv6", _:
                raise Never("matches no IPv4 packet")
        raise outside(protocol, name)

    def ports(self, protocol: str, name: str, operator: str, right: Any) -> Box:
        protocols = fields.EVERY_PROTOCOL if protocol == "th" else fields.single(HEADERS[protocol])
        ports = self.sets.compared(values.PORT, operator, right)
        return Box(source_ports=ports, protocols=protocols) if name == "sport" else Box(destination_ports=ports, protocols=protocols)

    def icmp(self, name: str, operator: str, right: Any) -> Box:
        asked = self.sets.compared(values.ICMP_TYPE if name == "type" else values.ICMP_CODE, operator, right)
        if self.assumed.icmp is None:
            raise Refused(f"icmp {name}: say --assume icmp=TYPE/CODE")
        kind, code = self.assumed.icmp
        holds(fields.holds(asked, kind if name == "type" else code), f"icmp={kind}/{code}")
        return Box(protocols=fields.single(1))

    def meta(self, key: str, operator: str, right: Any) -> Box:
        if key == "l4proto":
            return Box(protocols=self.sets.compared(values.PROTOCOL, operator, right))
        if key in OF_IPV4 and operator in ("==", "!="):
            if any(element in OF_IPV4[key] for element in self.sets.elements(right)) != (operator == "=="):
                raise Never("matches no IPv4 packet")
            return fields.WHOLE
        if key in INTERFACES and operator in ("==", "!="):
            return self.interface(key, operator, right)
        raise outside("meta", key)

    def interface(self, key: str, operator: str, right: Any) -> Box:
        side = INTERFACES[key]
        name = self.assumed.incoming if side == "in" else self.assumed.outgoing
        if name is None:
            raise Refused(f"{key}: say --assume {side}=NAME")
        asked = self.sets.elements(right)
        if not all(isinstance(element, str) and "\\" not in element for element in asked):
            raise Refused(f"{key} {right}")
        fits = any(is_named(name, element, key.endswith("name")) for element in asked)
        holds(fits == (operator == "=="), f"{side}={name}")
        return fields.WHOLE

    def state(self, operator: str, right: Any) -> bool:
        """Whether the state that is assumed is one of those that are asked for."""
        if self.assumed.state is None:
            raise Refused("ct state: say --assume state=NAME")
        listed = right if isinstance(right, list) else self.sets.elements(right)
        asked = [names.STATE_BITS.get(element, "") if isinstance(element, int) else element for element in listed]
        is_any_of = operator == "in" or len(asked) == 1 or not isinstance(right, list)
        if not all(element in names.STATES for element in asked) or operator not in ("in", "==", "!=") or not is_any_of:
            raise Refused(f"ct state {operator} {right}")
        return (self.assumed.state in asked) == (operator != "!=")

    def fragments(self, operator: str) -> list[Box]:
        """Whether the packet is a later fragment (`!=`), or isn't."""
        if not self.assumed.has_no_fragments:
            raise Refused("ip frag-off: say --assume fragments=no")
        return holds(operator == "==", "fragments=no")

    def concatenation(self, left: list[Any], operator: str, right: Any) -> list[Box]:
        """A box for each element."""
        if operator != "==":
            raise Refused(f"concatenation with {operator}")
        return [box for element in self.sets.elements(right) for box in self.element(left, element)]

    def element(self, left: list[Any], element: Any) -> list[Box]:
        if not isinstance(element, dict) or len(element.get("concat", [])) != len(left):
            raise Refused("concatenation with other than its elements")
        boxes = [fields.WHOLE]
        try:
            for part, value in zip(left, element["concat"]):
                boxes = fields.meet(boxes, self.match({"op": "==", "left": part, "right": value}))
        except Never:
            return []
        return boxes


def holds(is_so: bool, assumption: str) -> list[Box]:
    """Every header where a condition holds with what is assumed."""
    if not is_so:
        raise Never(f"matches no packet with {assumption}")
    return [fields.WHOLE]


def is_named(name: str, asked: str, has_wildcards: bool) -> bool:
    return name == asked or has_wildcards and asked.endswith("*") and name.startswith(asked[:-1])


def outside(kind: str, what: str) -> Refused:
    return Refused(f"{f'{kind} {what}'.strip()} isn't one of the five fields")
