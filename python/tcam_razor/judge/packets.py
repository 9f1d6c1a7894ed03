"""IPv4 packets of headers, as bytes."""
from __future__ import annotations

import struct
from dataclasses import dataclass
from typing import Sequence

SYN = 0x02
ICMP, TCP, UDP, DCCP, SCTP, UDPLITE = 1, 6, 17, 33, 132, 136


@dataclass(frozen=True)
class Form:
    """What a packet has beside its header. `fragment` is the word of its flags and offset."""

    flags: int = SYN
    icmp: tuple[int, int] = (8, 0)
    fragment: int = 0
    is_spoiled: bool = False  # so that the checksum of TCP is wrong


def packet(number: int, header: Sequence[int], form: Form = Form()) -> bytes:
    """A packet with this identification, whose checksums hold: connection tracking asks for them."""
    source, destination, _, _, protocol = header
    pseudo = struct.pack("!IIBB", source, destination, 0, protocol)
    body = body_of(header, pseudo, form)
    front = struct.pack("!BBHHHBBHII", 0x45, 0, 20 + len(body), number, form.fragment, 64, protocol, 0, source, destination)
    return front[:10] + struct.pack("!H", checksum(front)) + front[12:] + body


def body_of(header: Sequence[int], pseudo: bytes, form: Form) -> bytes:
    _, _, source_port, destination_port, protocol = header
    ports = struct.pack("!HH", source_port, destination_port)
    match protocol:
        case 6:
            body = ports + struct.pack("!IIBBHHH", 1, 0, 0x50, form.flags, 1024, 0, 0)
            check = checksum(pseudo + struct.pack("!H", len(body)) + body) ^ form.is_spoiled
            return body[:16] + struct.pack("!H", check) + body[18:]
        case 17 | 136:
            body = ports + struct.pack("!HH", 8, 0)
            return body[:6] + struct.pack("!H", checksum(pseudo + struct.pack("!H", 8) + body) or 0xFFFF)
        case 1:
            body = struct.pack("!BBHHH", *form.icmp, 0, 7, 7)
            return body[:2] + struct.pack("!H", checksum(body)) + body[4:]
        case 33 | 132:
            return ports + bytes(24)
    return bytes(24)


def checksum(data: bytes) -> int:
    data += b"\0" * (len(data) % 2)
    total: int = sum(struct.unpack(f"!{len(data) // 2}H", data))
    while total >> 16:
        total = (total & 0xFFFF) + (total >> 16)
    return ~total & 0xFFFF
