"""What runs inside a network namespace: it sends packets over a pair of interfaces, and reads what the kernel logs of them.

Called by `kernel`, by `unshare`, as `python3 -m tcam_razor.judge.namespace IN OUT`. It reads a request of JSON a line, and writes an
answer of JSON a line. A packet has the number of its header as its identification, by which a log message tells which it is.
"""
from __future__ import annotations

import json
import os
import socket
import struct
import subprocess
import sys
from typing import Any

from .packets import Form, packet

NFNETLINK, ULOG, LOG_PACKET, LOG_CONFIG = 12, 4, 0, 1
REQUEST = 5  # NLM_F_REQUEST | NLM_F_ACK
# The groups of log messages that are read: of rules that are tried, and of the judge's own.
TAGS, OWN = 5, 61007
# The identification of the packet behind the last one, and the most packets that are sent before it.
END, BATCH = 0xFFFF, 500
# A chain in front of all others, in which the last packet ends.
END_CHAIN = f"""table ip razor_end {{
 chain end {{
  type filter hook prerouting priority -1000000
  ip id {END} log prefix "end" group {OWN} drop
 }}
}}
"""


def run(words: list[str], text: str) -> dict[str, Any]:
    """Runs a program in the namespace."""
    try:
        ended = subprocess.run(words, input=text, capture_output=True, text=True)
    except FileNotFoundError:
        return {"status": 127, "out": "", "err": f"{words[0]}: not found"}
    return {"status": ended.returncode, "out": ended.stdout, "err": ended.stderr}


def expect(*words: str) -> str:
    ended = run(list(words), "")
    if ended["status"]:
        raise OSError(f"{' '.join(words)}: {ended['err'].strip()}")
    return str(ended["out"])


def setting(name: str, value: str) -> None:
    """Sets a variable of the kernel, where it has it."""
    path = f"/proc/sys/net/{name}"
    if os.path.exists(path):
        with open(path, "w", encoding="ascii") as file:
            file.write(value)


def address_of(interface: str) -> bytes:
    return bytes.fromhex(expect("ip", "-br", "link", "show", interface).split()[2].replace(":", ""))


class Wire:
    """A pair of interfaces, from whose one end packets come in at the other, and one by which they would go out."""

    def __init__(self, incoming: str, outgoing: str) -> None:
        for near, far in (("razor-wire", incoming), ("razor-far", outgoing)):
            expect("ip", "link", "add", near, "type", "veth", "peer", "name", far)
        for name in ("razor-wire", "razor-far", incoming, outgoing):
            setting(f"ipv6/conf/{name}/disable_ipv6", "1")
            expect("ip", "link", "set", name, "arp", "off", "up")
        expect("ip", "link", "set", "lo", "up")
        for name in ("all", incoming):
            setting(f"ipv4/conf/{name}/rp_filter", "0")
            setting(f"ipv4/conf/{name}/accept_local", "1")
        self.front = address_of(incoming) + address_of("razor-wire") + b"\x08\x00"
        self.socket = socket.socket(socket.AF_PACKET, socket.SOCK_RAW, 0)
        self.socket.bind(("razor-wire", 0))

    def send(self, data: bytes) -> None:
        self.socket.send(self.front + data)


class Log:
    """The messages of the kernel's packet log."""

    def __init__(self) -> None:
        self.socket = socket.socket(socket.AF_NETLINK, socket.SOCK_RAW, NFNETLINK)
        self.socket.setsockopt(socket.SOL_SOCKET, socket.SO_RCVBUF, 1 << 26)
        self.socket.bind((0, 0))
        self.socket.settimeout(60)
        for group in (TAGS, OWN):
            self.configure(group, attribute(1, b"\x01"))  # listen to this group
            self.configure(group, attribute(2, struct.pack("!IBx", 20, 2)))  # copy the header of IPv4
            self.configure(group, attribute(5, struct.pack("!I", 1)))  # send each message at once

    def configure(self, group: int, data: bytes) -> None:
        body = struct.pack("!BBH", 0, 0, group) + data
        self.socket.send(struct.pack("=IHHII", 16 + len(body), ULOG << 8 | LOG_CONFIG, REQUEST, 1, 0) + body)
        error, = struct.unpack("=i", self.socket.recv(4096)[16:20])
        if error:
            raise OSError(-error, os.strerror(-error), "the kernel's packet log")

    def messages(self) -> list[tuple[int, str, int]]:
        """The group, the prefix and the identification of each message, up to that of the last packet."""
        found: list[tuple[int, str, int]] = []
        while not found or found[-1][2] != END:
            data = self.socket.recv(1 << 17)
            while data:
                size, kind = struct.unpack("=IH", data[:6])
                if kind == ULOG << 8 | LOG_PACKET:
                    found.append(message(data[16:size]))
                data = data[(size + 3) & ~3:]
        return found[:-1]


def attribute(kind: int, data: bytes) -> bytes:
    size = 4 + len(data)
    return struct.pack("=HH", size, kind) + data + b"\0" * (-size % 4)


def message(data: bytes) -> tuple[int, str, int]:
    group, = struct.unpack("!H", data[2:4])
    at, parts = 4, {}
    while at + 4 <= len(data):
        size, kind = struct.unpack("=HH", data[at:at + 4])
        parts[kind & 0x3FFF] = data[at + 4:at + size]
        at += (size + 3) & ~3
    number, = struct.unpack("!H", parts[9][4:6])
    return group, parts.get(10, b"").rstrip(b"\0").decode("utf-8", "replace"), number


def sent(wire: Wire, log: Log, headers: list[list[int]], form: Form) -> list[list[tuple[int, str]]]:
    """Sends a packet for each header; the groups and prefixes that are logged of each, in order."""
    logged: list[list[tuple[int, str]]] = [[] for _ in headers]
    for start in range(0, len(headers), BATCH):
        batch = headers[start:start + BATCH]
        for number, header in enumerate(batch):
            wire.send(packet(number, header, form))
        wire.send(packet(END, (1, 1, 0, 0, 254)))
        for group, prefix, number in log.messages():
            if number < len(batch):
                logged[start + number].append((group, prefix))
    return logged


def main() -> None:
    incoming, outgoing = sys.argv[1:]
    # On one processor packets are taken in the order in which they are sent.
    os.sched_setaffinity(0, {min(os.sched_getaffinity(0))})
    wire, log = Wire(incoming, outgoing), Log()
    print(json.dumps({"ready": True}), flush=True)
    for line in sys.stdin:
        request = json.loads(line)
        if "run" in request:
            answer: Any = run(request["run"], request["text"])
        else:
            expect_end()
            answer = sent(wire, log, request["headers"], Form(*request["form"]))
        print(json.dumps(answer), flush=True)


def expect_end() -> None:
    """Puts the chain of the last packet in front of all that was loaded."""
    ended = run(["nft", "-f", "-"], "table ip razor_end\ndelete table ip razor_end\n" + END_CHAIN)
    if ended["status"]:
        raise OSError(ended["err"])


if __name__ == "__main__":
    main()
