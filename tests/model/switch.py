"""Open vSwitch over no device, in a folder of its own: Debian's package `openvswitch-switch`."""
import contextlib
import ipaddress
import json
import os
import pathlib
import re
import shutil
import socket
import subprocess
import time

from tcam_razor.headers import WITH_PORTS

SCHEMA = "/usr/share/openvswitch/vswitch.ovsschema"
NEEDED = ("ovsdb-tool", "ovsdb-server", "ovs-vswitchd", "ovs-vsctl", "ovs-ofctl")
SECONDS = 30

# The ports of the switch.
PORTS = (1, 2)

# The table of the switch in which a flow was found, or none, and the flow's cookie.
FLOW = re.compile(r"^ *(\d+)\. (?:No match|.*cookie (0x[0-9a-f]+))", re.MULTILINE)


def is_there():
    """Whether the switch is installed."""
    return os.path.exists(SCHEMA) and all(shutil.which(name, path=with_sbin()) for name in NEEDED)


class Switch:
    """A switch over no device; its files stand in a folder."""

    def __init__(self, folder):
        self.folder = folder
        self.environment = {**os.environ, "OVS_RUNDIR": folder, "OVS_LOGDIR": folder, "OVS_DBDIR": folder, "PATH": with_sbin()}
        self.running = []

    def start(self):
        self.run("ovsdb-tool", "create", "conf.db", SCHEMA)
        self.begin("ovsdb-server", "--remote=punix:db.sock", "--unixctl=db.ctl", "conf.db")
        self.wait_for("db.sock")
        # The socket is there a moment before anyone listens to it.
        self.run("ovs-vsctl", "--db=unix:db.sock", "--retry", f"--timeout={SECONDS}", "--no-wait", "init")
        self.begin("ovs-vswitchd", "--enable-dummy=override", "--disable-system", f"--unixctl={self.folder}/switch.ctl", "unix:db.sock")
        self.wait_for("switch.ctl")
        bridge = ("set", "bridge", "br0", "datapath-type=dummy", "fail-mode=secure", "protocols=OpenFlow13")
        self.run("ovs-vsctl", "--db=unix:db.sock", f"--timeout={SECONDS}", "add-br", "br0", "--", *bridge)
        for port in PORTS:
            self.run("ovs-vsctl", "--db=unix:db.sock", f"--timeout={SECONDS}", "add-port", "br0", f"p{port}", "--", "set", "interface", f"p{port}", "type=dummy", f"ofport_request={port}")

    def begin(self, *words):
        with open(f"{self.folder}/log", "a") as log:
            self.running.append(subprocess.Popen(words, cwd=self.folder, env=self.environment, stdin=subprocess.DEVNULL, stdout=log, stderr=log))

    def wait_for(self, name):
        until = time.monotonic() + SECONDS
        while not os.path.exists(f"{self.folder}/{name}"):
            if time.monotonic() > until or self.running[-1].poll() is not None:
                raise ValueError(f"the switch doesn't start:\n{pathlib.Path(self.folder, 'log').read_text()}")
            time.sleep(0.05)

    def run(self, *words, given=None):
        ended = subprocess.run(words, cwd=self.folder, env=self.environment, input=given, capture_output=True, text=True)
        if ended.returncode != 0:
            raise ValueError(f"{' '.join(words)} ended with {ended.returncode}: {ended.stderr}")
        return ended.stdout

    def clear(self):
        self.run("ovs-ofctl", "-O", "OpenFlow13", "del-flows", "br0")

    def put(self, flows):
        """Adds the flows at once."""
        self.bundle("add-flows", flows)

    def bundle(self, way, flows):
        self.run("ovs-ofctl", "-O", "OpenFlow13", "--bundle", way, "br0", "-", given="".join(flows))

    def drop(self, cookie, mask=2**64 - 1):
        """Removes the flows that have the cookie, in the bits of the mask."""
        self.run("ovs-ofctl", "-O", "OpenFlow13", "del-flows", "br0", f"cookie={cookie:#x}/{mask:#x}")

    def count(self, match):
        """How many flows have the match."""
        return self.run("ovs-ofctl", "-O", "OpenFlow13", "dump-flows", "br0", match).count("cookie=")

    def cookie(self, packet, table=0):
        """The cookie of the flow that decides the packet in a table of the switch, or 0 where none does."""
        said = self.asked("ofproto/trace", "br0", packet)
        found = {int(at): int(cookie or "0", 16) for at, cookie in FLOW.findall(said)}
        if table not in found:
            raise ValueError(f"ofproto/trace says no flow of table {table}:\n{said}")
        return found[table]

    def asked(self, method, *words):
        """What the switch answers, as `ovs-appctl` would show it; a program for each question takes far longer."""
        with socket.socket(socket.AF_UNIX) as control:
            control.connect(f"{self.folder}/switch.ctl")
            control.sendall(json.dumps({"id": 0, "method": method, "params": words}).encode())
            text = ""
            while True:
                text += control.recv(65_536).decode()
                with contextlib.suppress(ValueError):
                    answer = json.loads(text)
                    break
        if answer["error"]:
            raise ValueError(f"{method} {' '.join(words)}: {answer['error']}")
        return answer["result"]

    def stop(self):
        for process in reversed(self.running):
            process.terminate()
            process.wait()


def with_sbin():
    """The path on which programs of the system are found too."""
    return f"{os.environ.get('PATH', '')}:/usr/sbin:/sbin"


def packet_of(header, port=1):
    """A packet with the header that comes in by the port, as the switch is told of one."""
    source, destination = map(ipaddress.IPv4Address, header[:2])
    kind = WITH_PORTS.get(header.protocol)
    ports = f",{kind}_src={header.source_port},{kind}_dst={header.destination_port}" if kind else ""
    return f"in_port={port},{kind or f'ip,nw_proto={header.protocol}'},nw_src={source},nw_dst={destination}{ports}"
