"""Names of protocols, ports and ICMP types that the dialects write. A name that isn't here is refused; its number may be written.

Those of IOS and EOS are from memory of the vendors' references. No device was asked.
"""
from __future__ import annotations

# `ip` stands for every protocol, and is in no table.
IOS_PROTOCOLS = {
    "icmp": 1, "igmp": 2, "ipinip": 4, "tcp": 6, "udp": 17, "gre": 47, "esp": 50, "ahp": 51, "eigrp": 88, "ospf": 89, "nos": 94,
    "pim": 103, "pcp": 108, "sctp": 132,
}
EOS_PROTOCOLS = {
    "icmp": 1, "igmp": 2, "tcp": 6, "udp": 17, "gre": 47, "esp": 50, "ahp": 51, "ospf": 89, "pim": 103, "vrrp": 112, "sctp": 132,
}
PROTOCOLS = {"ios": IOS_PROTOCOLS, "eos": EOS_PROTOCOLS}

# Those of /etc/protocols, as nft and iptables-save write them.
LINUX_PROTOCOLS = {
    "icmp": 1, "igmp": 2, "ipencap": 4, "tcp": 6, "udp": 17, "dccp": 33, "gre": 47, "esp": 50, "ah": 51, "ipv6-icmp": 58, "icmpv6": 58,
    "ospf": 89, "pim": 103, "ipcomp": 108, "comp": 108, "vrrp": 112, "l2tp": 115, "sctp": 132, "udplite": 136,
}

# Ports of tcp and of udp alike.
BOTH_PORTS = {
    "discard": 9, "domain": 53, "echo": 7, "pim-auto-rp": 496, "sunrpc": 111, "syslog": 514, "tacacs": 49, "talk": 517, "time": 37,
}
TCP_PORTS = BOTH_PORTS | {
    "bgp": 179, "chargen": 19, "cmd": 514, "daytime": 13, "exec": 512, "finger": 79, "ftp": 21, "ftp-data": 20, "gopher": 70,
    "hostname": 101, "ident": 113, "irc": 194, "klogin": 543, "kshell": 544, "login": 513, "lpd": 515, "nntp": 119, "pop2": 109,
    "pop3": 110, "smtp": 25, "telnet": 23, "uucp": 540, "whois": 43, "www": 80,
}
UDP_PORTS = BOTH_PORTS | {
    "biff": 512, "bootpc": 68, "bootps": 67, "dnsix": 195, "isakmp": 500, "mobile-ip": 434, "nameserver": 42, "netbios-dgm": 138,
    "netbios-ns": 137, "netbios-ss": 139, "non500-isakmp": 4500, "ntp": 123, "rip": 520, "snmp": 161, "snmptrap": 162, "tftp": 69,
    "who": 513, "xdmcp": 177,
}
# What EOS has besides.
EOS_TCP_PORTS = TCP_PORTS | {"https": 443, "ldap": 389, "ldaps": 636, "ssh": 22}

# The type that a word of IOS and EOS asks for, and the code, or None for every code.
DEVICE_ICMP: dict[str, tuple[int, int | None]] = {
    "administratively-prohibited": (3, 13), "echo": (8, None), "echo-reply": (0, None), "host-unreachable": (3, 1),
    "net-unreachable": (3, 0), "packet-too-big": (3, 4), "parameter-problem": (12, None), "port-unreachable": (3, 3),
    "protocol-unreachable": (3, 2), "redirect": (5, None), "router-advertisement": (9, None), "router-solicitation": (10, None),
    "source-quench": (4, None), "time-exceeded": (11, None), "timestamp-reply": (14, None), "timestamp-request": (13, None),
    "ttl-exceeded": (11, 0), "unreachable": (3, None),
}

# As `nft describe icmp type` and `nft describe icmp code` list them.
NFT_ICMP_TYPES = {
    "echo-reply": 0, "destination-unreachable": 3, "source-quench": 4, "redirect": 5, "echo-request": 8, "router-advertisement": 9,
    "router-solicitation": 10, "time-exceeded": 11, "parameter-problem": 12, "timestamp-request": 13, "timestamp-reply": 14,
    "info-request": 15, "info-reply": 16, "address-mask-request": 17, "address-mask-reply": 18,
}
NFT_ICMP_CODES = {
    "net-unreachable": 0, "host-unreachable": 1, "prot-unreachable": 2, "port-unreachable": 3, "frag-needed": 4, "net-prohibited": 9,
    "host-prohibited": 10, "admin-prohibited": 13,
}
# How nft answers a packet that it rejects, by the numbers that `nft -n` writes.
NFT_REJECTIONS = {
    "icmp": {number: name for name, number in NFT_ICMP_CODES.items()},
    "icmpx": {0: "no-route", 1: "port-unreachable", 2: "host-unreachable", 3: "admin-prohibited"},
}
# States of connections, with the bits by which `nft -n` writes them.
STATES = ("new", "established", "related", "invalid", "untracked")
STATE_BITS = {1: "invalid", 2: "established", 4: "related", 8: "new", 64: "untracked"}
