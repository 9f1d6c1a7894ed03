"""Draws policies for capirca, Google's generator of access lists: one policy becomes texts of several dialects."""
import pathlib
import subprocess

from stand.first_match import dotted

TARGETS = "header {\n  target:: cisco EDGE extended\n  target:: arista EDGE extended\n  target:: iptables INPUT DROP nostate\n}\n"
BASES = (10 << 24, 192 << 24 | 168 << 16, 203 << 24 | 113 << 8, 172 << 24 | 16 << 16)
NETWORKS, SERVICES = ("NETA", "NETB", "NETC", "NETD"), ("SVCA", "SVCB", "SVCC")
WORDS = ["aclgen", "--base_directory", "pol", "--definitions_directory", "def", "--output_directory", "out", "--policy_file", "pol/edge.pol", "--max_renderers", "1"]


def network(rng):
    length = rng.choice([8, 12, 16, 20, 24, 28, 30, 32])
    return f"{dotted((rng.choice(BASES) ^ rng.getrandbits(20)) >> 32 - length << 32 - length)}/{length}"


def service(rng):
    low = rng.choice([22, 53, 80, 443, rng.randrange(1, 60000)])
    high = rng.choice([low, low, low + 1, min(65535, low + rng.randrange(1, 5000))])
    span = f"{low}-{high}" if high > low else str(low)
    return "\n   ".join([f"{span}/tcp", f"{span}/udp"])


def definitions(rng, names, drawn):
    return "".join(f"{name} = " + "\n   ".join(sorted({drawn(rng) for _ in range(rng.randrange(1, 4))})) + "\n" for name in names)


def term(rng, number):
    parts = []
    if rng.random() < 0.7:
        parts.append(f"source-address:: {rng.choice(NETWORKS)}")
    if rng.random() < 0.6:
        parts.append(f"destination-address:: {rng.choice(NETWORKS)}")
    if rng.random() < 0.7:
        parts.append(f"protocol:: {rng.choice(['tcp', 'udp', 'tcp udp'])}")
        if rng.random() < 0.3:
            parts.append(f"source-port:: {rng.choice(SERVICES)}")
        if rng.random() < 0.8:
            parts.append(f"destination-port:: {rng.choice(SERVICES)}")
    elif rng.random() < 0.5:
        parts.append(f"protocol:: {rng.choice(['gre', 'esp', 'icmp', 'ospf', 'igmp', 'esp gre'])}")
    if rng.random() < 0.2:
        parts.append("logging:: true")
    parts.append(f"action:: {rng.choice(['accept', 'deny', 'accept'])}")
    return f"term t{number} {{\n" + "".join(f"  {part}\n" for part in parts) + "}\n"


def texts(rng, folder):
    """The texts for IOS, EOS and iptables of a drawn policy; None where capirca has none."""
    folder = pathlib.Path(folder)
    policy = TARGETS + "".join(term(rng, number) for number in range(rng.randrange(2, 10))) + "term last { action:: deny }\n"
    for name, text in (("pol/edge.pol", policy), ("def/n.net", definitions(rng, NETWORKS, network)), ("def/s.svc", definitions(rng, SERVICES, service))):
        (folder / name).parent.mkdir(exist_ok=True)
        (folder / name).write_text(text)
    (folder / "out").mkdir()
    subprocess.run(WORDS, cwd=folder, capture_output=True)
    made = [folder / "out" / name for name in ("edge.acl", "edge.eacl", "edge")]
    return [path.read_text() for path in made] if all(path.exists() for path in made) else None
