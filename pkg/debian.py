"""A Debian package of the program, built by `dpkg-deb`."""
import gzip
import os
import re
import subprocess

import contents
from building.sources import ROOT
from contents import mode, under

NAME = "tcam-razor"

CONTROL = """Package: {name}
{relations}Version: {version}
Architecture: {architecture}
Maintainer: {maintainer}
Installed-Size: {size}
Depends: libc6 (>= {libc})
Recommends: python3 (>= 3.10)
Suggests: nftables, openvswitch-switch
Section: net
Priority: optional
Description: {title}
 Turns filter lists in the ClassBench form into short tables for ternary
 memories. {promise}
 razor-show shows lists and tables with addresses in points, razor-flows
 writes a table as flows of OpenFlow, and razor-report writes a page on
 what a change of a list does. razor-import makes lists of access lists of
 IOS and EOS, and of chains of nftables and iptables; razor-export makes
 configurations of lists.
"""

PROVED = {
    "relations": "",
    "title": "verified compiler of packet classifiers into short TCAM tables",
    "promise": """The compiler is verified: every table that it writes decides each
 packet header as its list.""",
}

UNPROVED = {
    "relations": f"Provides: {NAME}\nConflicts: {NAME}\nReplaces: {NAME}\n",
    "title": "compiler of packet classifiers into short TCAM tables, not proved",
    "promise": """This program is not proved: it is built of the sources of a
 verified compiler, and nobody has proved it as it was built.""",
}

COPYRIGHT = """Format: https://www.debian.org/doc/packaging-manuals/copyright-format/1.0/
Upstream-Name: TCAM Razor

Files: *
License: MIT
"""

# Where Debian's Python looks for packages.
MODULES = "lib/python3/dist-packages"

# Where each shell looks for the completions of packages.
SHELLS = {
    "bash": "usr/share/bash-completion/completions/razor",
    "zsh": "usr/share/zsh/vendor-completions/_razor",
    "fish": "usr/share/fish/vendor_completions.d/razor.fish",
}


def name_of(proved):
    """The name of the package: one of a program that isn't proved has another."""
    return NAME if proved else f"{NAME}-unproved"


def files(changes, proved):
    """All files of the package; the manual and the changes are packed, as Debian wants them."""
    texts = f"usr/share/doc/{name_of(proved)}"
    return {
        "usr/bin/razor": contents.program(),
        **under("usr", contents.scripts(MODULES)),
        **{f"usr/share/man/man{name[-1]}/{name}.gz": zipped(data) for name, data in contents.manual().items()},
        **{SHELLS[shell]: text for shell, text in contents.completions().items()},
        f"{texts}/README.md": contents.readme(proved),
        f"{texts}/copyright": COPYRIGHT.encode() + licence(),
        f"{texts}/changelog.gz": zipped(changes),
        **under(f"{texts}/docs", contents.documents()),
        **under(f"{texts}/examples", contents.examples()),
    }


def zipped(data):
    return gzip.compress(data, 9, mtime=0)


def licence():
    """The licence as a field of the copyright file has it: indented, a point for an empty line."""
    lines = (ROOT / "LICENSE").read_text().splitlines()
    return "".join(f" {line or '.'}\n" for line in lines).encode()


def newest_libc(program):
    """The newest version of the C library whose functions the program asks for."""
    found = {tuple(map(int, version.split(b"."))) for version in re.findall(rb"GLIBC_(2\.\d+)\b", program)}
    return ".".join(map(str, max(found, default=(2, 17))))


def build(room, to, version, maintainer, moment, proved):
    """Builds the package in an empty folder, and puts it into another one; gives its path. The same files give the same bytes."""
    found = files((ROOT / "CHANGELOG.md").read_bytes(), proved)
    for path, data in found.items():
        place = room / path
        place.parent.mkdir(parents=True, exist_ok=True)
        place.write_bytes(data)
        place.chmod(mode(data))
    for folder, _, _ in os.walk(room):
        os.chmod(folder, 0o755)
    architecture = subprocess.run(["dpkg", "--print-architecture"], check=True, capture_output=True, text=True).stdout.strip()
    size = sum(map(len, found.values())) // 1024 + 1
    (room / "DEBIAN").mkdir()
    (room / "DEBIAN/control").write_text(
        CONTROL.format(
            name=name_of(proved), version=version, architecture=architecture, maintainer=maintainer, size=size,
            libc=newest_libc(found["usr/bin/razor"]), **(PROVED if proved else UNPROVED)
        )
    )
    package = to / f"{name_of(proved)}_{version}_{architecture}.deb"
    words = ["dpkg-deb", "--root-owner-group", "-Zxz", "--build", room, package]
    subprocess.run(words, check=True, capture_output=True, text=True, env={**os.environ, "SOURCE_DATE_EPOCH": str(moment)})
    return package
