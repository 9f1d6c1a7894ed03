"""The archive of a release, and what is installed of it."""
import gzip
import hashlib
import io
import tarfile

import contents
from building.sources import ROOT
from contents import mode, under

# Where each shell looks for its completions, below a prefix.
SHELLS = {
    "bash": "share/bash-completion/completions/razor",
    "zsh": "share/zsh/site-functions/_razor",
    "fish": "share/fish/vendor_completions.d/razor.fish",
}


def installed():
    """The program, the scripts, the manual and completions, below a prefix."""
    pages = {f"share/man/man{name[-1]}/{name}": data for name, data in contents.manual().items()}
    completions = {SHELLS[shell]: text for shell, text in contents.completions().items()}
    return {"bin/razor": contents.program(), **contents.scripts(), **pages, **completions}


def files(version, proved):
    """All files of the archive; the last one has the checksums of the others."""
    found = {
        "README.md": contents.readme(proved),
        **{name: (ROOT / name).read_bytes() for name in ("LICENSE", "CHANGELOG.md")},
        "KIT": version.encode(),
        **installed(),
        **under("docs", contents.documents()),
        **under("examples", contents.examples()),
    }
    sums = "".join(f"{hashlib.sha256(data).hexdigest()}  {path}\n" for path, data in sorted(found.items()))
    return {**found, "SHA256SUMS": sums.encode()}


def packed(folder, found, moment):
    """The bytes of an archive of files, in which every file is of this moment and of nobody."""
    whole = io.BytesIO()
    with gzip.GzipFile(fileobj=whole, mode="wb", mtime=moment) as zipped, tarfile.open(fileobj=zipped, mode="w") as archive:
        for path, data in sorted(found.items()):
            about = tarfile.TarInfo(f"{folder}/{path}")
            about.size, about.mode, about.mtime = len(data), mode(data), moment
            archive.addfile(about, io.BytesIO(data))
    return whole.getvalue()
