"""Files that are put into place all together, or not at all."""
import contextlib
import os

from tcam_razor import script


class Files:
    """Files with their bytes and modes, by their paths."""

    def __init__(self):
        self.files = []

    def add(self, path, data, mode=0o644):
        self.files.append((path, data, mode))

    def put(self):
        """Writes each file beside its place, and then gives all their names; where that can't be done, all is as it was."""
        with script.unstopped(), contextlib.ExitStack() as clear, contextlib.ExitStack() as undo:
            written = [(written_beside(undo, path, data, mode), path) for path, data, mode in self.files]
            # Only names change from here on.
            for path, place in written:
                rename(undo, clear, path, place)
            undo.pop_all()
        return [path for path, _, _ in self.files]


def written_beside(undo, path, data, mode):
    """The file under another name in its folder."""
    if path.is_dir():
        raise IsADirectoryError(0, "is a folder", str(path))
    for folder in reversed([it for it in path.parents if not it.exists()]):
        folder.mkdir()
        undo.callback(folder.rmdir)
    other = beside(path, "new")
    undo.callback(other.unlink, missing_ok=True)
    try:
        other.write_bytes(data)
    except OSError as fault:
        raise OSError(fault.errno, fault.strerror, str(path)) from None
    other.chmod(mode)
    return other


def rename(undo, clear, path, place):
    """Gives a file the name of the place; what had it has another one until all is done."""
    if os.path.lexists(place):
        earlier = beside(place, "old")
        os.link(place, earlier, follow_symlinks=False)
        clear.callback(earlier.unlink, missing_ok=True)
        undo.callback(os.replace, earlier, place)
    else:
        undo.callback(place.unlink, missing_ok=True)
    os.replace(path, place)


def beside(path, word):
    return path.with_name(f".{path.name}.{os.getpid()}.{word}")
