"""How a script reads its words and its texts, and how it ends where it can't go on.

Where a fault has a status of the program's (`errors`), the script ends with it; with 6 where it couldn't write, and else with 1.
"""
import argparse
import contextlib
import errno
import io
import os
import pathlib
import re
import signal
import subprocess
import sys
from typing import Any, Callable, Iterator, NoReturn, TextIO, cast

from tcam_razor.errors import RazorError, ReadFault, WriteFault

UNSEEN = re.compile(r"[\x00-\x1f\x7f-\x9f\u2028-\u202e\u2066-\u2069\udc80-\udcff]")

# Signals that end a script, behind what it does at its end.
STOPPING = (signal.SIGTERM, signal.SIGHUP)


def shown(name: object) -> str:
    """A name as it may stand in a line: what isn't seen in it, or turns what is seen around, is escaped."""
    return UNSEEN.sub(lambda found: escape(ord(found[0])), str(name))


def escape(code: int) -> str:
    if code >= 0xDC80:
        # A byte of a file's name that isn't text.
        code -= 0xDC00
    return f"\\x{code:02x}" if code < 0x100 else f"\\u{code:04x}"


class Words(argparse.ArgumentParser):
    """A parser of words, which says of one that is none what is seen of it, and doesn't hide that its help wasn't written."""

    def error(self, message: str) -> NoReturn:
        super().error(shown(message))

    def print_help(self, file: Any = None) -> None:
        print(self.format_help(), end="", file=file)


def words(says: str | None) -> Words:
    """A parser of the script's words, each option written whole, which shows what the script says of itself."""
    return Words(description=says, formatter_class=argparse.RawDescriptionHelpFormatter, allow_abbrev=False)


class Stopped(BaseException):
    """A signal came that ends the script, behind what is to be done at its end."""


def stop(number: int, _frame: Any) -> NoReturn:
    raise Stopped(number)


def run(main: Callable[[], object]) -> None:
    """Runs the script. It ends quietly where nobody reads it any more, and says in a line what it couldn't do."""
    for number in STOPPING:
        # A call behind `nohup` goes on.
        if signal.getsignal(number) == signal.SIG_DFL:
            signal.signal(number, stop)
    try:
        try:
            if sys.stdout is None:
                raise WriteFault(f"standard output: {os.strerror(errno.EBADF)}")
            main()
        finally:
            if sys.stdout:
                sys.stdout.flush()
    except BrokenPipeError:
        end_by(signal.SIGPIPE)
    except KeyboardInterrupt:
        end_by(signal.SIGINT)
    except Stopped as stopped:
        end_by(*stopped.args)
    except RazorError as fault:
        end(str(fault), fault.status)
    except OSError as fault:
        # What is written has no name: it is the output.
        end(said(fault), 1 if fault.filename is not None else WriteFault.status)
    except ValueError as fault:
        end(said(fault))
    except subprocess.CalledProcessError as fault:
        end(f"{pathlib.Path(fault.cmd[0]).name} ended with {fault.returncode}: {str(fault.stderr or '').strip()}")
    except SystemExit as ended:
        if not isinstance(ended.code, str):
            raise
        end(ended.code)


@contextlib.contextmanager
def unstopped() -> Iterator[None]:
    """Lets signals that would end the script wait until what is done here is done."""
    before = signal.pthread_sigmask(signal.SIG_BLOCK, (*STOPPING, signal.SIGINT))
    try:
        yield
    finally:
        signal.pthread_sigmask(signal.SIG_SETMASK, before)


@contextlib.contextmanager
def opened(path: str | os.PathLike[str]) -> Iterator[TextIO]:
    """A text, or that of standard input for `-`. Its lines end with a line feed alone; a byte that isn't ASCII is none of a text."""
    if path != "-":
        with open(path, encoding="ascii", errors="replace", newline="\n") as file:
            yield file
    elif sys.stdin is None:
        raise OSError(errno.EBADF, os.strerror(errno.EBADF))
    else:
        cast(io.TextIOWrapper, sys.stdin).reconfigure(encoding="ascii", errors="replace", newline="\n")
        yield sys.stdin


def lines(path: str | os.PathLike[str]) -> Iterator[str]:
    """The lines of a text, one after another as they are read, each with its line feed."""
    try:
        with opened(path) as text:
            yield from text
    except OSError as fault:
        raise ReadFault(f"{title(path)}: {fault.strerror}") from None


def title(path: str | os.PathLike[str]) -> str:
    """What a text is called in messages."""
    return shown("standard input" if path == "-" else os.fspath(path))


def said(fault: BaseException) -> str:
    """What a fault says: what the system couldn't do, and with which file."""
    if isinstance(fault, OSError) and fault.strerror:
        names = [fault.filename] if fault.filename is not None else []
        return ": ".join([*(shown(os.fsdecode(name) if isinstance(name, bytes) else name) for name in names), fault.strerror])
    return str(fault)


def fail(why: str) -> NoReturn:
    """Ends the script, which says why."""
    raise SystemExit(why)


def end(why: str, status: int = 1) -> NoReturn:
    """Ends with what is wrong, of which nothing is obeyed by a terminal."""
    drop_output()
    if sys.stderr:
        print(*map(shown, f"{pathlib.Path(sys.argv[0]).name}: {why}".rstrip("\n").split("\n")), sep="\n", file=sys.stderr)
    sys.exit(status)


def end_by(number: int) -> None:
    """Ends as a program does that doesn't catch the signal."""
    drop_output()
    signal.signal(number, signal.SIG_DFL)
    os.kill(os.getpid(), number)


def drop_output() -> None:
    """Gives up what wasn't written yet: it can't be."""
    os.dup2(os.open(os.devnull, os.O_WRONLY), 1)
