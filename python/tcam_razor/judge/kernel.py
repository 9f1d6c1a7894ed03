"""The kernel of Linux as a judge, in a network namespace of its own: rulesets are loaded, packets are sent, and verdicts are read.

    with Kernel() as kernel:
        kernel.run("nft", "-f", "-", text=ruleset)
        kernel.logged(headers)          # of each header what rules logged, and what the judge's chains did
"""
from __future__ import annotations

import json
import os
import pathlib
import subprocess
import sys
from types import TracebackType
from typing import Any, Iterable, Sequence

from ..exporting import FOLDERS, NAMESPACE
from .namespace import OWN, TAGS
from .packets import Form

PACKAGE = pathlib.Path(__file__).resolve().parents[2]

__all__ = ["OWN", "TAGS", "Form", "Kernel", "NotLoaded", "Unavailable"]


class Unavailable(Exception):
    """There is no namespace, or a program isn't there that is needed in it."""


class NotLoaded(Exception):
    """A program refused a text in the namespace."""


class Kernel:
    def __init__(self, incoming: str = "razor-in", outgoing: str = "razor-out") -> None:
        words = [*NAMESPACE, sys.executable, "-B", "-m", "tcam_razor.judge.namespace", incoming, outgoing]
        environment = os.environ | {"PATH": FOLDERS, "PYTHONPATH": str(PACKAGE)}
        try:
            self.process = subprocess.Popen(words, stdin=subprocess.PIPE, stdout=subprocess.PIPE, stderr=subprocess.PIPE, text=True, env=environment)
        except FileNotFoundError:
            raise Unavailable("no program unshare: Debian's package util-linux has it") from None
        try:
            self.answer()
        except Unavailable:
            self.close()
            raise

    def __enter__(self) -> Kernel:
        return self

    def __exit__(self, kind: type[BaseException] | None, value: BaseException | None, trace: TracebackType | None) -> None:
        self.close()

    def close(self) -> None:
        """Ends the namespace."""
        self.process.kill()
        self.process.communicate()

    def answer(self) -> Any:
        assert self.process.stdout and self.process.stderr
        line = self.process.stdout.readline()
        if not line:
            told = self.process.stderr.read().strip().splitlines() or ["no answer"]
            raise Unavailable(f"no namespace in which packets are sent: {told[-1]}")
        return json.loads(line)

    def ask(self, request: dict[str, Any]) -> Any:
        assert self.process.stdin
        try:
            self.process.stdin.write(json.dumps(request) + "\n")
            self.process.stdin.flush()
        except BrokenPipeError:
            pass  # the answer says why
        return self.answer()

    def run(self, *words: str, text: str = "") -> str:
        """What a program writes that is run in the namespace."""
        ended = self.ask({"run": words, "text": text})
        if ended["status"] == 127:
            raise Unavailable(ended["err"])
        if ended["status"]:
            raise NotLoaded(f"{' '.join(words)}: {ended['err'].strip()}")
        return str(ended["out"])

    def logged(self, headers: Iterable[Sequence[int]], form: Form = Form()) -> list[list[tuple[int, str]]]:
        """Of a packet of each header the groups and prefixes that are logged, in order."""
        values = [form.flags, form.icmp, form.fragment, form.is_spoiled]
        answer = self.ask({"headers": [list(header) for header in headers], "form": values})
        return [[(group, prefix) for group, prefix in messages] for messages in answer]
