"""Calls the commands of the package as a user does, each in a process of its own.

The variable RAZOR names the program, or else the folder of its proved build does, where it was built.
"""
import os
import pathlib
import shutil
import subprocess
import sys
import unittest

PACKAGE = pathlib.Path(__file__).resolve().parents[1]
SAMPLES = PACKAGE / "tests/samples"
BUILT = PACKAGE.parent / "crates/razor_cli/out/razor_cli"

if "RAZOR" not in os.environ and BUILT.exists():
    os.environ["RAZOR"] = str(BUILT)

with_program = unittest.skipUnless(os.environ.get("RAZOR") or shutil.which("razor"), "there is no program razor: set RAZOR")


def call(module, *words, given="", variables=None):
    """How a command of a module ends on these words."""
    code = f"from tcam_razor import {module}\n{module}.call()"
    environment = os.environ | {"PYTHONPATH": str(PACKAGE), "PYTHONDONTWRITEBYTECODE": "1"} | (variables or {})
    return subprocess.run([sys.executable, "-c", code, *map(str, words)], input=given, capture_output=True, text=True, env=environment)


def sample(name):
    return (SAMPLES / name).read_text()
