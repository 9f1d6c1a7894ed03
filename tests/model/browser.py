"""Chromium without a window: what a page looks like, and what it says in the console. Debian's package is `chromium`."""
import re
import shutil
import struct
import subprocess
import zlib

from model import cases

NAMES = ("chromium", "chromium-browser", "google-chrome")

SECONDS = 120

SAID = re.compile(r":CONSOLE[:(]")


def found():
    """The path of the browser, or none."""
    return next(filter(None, map(shutil.which, NAMES)), None)


def screenshot(page, picture, size=(1200, 2400), dark=False):
    """Draws the page into a file; what was said in the console."""
    words = ["--headless=new", "--no-sandbox", "--disable-gpu", "--hide-scrollbars", "--enable-logging=stderr", "--v=0"]
    words += [f"--user-data-dir={picture.parent}/browser", f"--window-size={size[0]},{size[1]}", f"--screenshot={picture}"]
    words += ["--force-dark-mode"] if dark else []
    try:
        ended = subprocess.run([found(), *words, page.as_uri()], capture_output=True, text=True, errors="replace", timeout=SECONDS)
    except subprocess.TimeoutExpired:
        raise cases.Skipped(f"Chromium drew no page in {SECONDS} seconds") from None
    return [line for line in ended.stderr.splitlines() if SAID.search(line)]


def different_rows(picture):
    """How many rows of points of a picture differ from each other: few, where it is empty."""
    data, at, packed, height = picture.read_bytes(), 8, b"", 1
    while at < len(data):
        size, kind = struct.unpack(">I4s", data[at : at + 8])
        part = data[at + 8 : at + 8 + size]
        height = struct.unpack(">I", part[4:8])[0] if kind == b"IHDR" else height
        packed += part if kind == b"IDAT" else b""
        at += size + 12
    raw = zlib.decompress(packed)
    stride = len(raw) // height
    return len({raw[row * stride + 1 : (row + 1) * stride] for row in range(height)})
