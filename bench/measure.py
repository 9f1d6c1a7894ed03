"""Time and peak memory of a command, the best of three runs. Used by the scripts beside this file.

They time the programs that the variables RAZOR and RAZOR_BENCH of the environment name, or else those that `tools/build`
proves and builds.
"""
import pathlib
import re
import resource
import shutil
import signal
import subprocess
import sys
import tempfile
import time

ROOT = pathlib.Path(__file__).resolve().parents[1]
sys.path[:0] = [str(ROOT / "python"), str(ROOT / "tools")]

from building import programs
from tcam_razor.script import fail, shown

RUNS = 3

# Only proved programs are timed.
program = programs.proved


def time_tool():
    """The path of GNU time, which tells a program's peak memory."""
    path = shutil.which("time")
    if path is None:
        fail("GNU time is missing: apt-get install time")
    return path


def once(command, given=None, status=0, kept=True):
    """One run over a file that ends with a status: its milliseconds, its peak memory in bytes, and what it wrote, if that is kept."""
    written = tempfile.TemporaryFile() if kept else open("/dev/null", "w+b")
    with tempfile.NamedTemporaryFile("r") as report, written as out, open(given or "/dev/null", "rb") as text:
        whole = [time_tool(), "-v", "-o", report.name, *map(str, command)]
        start = time.perf_counter()
        ended = subprocess.run(whole, stdin=text, stdout=out, stderr=subprocess.PIPE)
        milliseconds = (time.perf_counter() - start) * 1000
        if ended.returncode != status:
            fail(f"{command} ends with {ended.returncode}: {ended.stderr.decode()}")
        peak = re.search(r"Maximum resident set size \(kbytes\): (\d+)", report.read())
        out.seek(0)
        return milliseconds, int(peak.group(1)) * 1024, out.read().decode()


def best(command, given=None, status=0, kept=True):
    """The least time and the least peak memory of three runs over a file, and what the command wrote, if that is kept."""
    runs = [once(command, given, status, kept) for _ in range(RUNS)]
    texts = {text for _, _, text in runs}
    if len(texts) != 1:
        fail(f"{command} writes different texts")
    return min(run[0] for run in runs), min(run[1] for run in runs), texts.pop()


# A line of `razor_bench phases`.
STEP = re.compile(r"(\w+) \d+ nanoseconds (\d+)")


def limited(command, seconds):
    """The seconds of the processor and the peak memory in bytes of one run; none where it takes more seconds than these.

    It must end well, or say that more entries are needed than the limit.
    """
    ended = within(command, seconds)
    if ended is None:
        return None
    status, used, peak, said = ended
    if status != 0 and not (status == 4 and " entries needed" in said):
        fail(f"{command} ends with {status}: {said}")
    return used, peak


def within(command, seconds, out=subprocess.DEVNULL):
    """The status of one run, its seconds of the processor, its peak memory in bytes, and what it said; none where it takes more seconds."""
    with tempfile.NamedTemporaryFile("r") as report:
        whole = [time_tool(), "-f", "%U %M", "-o", report.name, *map(str, command)]
        limit = lambda: resource.setrlimit(resource.RLIMIT_CPU, (seconds, seconds + 1))
        ended = subprocess.run(whole, stdin=subprocess.DEVNULL, stdout=out, stderr=subprocess.PIPE, preexec_fn=limit)
        if ended.returncode in (128 + signal.SIGXCPU, 128 + signal.SIGKILL):
            return None
        used, peak = report.read().splitlines()[-1].split()
        return ended.returncode, float(used), int(peak) * 1024, ended.stderr.decode()


class Builds:
    """Times of one diagram of a list, and what every command takes that reads the list."""

    # So often a run does its work, so that the start of the process counts little.
    TIMES = 10

    def __init__(self, bench, razor):
        self.bench = bench
        self.start, _, _ = best([razor, "audit", "/dev/null"])

    def timed(self, path, steps=("nodes",)):
        """The milliseconds of steps of `razor_bench phases`, and those of a process that reads the list and does nothing."""
        runs = (once([self.bench, "phases", self.TIMES], path)[2] for _ in range(RUNS))
        found = [line for text in runs for line in STEP.findall(text)]
        least = {step: min(int(time) for name, time in found if name == step) / 1e6 for step in ("rules", *steps)}
        return sum(least[step] for step in steps), self.start + least["rules"]


def plain(folder, name):
    """The path of a program of bench/plain, the same work in plain Rust."""
    if shutil.which("rustc") is None:
        fail("rustc is missing: apt-get install rustc")
    path = f"{folder}/{name}"
    subprocess.run(["rustc", "--edition", "2021", "-O", "-o", path, ROOT / f"bench/plain/{name}.rs"], check=True)
    return path


def output(command):
    """What a script of bench/ writes."""
    return subprocess.run(list(map(str, command)), capture_output=True, check=True, text=True).stdout


def list_text(kind, count):
    """The text of a list of bench/lists."""
    return output([ROOT / "bench/lists", kind, count])


def drawn_list(folder, kind, count):
    """The path of a list of bench/lists, which has the name that it has in a table."""
    path = pathlib.Path(f"{folder}/{kind}, {count:,}")
    path.write_text(list_text(kind, count))
    return path


def table(head, rows):
    """Prints a table as it stands in docs/BENCHMARKS.md."""
    print("| " + " | ".join(head) + " |")
    print("|" + "---|" * len(head))
    for row in rows:
        print("| " + " | ".join(map(shown, row)) + " |")


def megabytes(count):
    return f"{count / 1e6:.0f}"
