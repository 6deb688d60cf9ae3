"""The programs that are measured, built where sources changed; and what a run of one costs."""
import os
import re
import shutil
import subprocess
import sys
import tempfile
import time
from collections.abc import Iterator, Sequence
from dataclasses import dataclass
from typing import Optional

ROOT = os.path.dirname(os.path.dirname(os.path.abspath(__file__)))
CRATES = os.path.join(ROOT, "crates")
ANALYSER = "sdf3analysis"
RUNS = 5
"""How often a program is run for its least time."""
ALWAYS = float("inf")
UNKNOWN = "-"
"""What a table shows of a number that wasn't counted."""


def tune() -> None:
    """Sets what the C library is told where the program is run by `sdf3analysis`, for all programs that are run from here."""
    with open(os.path.join(ROOT, "tools", "tunables"), encoding="utf-8") as file:
        own = os.environ.get("GLIBC_TUNABLES")
        os.environ["GLIBC_TUNABLES"] = ":".join([file.read().strip(), *([own] if own else [])])


def sources() -> Iterator[str]:
    yield os.path.join(ROOT, "crates.txt")
    for folder, inner, names in os.walk(CRATES):
        inner[:] = [name for name in inner if name != "out"]
        yield from (os.path.join(folder, name) for name in names)


def program(crate: str) -> str:
    """The path of a crate's program. It is built, and so proved, first where sources changed; that needs the command `rt`.
    $SDF3ANALYSIS names another analyser, as it does for the companions."""
    named = os.environ.get("SDF3ANALYSIS")
    if named and crate == ANALYSER:
        if shutil.which(named) is None:
            sys.exit(f"$SDF3ANALYSIS names no program: {named}")
        return named
    folder = os.path.join(CRATES, crate)
    path = os.path.join(folder, "out", crate)
    if not os.path.exists(path) or any(os.path.getmtime(source) > os.path.getmtime(path) for source in sources()):
        if shutil.which("rt") is None:
            sys.exit(f"{path} isn't there, or older than its sources, and there is no command rt that builds it")
        done = subprocess.run(["rt", "run"], cwd=folder, stdin=subprocess.DEVNULL, capture_output=True, text=True)
        if not os.path.exists(path):
            sys.exit(done.stdout + done.stderr)
        os.utime(path)
    return path


def example(name: str) -> str:
    """The path of a file of `examples/`."""
    return os.path.join(ROOT, "examples", name)


def written(folder: str, name: str, data: bytes) -> str:
    """The path of a file of a folder, into which the data are put."""
    path = os.path.join(folder, name)
    with open(path, "wb") as file:
        file.write(data)
    return path


def instructions(words: Sequence[str]) -> Optional[float]:
    """The instructions of a run, in millions, where valgrind is there."""
    if shutil.which("valgrind") is None:
        return None
    done = subprocess.run(["valgrind", "--tool=callgrind", "--callgrind-out-file=/dev/null", *words], capture_output=True, text=True)
    found = re.search(r"Collected : (\d+)", done.stderr)
    return int(found.group(1)) / 1e6 if found else None


def memory(words: Sequence[str]) -> float:
    """The most memory of a run at one moment, in megabytes. Where GNU time isn't there, at least what this program itself takes,
    since a process counts what it was before it became the program."""
    watch = shutil.which("time")
    if watch is not None:
        with tempfile.NamedTemporaryFile("r", encoding="utf-8") as out:
            subprocess.run([watch, "-f", "%M", "-o", out.name, *words], capture_output=True)
            return int(out.read().split()[-1]) / 1e3
    child = subprocess.Popen(words, stdout=subprocess.DEVNULL, stderr=subprocess.DEVNULL)
    _, _, usage = os.wait4(child.pid, 0)
    child.returncode = 0
    kilobytes: int = usage.ru_maxrss
    return kilobytes / 1e3


def distributions(words: Sequence[str], most: int) -> str:
    """The least number of `--distributions` with which a search ends, as a table shows it, if it is no more than `most`."""

    def ends(number: int) -> bool:
        return subprocess.run([*words, "--distributions", str(number)], capture_output=True).returncode == 0

    high = 1
    while not ends(high):
        if high == most:
            return UNKNOWN
        high = min(2 * high, most)
    low = high // 2 + 1
    while low < high:
        middle = (low + high) // 2
        low, high = (low, middle) if ends(middle) else (middle + 1, high)
    return f"{high:,}"


def millions(words: Sequence[str]) -> str:
    """The millions of instructions of a run, as a table shows them."""
    count = instructions(words)
    return UNKNOWN if count is None else f"{count:.1f}"


@dataclass(frozen=True)
class Measured:
    """Some runs with the same words, each a process of its own: the least wall-clock time of one, and how the last one ended."""

    words: Sequence[str]
    seconds: float
    ended: "subprocess.CompletedProcess[bytes]"

    @property
    def status(self) -> int:
        return self.ended.returncode

    @property
    def bytes(self) -> int:
        """The length of what was printed."""
        return len(self.ended.stdout)

    @property
    def milliseconds(self) -> str:
        return f"{self.seconds * 1e3:.1f}"

    @property
    def first_line(self) -> str:
        """The first line that was printed, or that was told on standard error where nothing was."""
        return first_line(self.ended)

    def megabytes(self) -> str:
        """The most memory of one more run."""
        return f"{memory(self.words):.1f}"

    def millions(self, most: float = 1.0) -> str:
        """The millions of instructions of one more run, unless a run takes more than so many seconds."""
        return millions(self.words) if self.seconds <= most else UNKNOWN


def first_line(ended: "subprocess.CompletedProcess[bytes]") -> str:
    printed: bytes = ended.stdout or ended.stderr
    return printed.split(b"\n")[0].decode()


def measured(words: Sequence[str]) -> Measured:
    """The runs of a program with these words."""
    begun = time.perf_counter()
    ended = subprocess.run(words, capture_output=True)
    best = time.perf_counter() - begun
    for _ in range(RUNS - 1):
        begun = time.perf_counter()
        ended = subprocess.run(words, capture_output=True)
        best = min(best, time.perf_counter() - begun)
    return Measured(words, best, ended)
