"""What cores gain on the decoder's trade-off with a certificate, and on levels of the same sizes that are nothing but arithmetic.

With a certificate a trade-off is explored by levels; without one two distributions at most are evaluated side by side. A pair is a
run on one core, each in turn, and a run on all. A row is the least and the middle wall-clock time on one core and on all, and the
middle of what the pairs gain. The sizes of the levels are read off a certificate of the program; a job of theirs, which the program
`bench` runs, takes as long as the row says. The longer the jobs, the less threads cost beside them.
"""
import argparse
import itertools
import os
import statistics
import subprocess
import tempfile
import time
from collections.abc import Sequence

from programs import ANALYSER, example, program
from tables import Table, count, list_rows

DECODER = "decoder, 8010"
WORDS = ["--algo", "storage", "--graph", example("h263_decoder.xml"), "--no-overlap", "--limit", "8010"]
MICROSECONDS = [150, 600, 2400]
"""How long a job of arithmetic takes, by row."""
TURNS = 10_000_000
"""The turns of arithmetic by which a core is measured."""


def row_of(microseconds: int) -> str:
    return f"{microseconds} microseconds"


def add_words(parser: argparse.ArgumentParser) -> None:
    parser.add_argument("pairs", metavar="PAIRS", nargs="?", type=count, default=20, help="pairs of runs, 20 by default")
    list_rows(parser, [DECODER, *map(row_of, MICROSECONDS)])


def cores() -> list[int]:
    return sorted(os.sched_getaffinity(0))


def seconds(words: Sequence[str], on: set[int]) -> float:
    """The wall-clock time of a run on these cores alone."""
    begun = time.perf_counter()
    subprocess.run(words, stdout=subprocess.DEVNULL, check=True, preexec_fn=lambda: os.sched_setaffinity(0, on))
    return time.perf_counter() - begun


def sizes(words: Sequence[str], certificate: str) -> list[int]:
    """How many members each level has. Its members have one storage, and channels there hold tokens of size 1."""
    subprocess.run(words, stdout=subprocess.DEVNULL, check=True)
    with open(certificate, encoding="utf-8") as lines:
        listed = [line.split() for line in lines]
    totals = [sum(map(int, line[1:])) for line in listed if line[0] == "member"]
    return [len(list(level)) for _, level in itertools.groupby(totals)]


def turns_in(path: str, microseconds: int) -> int:
    """How many turns of arithmetic take one core so long."""
    least = min(seconds([path, "levels", str(TURNS), "1"], {core}) for core in cores())
    return round(TURNS * microseconds / 1e6 / least)


def run(asked: argparse.Namespace) -> None:
    with tempfile.TemporaryDirectory() as folder:
        run_with(asked, os.path.join(folder, "certificate"))


def run_with(asked: argparse.Namespace, certificate: str) -> None:
    levels, every = program("bench"), cores()
    decoder = [program(ANALYSER), *WORDS, "--certificate", certificate]
    jobs = [str(size) for size in sizes(decoder, certificate)]
    cases = {DECODER: decoder}
    cases.update({row_of(most): [levels, "levels", str(turns_in(levels, most)), *jobs] for most in MICROSECONDS})
    times: dict[str, list[tuple[float, float]]] = {name: [] for name in cases}
    for number in range(asked.pairs):
        for name, words in cases.items():
            one = seconds(words, {every[number % len(every)]})
            times[name].append((one, seconds(words, set(every))))
    print(f"{len(jobs)} levels, {sum(map(int, jobs))} jobs, {len(every)} cores")
    table = Table([("a job", -18), ("one core, ms", 16), ("all, ms", 16), ("gain", 6)])
    for name, pairs in times.items():
        gain = statistics.median(alone / beside for alone, beside in pairs)
        table.row(name, *(shown([1e3 * pair[place] for pair in pairs]) for place in (0, 1)), f"{gain:.2f}")


def shown(milliseconds: Sequence[float]) -> str:
    """The least time and the middle one."""
    return f"{min(milliseconds):7.1f} {statistics.median(milliseconds):8.1f}"
