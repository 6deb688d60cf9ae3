"""What the whole trade-off between storage and rate costs.

Runs the program on examples, each up to a limit, and on drawn graphs. A row is the least wall-clock time of five runs on all cores
and on one core, the most memory of a run, the millions of instructions of one, where valgrind is there, how many distributions it
evaluates or, with a certificate, finds, and the text's first line.
"""
import argparse
import os
import random
import shutil
import tempfile
from math import gcd

import graphs
from programs import ALWAYS, ANALYSER, distributions, example, measured, program, written
from tables import Table, list_rows

CERTIFIED = "with a certificate"
WOVEN = "woven.xml"
"""The graph of rates 1 that is drawn."""
BRANCHING = {
    "drawn_20_28_2.xml": (2, 20, 28, 3),
    "drawn_20_28_3.xml": (3, 20, 28, 3),
    "drawn_24_34_1.xml": (1, 24, 34, 3),
    "drawn_30_45_1.xml": (1, 30, 45, 3),
    "drawn_40_60_1.xml": (1, 40, 60, 2),
}
"""The graphs without cycles that are drawn: by file the words of `branching`."""
MOST = 1_000_000
"""The most distributions that can be allowed."""
WITHOUT_END = ["--limit", "1000000000"]
"""The greatest limit: the trade-off ends where no memory buys more."""

CASES = [
    ("chain, 10", "chain.xml", ["--limit", "10"]),
    ("decoder, 8010", "h263_decoder.xml", ["--limit", "8010"]),
    ("converter, 60", "rate_converter.xml", ["--limit", "60"]),
    (CERTIFIED, "rate_converter.xml", ["--limit", "60"]),
    ("woven, 169", WOVEN, ["--limit", "169"]),
    ("lte_receiver", "lte_receiver.xml", WITHOUT_END),
    ("drawn 20-28-2", "drawn_20_28_2.xml", WITHOUT_END),
    ("drawn 20-28-3", "drawn_20_28_3.xml", WITHOUT_END),
    ("drawn 24-34-1", "drawn_24_34_1.xml", WITHOUT_END),
    ("drawn 30-45-1", "drawn_30_45_1.xml", WITHOUT_END),
    ("drawn 40-60-1", "drawn_40_60_1.xml", WITHOUT_END),
]
"""The rows: a name, a file, and what is asked. The last ones are drawn: so many actors, so many channels, and the state."""


def woven(state: int, actors: int = 20, channels: int = 40) -> str:
    """A graph of rates 1: a ring through all actors, and channels between two of them. Those that lead back in the order of the
    actors have tokens, the others none, so that a round is possible in the least buffers."""
    draw = random.Random(state)
    times = [draw.randint(1, 100) for _ in range(actors)]
    ring = list(range(actors))
    draw.shuffle(ring)
    ends = list(zip(ring, [*ring[1:], ring[0]]))
    for _ in range(channels - actors):
        source, target = draw.sample(range(actors), 2)
        ends.append((source, target))
    return graphs.file({f"a{actor}": time for actor, time in enumerate(times)},
                       [(f"a{source}", 1, 1, f"a{target}", draw.randint(4, 9) if source > target else 0) for source, target in ends])


def branching(state: int, actors: int, channels: int, most: int) -> str:
    """A graph without cycles and tokens, whose actors fire up to so many times in a round. A channel leads to each actor but the first
    one from one of the four before it, and the others lead on from any actor to any."""
    draw = random.Random(state)
    firings = [draw.randint(1, most) for _ in range(actors)]
    times = [draw.randint(1, 9) for _ in range(actors)]
    ends = [(draw.randrange(max(0, target - 4), target), target) for target in range(1, actors)]
    while len(ends) < channels:
        one, other = draw.randrange(actors), draw.randrange(actors)
        if one != other:
            ends.append((min(one, other), max(one, other)))
    rates = [gcd(firings[source], firings[target]) for source, target in ends]
    return graphs.file({f"a{actor}": time for actor, time in enumerate(times)},
                       [(f"a{source}", firings[target] // common, firings[source] // common, f"a{target}", 0)
                        for (source, target), common in zip(ends, rates)])


def drawn() -> dict[str, str]:
    """The graphs that are drawn, by file."""
    return {WOVEN: woven(1417), **{name: branching(*words) for name, words in BRANCHING.items()}}


def add_words(parser: argparse.ArgumentParser) -> None:
    list_rows(parser, (f"{name} ({file})" for name, file, _ in CASES))


def run(_: argparse.Namespace) -> None:
    path = program(ANALYSER)
    one_core = ["taskset", "-c", "0"] if shutil.which("taskset") else []
    columns = [("graph, limit", -18), ("status", 6), ("bytes", 9), ("ms", 8), ("one core", 8), ("MB", 7), ("M instr.", 8), ("distributions", 13)]
    table = Table(columns, after="first line")
    with tempfile.TemporaryDirectory() as folder:
        paths = {name: written(folder, name, text.encode()) for name, text in drawn().items()}
        for name, file, options in CASES:
            words = [path, "--algo", "storage", "--graph", paths.get(file) or example(file), "--no-overlap", *options]
            if name == CERTIFIED:
                words += ["--certificate", os.path.join(folder, "certificate")]
            all_words = [*words, "--distributions", str(MOST)]
            found, alone = measured(all_words), measured([*one_core, *all_words])
            table.row(name, found.status, found.bytes, found.milliseconds, alone.milliseconds, found.megabytes(), found.millions(ALWAYS),
                      distributions(words, MOST), after=found.first_line)
