"""What the commands over a rate's steps cost where their input is large.

Draws the graphs: one of greatest size that is expanded, one that has an order of many entries; completes many rounds of the decoder of
`examples/`. A row is the least wall-clock time of five runs of the program, the most memory of one, the millions of instructions of
one, where valgrind is there and a run takes no more than a second, and the text's first line. The last two rows of the decoder are for
each other: what a million rounds cost beside the rate alone.
"""
import argparse
import os
import tempfile
from collections.abc import Callable
from dataclasses import dataclass
from functools import partial
from typing import Optional

import graphs
from programs import ANALYSER, example, measured, program, written
from tables import Table, add_word

FASTEST = "blocks=2423,coefficients=2,pixels=2396"
"""The buffers of the decoder's last point."""


@dataclass(frozen=True)
class Case:
    """A row: its name, what makes the graph's text or None for the decoder, the command, and the words after the graph."""

    name: str
    make: Optional[Callable[[], str]]
    algorithm: str
    options: list[str]


def rings(actors: int) -> str:
    """Two rings through the same actors, in one direction and in the other."""
    names = [f"a{number}" for number in range(actors)]
    following = [*names[1:], names[0]]
    channels: list[graphs.Channel] = [(name, 1, 1, later, 1) for name, later in zip(names, following)]
    channels += [(later, 1, 1, name, 1) for name, later in zip(names, following)]
    return graphs.file({name: 1 + number % 7 for number, name in enumerate(names)}, channels)


def fan(firings: int, put: int) -> str:
    """An actor whose firing feeds so many of another one, which feed the next firing of the first."""
    taken = put // firings
    return graphs.file({"x": 3, "y": 2}, [("x", firings * taken, taken, "y", 0), ("y", taken, firings * taken, "x", firings * taken)])


def ordered(entries: int) -> Case:
    order = ",".join(["x", *["y"] * (entries - 1)])
    return Case(f"ordered, {entries:,} entries", partial(fan, entries - 1, entries - 1), "ordered", ["--states", "200000", "--order", order])


def completed(rounds: int) -> Case:
    options = ["--no-overlap", "--buffers", FASTEST, "--rounds", str(rounds)]
    return Case(f"complete, decoder, {rounds:,} rounds", None, "complete", options)


def cases(folder: str) -> list[Case]:
    """The rows; what they write lies in the folder."""
    out = ["--output", os.path.join(folder, "expanded.xml")]
    return [
        Case("expand, 128 actors, 256 channels", lambda: rings(128), "expand", out),
        Case("expand, 128 firings at rates of 1,000,000", lambda: fan(127, 1_000_000), "expand", out),
        *(ordered(entries) for entries in (16_000, 32_000, 64_000)),
        *(completed(rounds) for rounds in (1, 1_000, 1_000_000)),
        Case("throughput, decoder", None, "throughput", ["--no-overlap", "--buffers", FASTEST]),
    ]


def add_words(parser: argparse.ArgumentParser) -> None:
    add_word(parser, (case.name for case in cases("")))


def run(asked: argparse.Namespace) -> None:
    path = program(ANALYSER)
    table = Table([("command", -42), ("status", 6), ("ms", 8), ("MB", 6), ("M instr.", 8)], after="first line")
    with tempfile.TemporaryDirectory() as folder:
        for case in [case for case in cases(folder) if asked.word in case.name]:
            graph = example("h263_decoder.xml") if case.make is None else written(folder, "graph.xml", case.make().encode())
            found = measured([path, "--algo", case.algorithm, "--graph", graph, *case.options])
            table.row(case.name, found.status, found.milliseconds, found.megabytes(), found.millions(), after=found.first_line)
