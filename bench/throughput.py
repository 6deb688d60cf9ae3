"""What the rate of a graph costs, with its schedule and its need cycle.

A row is the least wall-clock time of five runs of the program, from the words to the whole text, the millions of instructions of one
run, where valgrind is there, and the text's first line.
"""
import argparse
import tempfile
from collections.abc import Callable
from dataclasses import dataclass, field

from nets import PRIMES, Graph, buffers, chain, converter, decoder, decoder_in_phases, million, ring, running, spent, treadmill
from programs import ALWAYS, ANALYSER, measured, program, written
from tables import Table, add_word


@dataclass(frozen=True)
class Case:
    name: str
    make: Callable[[], Graph]
    options: list[str] = field(default_factory=list)


CASES = [
    Case("decoder 594", lambda: decoder(594, 2), ["--no-overlap"]),
    Case("decoder 2376", lambda: decoder(2376, 2), ["--no-overlap"]),
    Case("decoder 594, two phases", lambda: decoder_in_phases(594, 2), ["--no-overlap"]),
    Case("decoder 2376, two phases", lambda: decoder_in_phases(2376, 2), ["--no-overlap"]),
    Case("converter", converter, ["--no-overlap"]),
    Case("ring of 128, 1 token", lambda: ring(128, 1)),
    Case("ring of 128, 60 tokens", lambda: ring(128, 60)),
    Case("ring of 16, own channels", lambda: ring(16, 100_000, PRIMES), ["--no-overlap"]),
    Case("ring of 128, own channels", lambda: ring(128, 100_000, PRIMES), ["--no-overlap"]),
    Case("a million at once", million),
    Case("100,000 running", lambda: running(100_000), ["--states", "1000"]),
    Case("treadmill", treadmill),
    Case("4,000,000 starts spent", spent),
    Case("chain of 6 in buffers", lambda: chain(6), buffers(6, 2)),
    Case("chain of 128 in buffers", lambda: chain(128), buffers(128, 2)),
]


def add_words(parser: argparse.ArgumentParser) -> None:
    add_word(parser, (case.name for case in CASES))


def run(asked: argparse.Namespace) -> None:
    path = program(ANALYSER)
    table = Table([("graph", -26), ("status", 6), ("bytes", 9), ("ms", 8), ("M instr.", 9)], after="first line")
    with tempfile.TemporaryDirectory() as folder:
        for case in [case for case in CASES if asked.word in case.name]:
            file = written(folder, "graph.xml", case.make().text().encode())
            states = [] if "--states" in case.options else ["--states", "200000"]
            found = measured([path, "--algo", "throughput", "--graph", file, *states, *case.options])
            table.row(case.name, found.status, found.bytes, found.milliseconds, found.millions(ALWAYS), after=found.first_line)
