"""What the search by events costs alone, on graphs of which needs find the loop, too.

A row is the millions of instructions of a run of the program `bench` with at most 200,000 states, less those of a run that does all
but search, and what the program answers. It needs valgrind.
"""
import argparse
import subprocess
import sys
import tempfile
from collections.abc import Callable
from dataclasses import dataclass

from graphs import Number
from nets import PRIMES, Graph, converter, decoder, decoder_in_phases, million, ring, spent, treadmill
from programs import first_line, instructions, program, written
from tables import Table, add_word


@dataclass(frozen=True)
class Case:
    name: str
    make: Callable[[], Graph]
    how: str


def pair(time: Number, rate: Number, tokens: int, kind: str = "sdf") -> Graph:
    """Two actors of almost the same time, with so many tokens between."""
    graph = Graph({"x": time, "y": 1001}, kind)
    graph.channel("x", rate, 1, "y", 0)
    graph.channel("y", 1, rate, "x", tokens)
    return graph


def bounded_chain(actors: int) -> Graph:
    """Actors of coprime times one after another, with room for two tokens between."""
    graph = Graph({f"s{i}": PRIMES[i % len(PRIMES)] for i in range(actors)})
    for i in range(actors - 1):
        graph.bounded(f"s{i}", 1, 1, f"s{i + 1}", 2)
    return graph


CASES = [
    Case("decoder 2376, two phases", lambda: decoder_in_phases(2376, 2), "no-overlap"),
    Case("decoder 594, two phases", lambda: decoder_in_phases(594, 2), "no-overlap"),
    Case("1,000 twice and 1,001, 34 tokens", lambda: pair("1000,1000", "1,1", 34, "csdf"), "no-overlap"),
    Case("1,000 and 1,001, 66 tokens", lambda: pair(1000, 1, 66), "no-overlap"),
    Case("treadmill", treadmill, "overlap"),
    Case("ring of 16, own channels", lambda: ring(16, 100_000, PRIMES), "no-overlap"),
    Case("ring of 128, own channels", lambda: ring(128, 100_000, PRIMES), "no-overlap"),
    Case("ring of 128, 60 tokens", lambda: ring(128, 60), "overlap"),
    Case("chain of 128 in buffers", lambda: bounded_chain(128), "no-overlap"),
    Case("converter", converter, "no-overlap"),
    Case("decoder 2376", lambda: decoder(2376, 2), "no-overlap"),
    Case("a million at once", million, "overlap"),
    Case("4,000,000 starts spent", spent, "overlap"),
]


def add_words(parser: argparse.ArgumentParser) -> None:
    add_word(parser, (case.name for case in CASES))


def run(asked: argparse.Namespace) -> None:
    path = program("bench")
    table = Table([("graph", -33), ("M instr.", 9)], after="answer")
    with tempfile.TemporaryDirectory() as folder:
        for case in [case for case in CASES if asked.word in case.name]:
            file = written(folder, "graph.xml", case.make().text().encode())
            whole, rest = (instructions([path, "loops", file, case.how, states]) for states in ("200000", "0"))
            if whole is None or rest is None:
                sys.exit("valgrind isn't there, or didn't count")
            done = subprocess.run([path, "loops", file, case.how, "200000"], capture_output=True)
            table.row(case.name, f"{whole - rest:.2f}", after=first_line(done))
