"""How long a call for a repetition vector takes.

Runs the program `bench` of such calls on a graph of each size. A row is the least wall-clock time of five runs less that of a run
without calls, by call.
"""
import argparse

from programs import measured, program
from tables import Table, count, list_rows

SIZES = [(8, 16), (32, 64), (64, 128), (128, 127), (128, 256)]
"""The actors and channels of each graph."""


def add_words(parser: argparse.ArgumentParser) -> None:
    parser.add_argument("repeats", metavar="REPEATS", nargs="?", type=count, default=20_000, help="calls a run, 20,000 by default")
    list_rows(parser, (f"{actors} actors, {channels} channels" for actors, channels in SIZES))


def measure(path: str, actors: int, channels: int, repeats: int) -> float:
    """The seconds of so many calls, and of the run that makes them."""
    found = measured([path, "balance", str(actors), str(channels), str(repeats)])
    found.ended.check_returncode()
    return found.seconds


def run(asked: argparse.Namespace) -> None:
    path = program("bench")
    table = Table([("actors", 6), ("channels", 8), ("microseconds", 12)])
    for actors, channels in SIZES:
        seconds = measure(path, actors, channels, asked.repeats) - measure(path, actors, channels, 0)
        table.row(actors, channels, f"{seconds / asked.repeats * 1e6:.2f}")
