"""How many firings a second the engine of self-timed execution starts.

Runs the engine alone, by the program `bench`, on nets of three kinds, each with a hundredth of the starts, a tenth and all. A row is
the least wall-clock time of five runs, each a process of its own.
"""
import argparse
import re

from programs import Measured, measured, program
from tables import Table, count, list_rows

NETS = [["decoder"], ["converter"], ["ring", "2"], ["ring", "16"], ["ring", "128"]]


def add_words(parser: argparse.ArgumentParser) -> None:
    parser.add_argument("starts", metavar="STARTS", nargs="?", type=count, default=10_000_000, help="the starts of a run, 10,000,000 by default")
    list_rows(parser, (" ".join(net) for net in NETS))


def told(found: Measured) -> tuple[int, int]:
    """The starts and events that the program tells."""
    found.ended.check_returncode()
    numbers = re.search(r": (\d+) starts, (\d+) events", found.ended.stdout.decode())
    if numbers is None:
        raise ValueError(f"{found.words}: no starts are told: {found.first_line}")
    return int(numbers[1]), int(numbers[2])


def run(asked: argparse.Namespace) -> None:
    path, most = program("bench"), asked.starts
    table = Table([("net", -12), ("starts", 10), ("events", 10), ("ms", 8), ("starts/s", 12)])
    for net in NETS:
        for size in sorted({most // 100, most // 10, most}):
            found = measured([path, "engine", *net, str(size)])
            starts, events = told(found)
            table.row(" ".join(net), starts, events, found.milliseconds, f"{starts / found.seconds:,.0f}")
