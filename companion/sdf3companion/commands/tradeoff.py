"""The whole trade-off of storage and rate, without a limit to be chosen.

The analyser is asked with the greatest limit, where it ends by itself with the fastest point. If that takes more than a
moment, it is asked with one limit after another, each further from the least storage, until the last point has the rate of
`sdf3companion fastest`, which no buffers pass. Each point is printed as soon as it is final, since what `storage` prints within
a limit stands in every greater one. Standard error says up to which storage no point is missing. An interrupt, or a limit
of time, keeps what was found.

A line has the storage, the rate, and the buffers that reach it, with names as they are; --csv has names as the analyser
reads them. Most graphs want --no-overlap. A graph that nothing holds
back has no last point: give it --rate or --seconds.

  sdf3companion tradeoff examples/h263_decoder.xml --no-overlap
  sdf3companion tradeoff examples/modem.xml --no-overlap --rate 1/30
"""
from __future__ import annotations

import argparse
import csv
import sys
from typing import Any, Callable, Dict, List

from sdf3companion import output, words
from sdf3companion.analyser import Point
from sdf3companion.answers import buffers_for_people
from sdf3companion.asking import asked_graph
from sdf3companion.faults import NO, USAGE, Fault
from sdf3companion.search import DISTRIBUTIONS, Search, Show


def add_words(parser: argparse.ArgumentParser) -> None:
    words.add_graph(parser)
    parser.add_argument("--rate", type=words.rate, metavar="RATE", help="end at the least storage that reaches it, by the file's times: 1/30, "
                        "0.05, or 60/s@100MHz, which is 60 rounds a second where the time unit is a cycle of 100 MHz (25/s@1ms: a millisecond)")
    parser.add_argument("--seconds", type=words.seconds, metavar="S", help="end after so many seconds; by default it goes on until it ends by itself")
    parser.add_argument("--distributions", default=DISTRIBUTIONS, metavar="N", help="how many distributions a run may look at; by default %(default)s")
    parser.add_argument("--csv", action="store_true", help="print rows of comma-separated values with a head")


def printer(asked: argparse.Namespace) -> Show:
    """What prints points as they become final; a document is printed at the end."""
    row: Callable[[List[Any]], object] = csv.writer(sys.stdout, lineterminator="\n").writerow if asked.csv else lambda fields: print(*fields)

    def show(points: List[Point]) -> None:
        output.progress("")
        for point in points:
            row([point.storage, words.fraction(point.rate), point.buffers if asked.csv else buffers_for_people(point.capacities())])
        sys.stdout.flush()

    if asked.json:
        return lambda points: None
    if asked.csv:
        row(["storage", "rate", "buffers"])
    return show


def document(search: Search) -> Dict[str, Any]:
    points = [{"storage": point.storage, "rate": point.rate, "buffers": point.capacities()} for point in search.points]
    return {"complete_to": search.complete, "ended": search.ended, "fastest": search.top and search.top.document(), "points": points}


def run(asked: argparse.Namespace) -> int:
    if asked.csv and asked.json:
        raise Fault(USAGE, "--csv and --json are two forms: give one of them")
    analyser, graph = asked_graph(asked)
    wanted = asked.rate if asked.rate is not None else asked.wanted
    search = Search(analyser, graph, words.passed_on(asked), asked.seconds, asked.distributions)
    if wanted is not None and search.top and wanted > search.top.rate:
        raise Fault(NO, f"no memory reaches {words.fraction(wanted)}: {search.slowest()} can't be faster than {words.fraction(search.top.rate)}")
    status = search.explore(printer(asked), wanted)
    upto = "nothing was explored" if search.complete is None else f"complete up to storage {search.complete}"
    output.tell(f"{upto}: {len(search.points)} points; {search.ended}")
    if asked.json:
        words.as_json(document(search))
    return status
