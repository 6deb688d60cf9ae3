"""Draws the schedule of a graph as a time line, with the need cycle that bounds its rate.

A row for each actor and a box for each firing, two periods at least. Firings of the need cycle are red, and an arrow leads
from each to the one that needs it; pointing at a box or an arrow tells the firing, its times and the channel. Firings that
overlap stand in lanes, up to 40, and those closer than a pixel are drawn as one box; after 20,000 firings the picture ends.
With --point N it draws the N-th point of the trade-off, with its buffers. The picture is SVG; without a name it is printed.

With --trace it writes trace events instead, as JSON, which ui.perfetto.dev and chrome://tracing open: a thread for each
actor, a slice for each of up to 200,000 firings, an arrow for each need of the cycle. A time unit is a microsecond there.

  sdf3companion gantt examples/ring.xml ring.svg
  sdf3companion gantt examples/modem.xml modem.svg --no-overlap --point 4
  sdf3companion gantt examples/ring.xml ring.json --trace
"""
from __future__ import annotations

import argparse
import json

from sdf3companion import asking, graphs, output, timeline, words
from sdf3companion.analyser import Analyser, Point
from sdf3companion.faults import NO, USAGE, Fault
from sdf3companion.search import Search


def add_words(parser: argparse.ArgumentParser) -> None:
    words.add_graph(parser)
    parser.add_argument("output", metavar="OUT.svg", nargs="?", help="the picture; without it, or by -, it is printed")
    parser.add_argument("--point", type=int, metavar="N", help="draw this point of the trade-off, from 1")
    parser.add_argument("--trace", action="store_true", help="write trace events, as OUT.json, for Perfetto and Chrome")


def buffers_of_point(analyser: Analyser, graph: graphs.Graph, asked: argparse.Namespace) -> list[str]:
    """The words for the buffers of a point of the trade-off."""
    if asked.buffers is not None or asked.point < 1:
        raise Fault(USAGE, "--point is a number from 1, and its buffers are those of the trade-off: no --buffers with it")
    search = Search(analyser, graph, words.passed_on(asked))
    for _ in search.levels():
        if len(search.points) >= asked.point:
            point: Point = search.points[asked.point - 1]
            return point.words()
    raise Fault(NO, f"there are {len(search.points)} points")


def times_of(graph: graphs.Graph) -> timeline.Times:
    """Times by actor."""
    return graph.times


def run(asked: argparse.Namespace) -> int:
    output.require_ending(asked.output, ["json"] if asked.trace else ["svg"])
    is_named = asked.output not in (None, output.STANDARD)
    if asked.trace and asked.json and not is_named:
        raise Fault(USAGE, "trace events and --json can't both go to standard output; name a file")
    analyser, graph = asking.asked_graph(asked)
    buffers = buffers_of_point(analyser, graph, asked) if asked.point is not None else []
    answer, times = analyser.throughput(graph, [*words.passed_on(asked), *buffers]), times_of(graph)
    if asked.json:
        words.as_json(timeline.document(answer, times))
    if is_named or not asked.json:
        output.put_or_print(asked.output, json.dumps(timeline.trace(answer, times)) + "\n" if asked.trace else timeline.svg(answer, times))
    return 0
