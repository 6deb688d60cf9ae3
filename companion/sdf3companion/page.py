"""Makes one page about a graph: the graph, its trade-off, and for the point that is chosen its buffers, time line and need cycle.

The page is one file that needs no network. A point is chosen in the curve or in a table, by mouse or by keys; the need cycle
is red in the graph and in the time line, which is zoomed by the wheel or by keys, and the commands that give each answer
stand below. The trade-off is explored as by `sdf3companion tradeoff`, until no memory buys more or the seconds are up; the
schedules of its points are then asked for side by side. graphviz draws the graph.

  sdf3companion page examples/modem.xml modem.html --no-overlap
"""
from __future__ import annotations

import argparse
import json
import os
import re
import shlex
from concurrent.futures import ThreadPoolExecutor
from html import escape
from typing import Any

from sdf3companion import asking, draw, graphs, output, packing, words
from sdf3companion.analyser import Analyser, Point, Rate
from sdf3companion.faults import BUDGET, USAGE, Fault
from sdf3companion.search import DISTRIBUTIONS, Search
from sdf3companion.ticks import decimal

TEMPLATE = os.path.join(os.path.dirname(os.path.realpath(__file__)), "page.html")
ROOMS = {"wide": (800, 0.5), "medium": (500, 0.5), "narrow": (245, 0.2)}
"""By the window that a drawing is for: points that a row has, and inches between actors."""


def explored(analyser: Analyser, graph: graphs.Graph, asked: argparse.Namespace) -> Search:
    """A search that ended, by itself or since the time was up, with a point at least."""
    search = Search(analyser, graph, words.passed_on(asked), asked.seconds)
    search.explore(lambda new: None)
    if not search.points:
        raise Fault(BUDGET, f"there is no point: {search.ended}")
    return search


def commands(asked: argparse.Namespace, is_adapted: bool, has_buffers: bool) -> list[str]:
    """The commands that give a point's answers, for its storage and its buffers; of a file that the analyser doesn't read, on the one that
    `adapt` makes of it."""
    shared, companion = words.passed_on(asked), output.speaker.name.partition(" ")[0]
    own = [*shared, *(["--buffers", "BUFFERS"] if has_buffers else [])]
    graph = "adapted.xml" if is_adapted else asked.graph
    throughput = ["sdf3analysis", "--algo", "throughput", "--graph", graph, *own]
    lines = [*([[companion, "adapt", asked.graph, graph]] if is_adapted else []),
             ["sdf3analysis", "--algo", "storage", "--graph", graph, "--limit", "STORAGE", *shared, "--distributions", DISTRIBUTIONS],
             throughput, [*throughput, "--certificate", "rate.certificate"],
             ["sdf3analysis", "--algo", "check", "--graph", graph, "--certificate", "rate.certificate"],
             [companion, "gantt", asked.graph, "timeline.svg", *own]]
    places = {"STORAGE": "{storage}", "BUFFERS": "{buffers}"}
    return [" ".join(places.get(word, shlex.quote(word)) for word in line) for line in lines]


def schedules(analyser: Analyser, graph: graphs.Graph, asked: argparse.Namespace, points: list[Point]) -> list[Rate]:
    """The answers of `throughput` for points, which are asked for side by side."""
    def answered(point: Point) -> Rate:
        return analyser.throughput(graph, [*words.passed_on(asked), *point.words()])

    found = []
    with ThreadPoolExecutor(os.cpu_count()) as runs:
        try:
            for answer in runs.map(answered, points):
                found.append(answer)
                output.progress(f"schedules: {len(found)} of {len(points)}")
        finally:
            runs.shutdown(wait=True, cancel_futures=True)
            output.progress("")
    return found


def numbers(analyser: Analyser, graph: graphs.Graph, asked: argparse.Namespace, points: list[Point]) -> dict[str, Any]:
    """What the page shows of all points, as numbers."""
    times, answers = graph.times, schedules(analyser, graph, asked, points)
    packer = packing.Packer(list(times), packing.unit_of(times.values(), answers), packing.share_of(len(points)))
    buffers = list(points[0].capacities())
    told = [{"storage": point.storage, "rate": words.fraction(point.rate), "decimal": decimal(point.rate),
             "capacities": [point.capacities()[name] for name in buffers], **packer.document(answer)}
            for point, answer in zip(points, answers)]
    return {**packer.tables(), "times": [[packer.whole(one) for one in row] for row in times.values()], "buffers": buffers,
            "commands": commands(asked, graph.path is None, bool(buffers)), "points": told}


def filled(parts: dict[str, str]) -> str:
    """The template with its parts."""
    return re.sub(r"\{\{(\w+)\}\}", lambda place: parts[place[1]], output.read(TEMPLATE).decode("utf-8"))


def drawn(graph: graphs.Graph) -> str:
    """The graph as SVG to be put into a page, once for each width of its window."""
    told = escape(f"the graph: {len(graph.actors)} actors and {len(graph.channels)} channels", quote=True)
    found = []
    for name, (room, between) in ROOMS.items():
        text = draw.picture(draw.dot(graph, draw.Marks(), {}, f"{name}/", between), "svg", room).decode("utf-8")
        found.append(f'<div class="drawing {name}" role="img" aria-label="{told}">{text[text.index("<svg"):]}</div>')
    return "\n".join(found)


def add_words(parser: argparse.ArgumentParser) -> None:
    words.add_graph(parser)
    parser.add_argument("output", metavar="OUT.html", help="the page; - is standard output")
    parser.add_argument("--seconds", type=words.seconds, metavar="S", help="explore for so long; by default until it ends by itself")


def run(asked: argparse.Namespace) -> int:
    output.require_ending(asked.output, ["html", "htm"])
    if asked.output == output.STANDARD and asked.json:
        raise Fault(USAGE, "the page and --json can't both go to standard output; name a file")
    analyser, graph = asking.asked_graph(asked)
    picture = drawn(graph)
    search = explored(analyser, graph, asked)
    data = numbers(analyser, graph, asked, search.points)
    complete = f"No point is missing up to storage {search.complete}; {search.ended}."
    output.put_or_print(asked.output, filled({"title": escape(os.path.basename(asked.graph)), "complete": escape(complete), "graph": picture,
                                              "data": json.dumps(data, separators=(",", ":")).replace("</", "<\\/")}))
    if asked.json:
        words.as_json({"page": asked.output, "complete_to": search.complete, "ended": search.ended, **data})
    return 0
