"""Turns a file of SDF3, Kiter or PREESM into one that the analyser reads, and says what it changed.

It reads any XML that Python's expat reads: document types, CDATA, character references, other encodings and prefixes of
name spaces are gone in the new file. Times that aren't whole are multiplied by one factor; times of zero become 1 while all
others are multiplied by a power of ten besides, which keeps the order of rates. The new file says how it was scaled, in an
element that the analyser passes over: so companions tell its rates, times and schedules by the times of the file that it was
made of, and read rates by them. A cycle of several actors that take no time is refused, and so is a graph in which nothing
takes time; a loop of one such actor to itself only keeps its firings in order, and stays. Scenario elements of SDF3 get this
analyser's names.

The other companions take such a file as it is, and adapt it in memory; this one is for the analyser itself.

Standard output has the words by which other commands are given what the file says about itself: `--buffers ..` for its
buffer sizes, `--rate ..` for its throughput constraint. Changes are told on standard error.

  sdf3companion adapt published.xml graph.xml
"""
from __future__ import annotations

import argparse
import os
import sys

from sdf3companion import graphs, output, reading, scaling, words, xmltree
from sdf3companion.adapting import adapted, buffer_sizes, constraint, tell_scale
from sdf3companion.analyser import Analyser
from sdf3companion.faults import FORM, LIMIT, USAGE, Fault
from sdf3companion.source import Source
from sdf3companion.units import scale_in


def readable_text(analyser: Analyser, source: Source) -> bytes:
    """The new file's text, once the analyser reads it; what it says of a graph that it reads and can't analyse is told."""
    text = xmltree.written(source.root)
    try:
        reading.asked_about(analyser, "scenario" if source.is_scenarios else "repetition", text)
    except Fault as fault:
        if fault.status in (FORM, LIMIT):
            raise
        output.tell(f"the analyser reads the new file, and says of it: {fault.line}")
    return text


def add_words(parser: argparse.ArgumentParser) -> None:
    parser.add_argument("input", metavar="IN", help="a file of SDF3, Kiter or PREESM's export to SDF3; - is standard input")
    parser.add_argument("output", metavar="OUT", help="the graph file to be put; - is standard output, and the words go to standard error")
    parser.add_argument("--exact", type=words.count, default=scaling.EXACT, metavar="N", help="where times are zero, keep rates exact up to this "
                        "numerator; by default %(default)s. A greater one may take the analyser more --states")
    parser.add_argument("--force", action="store_true", help="put the new file also onto the one that it is made of")
    words.add_program(parser)


def require_other(asked: argparse.Namespace) -> None:
    """Refuses to put a file onto its own source, unless it is forced."""
    try:
        is_same = os.path.samefile(asked.input, asked.output)
    except OSError:
        is_same = False
    if is_same and not asked.force:
        raise Fault(USAGE, f"{asked.output} is the file that is adapted: name another one, or give --force")


def run(asked: argparse.Namespace) -> int:
    require_other(asked)
    if asked.json and asked.output == output.STANDARD:
        raise Fault(USAGE, "- isn't taken as OUT together with --json: name a file")
    analyser = Analyser(asked.program)
    source = adapted(analyser, asked.input, output.read(asked.input), asked.exact)
    tell_scale(source)
    buffers, rate, scale = buffer_sizes(source), constraint(source), scale_in(source.root)
    output.put_or_print(asked.output, readable_text(analyser, source))
    for change in source.changes:
        output.tell(change)
    if asked.json:
        words.as_json({"changes": source.changes, "factor": str(scale.plain_factor), "zero_factor": scale.zero_factor,
                       "exact_up_to": scale.exact if scale.has_zero else None, "buffers": buffers, "rate": rate})
        return 0
    told = sys.stderr if asked.output == output.STANDARD else sys.stdout
    if buffers:
        print("--buffers", graphs.buffers_list(buffers), file=told)
    if rate is not None:
        print("--rate", words.fraction(rate), file=told)
    return 0
