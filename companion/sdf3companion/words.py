"""The words that subcommands read, rates as a designer writes them, and the two ways to print an answer."""
from __future__ import annotations

import argparse
import json
import math
import re
from fractions import Fraction
from typing import TYPE_CHECKING, Any, Dict, List, Optional

from sdf3companion.answers import shown
from sdf3companion.faults import FORM, Fault

if TYPE_CHECKING:
    from sdf3companion.graphs import Graph

UNPROVED = """Unproved: this program wasn't checked by the prover. Every number it prints comes from the analyser, which is proved,
or from plain arithmetic on the analyser's numbers."""

SCALES = {"Hz": Fraction(1), "kHz": Fraction(10**3), "MHz": Fraction(10**6), "GHz": Fraction(10**9)}
UNITS = {"s": Fraction(1), "ms": Fraction(1, 10**3), "us": Fraction(1, 10**6), "ns": Fraction(1, 10**9)}
PLAIN = r"(?:\d+(?:/\d+|(?:\.\d*)?(?:[eE][-+]?\d{1,3})?)|\.\d+(?:[eE][-+]?\d{1,3})?)"
"""A number as people write it; an exponent of more digits would take memory without end."""


def add_graph(parser: argparse.ArgumentParser) -> None:
    parser.add_argument("graph", metavar="GRAPH", help="a graph file, also one of SDF3, Kiter or PREESM; - is standard input")


def add_program(parser: argparse.ArgumentParser) -> None:
    """Where the analyser is, and the form of the answer."""
    parser.add_argument("--program", metavar="FILE", help="the analyser; else $SDF3ANALYSIS, else the one of this repository, archive or "
                        "package, else the one on the PATH")
    parser.add_argument("--json", action="store_true", help="print one JSON document, with exact fractions as strings")


def add_common(parser: argparse.ArgumentParser, *, buffers: bool = True) -> None:
    """The words that are passed on to the analyser, and where it is."""
    group = parser.add_argument_group("passed on to the analyser")
    group.add_argument("--no-overlap", action="store_true", help="the firings of an actor don't overlap")
    if buffers:
        group.add_argument("--buffers", metavar="NAME=NUMBER,..", help="capacities of channels, in tokens; a name with , or = in it is spelled "
                           "with %% as the analyser prints it")
    group.add_argument("--states", metavar="N", help="how many shapes may differ before one comes again")
    add_program(parser)


def add_use_file(parser: argparse.ArgumentParser, what: str) -> None:
    parser.add_argument("--use-file", action="store_true", help=f"take from the file {what}")


def seconds(text: str) -> float:
    """A limit of time."""
    try:
        value = float(text)
    except ValueError:
        value = math.nan
    if not 0 <= value < math.inf:
        raise argparse.ArgumentTypeError(f"{text} isn't a number of seconds from 0")
    return value


def count(text: str) -> int:
    """A whole number from 1."""
    if not (text.isdecimal() and text.isascii()) or len(text) > 18 or int(text) < 1:
        raise argparse.ArgumentTypeError(f"{text} isn't a number from 1")
    return int(text)


def use_file(asked: argparse.Namespace, graph: Graph) -> Optional[Fraction]:
    """Where it is asked for, takes the file's buffer sizes as if they were given, and answers its throughput constraint."""
    from sdf3companion import graphs, reading
    if not getattr(asked, "use_file", False):
        return None
    sizes, wanted = reading.file_buffers(graph), reading.file_rate(graph)
    takes_buffers = hasattr(asked, "buffers")
    if not (takes_buffers and sizes) and wanted is None:
        raise Fault(FORM, f"--use-file: {graph.label} has {'neither bufferSize nor a' if takes_buffers else 'no'} throughput constraint")
    if takes_buffers and asked.buffers is None and sizes:
        asked.buffers = graphs.buffers_list(sizes)
    return wanted


def passed_on(asked: argparse.Namespace, graph: Optional[Graph] = None) -> List[str]:
    """The words for the analyser, of those that were given. With a graph, buffers may be named as the file names them."""
    from sdf3companion import graphs
    found = without_buffers(asked)
    given = getattr(asked, "buffers", None)
    if given is not None:
        found += graphs.buffers_words(graph.buffers(given)) if graph is not None else ["--buffers", given]
    return found


def without_buffers(asked: argparse.Namespace) -> List[str]:
    """The words for the analyser but the buffers."""
    found = ["--no-overlap"] if asked.no_overlap else []
    return found + (["--states", asked.states] if asked.states is not None else [])


def number(text: str) -> Fraction:
    """A number with an optional sign: whole, with a point, with an exponent, or a fraction."""
    if not re.fullmatch(rf"[-+]?{PLAIN}", text, re.ASCII):
        raise ValueError(f"{text!r} is no number")
    return Fraction(text)


def rate(text: str) -> Fraction:
    """A rate in rounds per time unit: `1/7`, `0.125`, or `60/s@100MHz`, which is 60 rounds a second where the time unit
    is a cycle of a clock of 100 MHz; also `25/s@1ms`, where the time unit is a millisecond."""
    found = re.fullmatch(rf"({PLAIN})(?:/s@({PLAIN})\s*([A-Za-z]+))?", text.strip(), re.ASCII)
    if not found:
        raise argparse.ArgumentTypeError(f"{text} isn't a rate; write 1/7, 0.125, 60/s@100MHz or 25/s@1ms")
    try:
        value = number(found[1])
        return value * time_unit(found[2], found[3]) if found[2] else value
    except (ValueError, ZeroDivisionError) as fault:
        raise argparse.ArgumentTypeError(f"{text} isn't a rate: {fault}") from fault


def time_unit(text: str, unit: str) -> Fraction:
    """A time unit in seconds, as a clock's frequency or as a time."""
    if unit in SCALES:
        return 1 / (number(text) * SCALES[unit])
    if unit in UNITS:
        return number(text) * UNITS[unit]
    raise ValueError(f"{unit} is no unit; there are {', '.join([*SCALES, *UNITS])}")


def fraction(value: Fraction) -> str:
    """A fraction as the analyser prints it."""
    return f"{value.numerator}/{value.denominator}"


def text_of(document: Dict[str, Any]) -> str:
    """A document as JSON; fractions are strings."""
    return json.dumps(document, indent=1, default=fraction)


def as_json(document: Dict[str, Any]) -> None:
    """Prints an answer as one JSON document; fractions are strings."""
    print(text_of(document))


def short(value: Fraction) -> str:
    """A number without a denominator of 1."""
    return shown(value)
