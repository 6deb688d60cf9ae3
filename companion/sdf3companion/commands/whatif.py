"""Where it pays to work: the rate with each actor faster, and with each buffer larger, one at a time.

Each actor's time in turn is divided by the factor, exactly (all others are multiplied where that keeps numbers whole), and
each buffer that is given by --buffers is made one step larger, which is the least that may gain something: the greatest
common divisor of its channel's rates. The rates are those of `sdf3companion fastest`, so a graph that nothing holds together
is answered too. A row has the actor or channel, what it has now and would have, the rate, and the gain; the largest gain
comes first. Where nothing gains, several things hold the graph up at once: look at the need cycle, by `sdf3companion gantt`.

  sdf3companion whatif examples/modem.xml --no-overlap
  sdf3companion whatif examples/chain.xml --no-overlap --buffers alpha=4,beta=2
"""
from __future__ import annotations

import argparse
from fractions import Fraction
from typing import Iterable, List, Tuple

from sdf3companion import words
from sdf3companion.asking import asked_graph
from sdf3companion.bounds import fastest
from sdf3companion.changes import Change, changes_of
from sdf3companion.faults import FORM, Fault


def factor(text: str) -> Fraction:
    """How many times as fast an actor becomes."""
    try:
        value = words.number(text)
    except (ValueError, ZeroDivisionError):
        value = Fraction(0)
    if value <= 0:
        raise argparse.ArgumentTypeError(f"{text} isn't a number above 0")
    return value


def table(base: Fraction, changes: Iterable[Change]) -> List[str]:
    """The rows, in columns."""
    rows: List[Tuple[str, ...]] = [("", "now", "then", "rate", "gain")]
    for change in changes:
        gain = change.gain(base)
        shown = (words.fraction(change.rate), f"{float(gain) * 100:+.1f} %") if change.rate is not None and gain is not None else (change.refusal, "")
        rows.append((change.what, change.now, change.then, *shown))
    widths = [max(len(row[column]) for row in rows) for column in range(3)]
    return [" ".join([*(cell.ljust(width) for cell, width in zip(row, widths)), *row[3:]]).rstrip() for row in rows]


def add_words(parser: argparse.ArgumentParser) -> None:
    words.add_graph(parser)
    parser.add_argument("--factor", type=factor, default=Fraction(2), metavar="F", help="how many times as fast an actor becomes; by default 2")


def run(asked: argparse.Namespace) -> int:
    analyser, graph = asked_graph(asked)
    passed_on = words.without_buffers(asked)
    bound = fastest(analyser, graph, asked.buffers, passed_on)
    if bound is None:
        raise Fault(FORM, "nothing holds this graph back, so nothing gains; did you mean --no-overlap?")
    changes = changes_of(analyser, graph, bound.rate, asked.factor, asked.buffers, passed_on)
    if asked.json:
        rows = [{**vars(change), "gain": change.gain(bound.rate)} for change in changes]
        words.as_json({"rate": bound.rate, "factor": asked.factor, "changes": rows})
    else:
        print(f"now {words.fraction(bound.rate)}")
        print("\n".join(table(bound.rate, changes)))
    return 0
