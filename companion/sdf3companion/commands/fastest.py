"""The rate of any consistent graph, and the part of it that holds it back.

The analyser gives a rate where paths lead from each actor to each. In any other graph buffers without bound let the
strongly connected parts run one ahead of the other, so the slowest of them gives the rate: each part is analysed by
itself, and its rate is divided by how many of its rounds make one round of the whole. No memory buys more.

Printed are the rate in rounds of the whole graph, the actors of the part that holds it back, how many of its rounds make
one of the whole, and its need cycle in firings of the part alone. `fastest unbounded` means that nothing holds the graph
back: no actor waits for itself or for another. Most graphs want --no-overlap.

  sdf3companion fastest examples/chain.xml --no-overlap
"""
from __future__ import annotations

import argparse

from sdf3companion import words
from sdf3companion.asking import asked_graph
from sdf3companion.bounds import bounds, slowest


def add_words(parser: argparse.ArgumentParser) -> None:
    words.add_graph(parser)


def run(asked: argparse.Namespace) -> int:
    analyser, graph = asked_graph(asked)
    found = bounds(analyser, graph, asked.buffers, words.without_buffers(asked))
    best = slowest(found)
    if asked.json:
        words.as_json({"fastest": best and best.document(), "parts": [bound.document() for bound in found]})
    elif best is None:
        print("fastest unbounded")
    else:
        print(f"fastest {words.fraction(best.rate)}")
        print(f"part {', '.join(best.actors)}")
        print(f"rounds {best.share}")
        print("\n".join(best.answer.cycle.lines()))
    return 0
