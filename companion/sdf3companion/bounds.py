"""The rate of any consistent graph: what each strongly connected part of it allows, and the slowest of them."""
from __future__ import annotations

from dataclasses import dataclass
from fractions import Fraction
from typing import Any, Collection, Dict, List, Mapping, Optional, Sequence

from sdf3companion import graphs
from sdf3companion.analyser import Analyser, Rate
from sdf3companion.faults import CONNECTION, Fault
from sdf3companion.graphs import Graph


@dataclass
class Bound:
    """What one strongly connected part allows: rounds of the whole graph by time unit; `share` of its rounds make one of the whole."""

    rate: Fraction
    actors: List[str]
    share: int
    answer: Rate

    def document(self) -> Dict[str, Any]:
        return {"rate": self.rate, "part": self.actors, "rounds_of_part": self.share, "cycle": self.answer.cycle.document()}


def known(graph: Graph, text: Optional[str]) -> Dict[str, int]:
    """The capacities of a buffers list, each of a channel of the graph."""
    return graph.buffers(text)


def bound_of(analyser: Analyser, graph: Graph, whole: Mapping[str, int], part: Collection[str], capacities: Mapping[str, int],
             passed_on: Sequence[str], seconds: Optional[float] = None) -> Optional[Bound]:
    """What a part allows, where `whole` is the repetition vector of the graph; None where it is one actor that waits for nothing."""
    alone = graph.only(part)
    inside = {channel.name for channel in alone.channels}
    own = {name: number for name, number in capacities.items() if name in inside}
    if not any(time for actor in alone.actors for time in actor.times):
        return None  # one actor, whose firings take no time
    try:
        answer = analyser.throughput(alone, [*passed_on, *graphs.buffers_words(own)], seconds)
    except Fault as fault:
        if fault.status == CONNECTION and len(part) == 1:
            return None
        raise
    rounds = analyser.repetition(alone)
    names = [actor.name for actor in alone.actors]
    share = whole[names[0]] // rounds[names[0]]
    return Bound(answer.rate / share, names, share, answer)


def bounds(analyser: Analyser, graph: Graph, buffers: Optional[str] = None, passed_on: Sequence[str] = (),
           seconds: Optional[float] = None) -> List[Bound]:
    """What each part allows that allows not everything."""
    capacities = known(graph, buffers)
    whole = analyser.repetition(graph)
    found = [bound_of(analyser, graph, whole, part, capacities, passed_on, seconds) for part in graphs.parts(graph, capacities)]
    return [bound for bound in found if bound is not None]


def slowest(found: Sequence[Bound]) -> Optional[Bound]:
    """The part that holds the graph back: of several the first; None where nothing does."""
    return min(found, key=lambda bound: bound.rate) if found else None


def fastest(analyser: Analyser, graph: Graph, buffers: Optional[str] = None, passed_on: Sequence[str] = (),
            seconds: Optional[float] = None) -> Optional[Bound]:
    """What holds a graph back; None where nothing does."""
    return slowest(bounds(analyser, graph, buffers, passed_on, seconds))
