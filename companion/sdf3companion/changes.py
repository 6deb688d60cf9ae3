"""What a graph gains by each actor faster, and by each buffer larger, one at a time."""
from __future__ import annotations

from dataclasses import dataclass
from fractions import Fraction
from typing import Iterable, Iterator, List, Optional, Sequence, Tuple

from sdf3companion import graphs
from sdf3companion.analyser import Analyser, Time
from sdf3companion.answers import exact
from sdf3companion.bounds import fastest, known
from sdf3companion.faults import BUDGET, FORM, LIMIT, Fault
from sdf3companion.graphs import Graph


@dataclass
class Change:
    """One thing that is different, and the rate with it; None where the analyser refuses it, for the reason told."""

    what: str
    now: str
    then: str
    rate: Optional[Fraction]
    refusal: str = ""

    def gain(self, base: Fraction) -> Optional[Fraction]:
        return self.rate / base - 1 if self.rate is not None else None


def listed(values: Iterable[Time]) -> str:
    """A list of times for people."""
    return ",".join(map(str, values))


def faster(times: Sequence[Time], by: Fraction) -> List[Time]:
    """Times of an actor that is so many times as fast."""
    return [exact(time / by) for time in times]


def sped_up(graph: Graph, name: str, by: Fraction) -> Graph:
    """The graph with an actor so many times as fast."""
    return graph.with_times({actor.name: faster(actor.times, by) if actor.name == name else actor.times for actor in graph.actors})


def rate_of(analyser: Analyser, graph: Graph, buffers: Optional[str], passed_on: Sequence[str]) -> Tuple[Optional[Fraction], str]:
    """The rate, and why there is none where a limit or a buffer refuses it."""
    try:
        bound = fastest(analyser, graph, buffers, passed_on)
        return (bound.rate, "") if bound is not None else (None, "unbounded")
    except Fault as fault:
        if fault.status not in (FORM, LIMIT, BUDGET):
            raise
        return None, fault.line


def actor_changes(analyser: Analyser, graph: Graph, by: Fraction, buffers: Optional[str], passed_on: Sequence[str]) -> Iterator[Change]:
    """Each actor in turn so many times as fast; those that take no time are left out."""
    for actor in graph.actors:
        if any(actor.times):
            rate, refusal = faster_rate(analyser, graph, actor.name, by, buffers, passed_on)
            yield Change(actor.name, listed(actor.times), listed(faster(actor.times, by)), rate, refusal)


def faster_rate(analyser: Analyser, graph: Graph, name: str, by: Fraction, buffers: Optional[str],
                passed_on: Sequence[str]) -> Tuple[Optional[Fraction], str]:
    """The rate with an actor so many times as fast."""
    try:
        changed = sped_up(graph, name, by)
    except Fault as fault:
        return None, fault.line
    return rate_of(analyser, changed, buffers, passed_on)


def buffer_changes(analyser: Analyser, graph: Graph, buffers: Optional[str], passed_on: Sequence[str]) -> Iterator[Change]:
    """Each buffer in turn larger by a step."""
    capacities = known(graph, buffers)
    steps = {channel.name: channel.step for channel in graph.channels}
    for name, number in capacities.items():
        larger = {**capacities, name: number + steps[name]}
        rate, refusal = rate_of(analyser, graph, graphs.buffers_list(larger), passed_on)
        yield Change(f"{name}/buffer", str(number), str(number + steps[name]), rate, refusal)


def changes_of(analyser: Analyser, graph: Graph, base: Fraction, by: Fraction, buffers: Optional[str], passed_on: Sequence[str]) -> List[Change]:
    """All changes, with the largest gain over a rate first."""
    found = [*actor_changes(analyser, graph, by, buffers, passed_on), *buffer_changes(analyser, graph, buffers, passed_on)]
    return sorted(found, key=lambda change: -(change.gain(base) or 0))
