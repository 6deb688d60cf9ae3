"""Rates and schedules in the user's own times, of answers for times of which some are zero.

The analyser was asked about other times, in which none is zero and the order of rates is kept. Of its need cycle the own time is the sum
of its firings' own times, so no schedule is faster than rounds by this time. Its starts, rounded down to own times, are made later where a
firing needs another one that hasn't ended, until nothing has to be: then this is a schedule of that very rate, and both are exact. Where
it doesn't come to an end, another cycle is slower in own times, and the analyser has to be asked with a greater factor.
"""
from __future__ import annotations

from bisect import bisect_left
from fractions import Fraction
from itertools import accumulate
from typing import Dict, Iterator, List, Mapping, NamedTuple, Optional, Sequence, Tuple

from sdf3companion.answers import NeedCycle, Rate, Schedule, Time, exact
from sdf3companion.faults import FORM, Fault
from sdf3companion.graphs import Graph

PASSES = 200
"""How often all needs are gone through, before it counts as no schedule."""


class Link(NamedTuple):
    """Tokens from one actor to another: sums of what the first phases make and take, and the tokens that are there at first."""

    source: str
    target: str
    made: List[int]
    taken: List[int]
    tokens: int

    def last_need(self, firing: int) -> int:
        """The last firing of the source that a firing of the target needs; below 0 where it needs none."""
        turns, rest = divmod(firing + 1, len(self.taken) - 1)
        lacking = turns * self.taken[-1] + self.taken[rest] - self.tokens
        turns, rest = divmod(lacking - 1, self.made[-1])
        return turns * (len(self.made) - 1) + bisect_left(self.made, rest + 1) - 1


class Need(NamedTuple):
    """A firing of a period that can't start before another one, and by how much later it has to."""

    target: Tuple[str, int]
    source: Tuple[str, int]
    delay: Time


def sums(rates: Sequence[int], phases: int) -> List[int]:
    """How many tokens the first firings make, of none to all phases."""
    return [0, *accumulate(rates if len(rates) > 1 else [*rates] * phases)]


def phases_of(graph: Graph) -> Dict[str, int]:
    return {actor.name: max(len(actor.times), *(len(rates) for rates in actor.ports.values()), 1) for actor in graph.actors}


def links_of(graph: Graph, capacities: Mapping[str, int], no_overlap: bool) -> Iterator[Link]:
    """The channels, the free spaces of those with a capacity, and the order of an actor's own firings."""
    phases = phases_of(graph)
    alone = {channel.source for channel in graph.channels if channel.is_self_loop}
    for channel in graph.channels:
        made, taken = sums(channel.made, phases[channel.source]), sums(channel.taken, phases[channel.target])
        yield Link(channel.source, channel.target, made, taken, channel.tokens)
        if channel.name in capacities:
            yield Link(channel.target, channel.source, taken, made, capacities[channel.name] - channel.tokens)
    for name, number in phases.items():
        if number > 1 or no_overlap and name not in alone:
            yield Link(name, name, list(range(number + 1)), list(range(number + 1)), 1)


def needs_of(links: Sequence[Link], times: Mapping[str, Sequence[Time]], passes: Mapping[str, int], period: Time) -> Iterator[Need]:
    """What each firing of a period needs; of firings of other periods those of this one stand for them."""
    for link in links:
        took = times[link.source]
        for firing in range(passes[link.target]):
            turns, place = divmod(link.last_need(firing), passes[link.source])
            yield Need((link.target, firing), (link.source, place), turns * period + took[place % len(took)])
    for name, number in passes.items():
        for firing in range(1, number):
            yield Need((name, firing), (name, firing - 1), 0)


def settled(starts: Dict[Tuple[str, int], Time], needs: List[Need]) -> bool:
    """Makes starts later until each firing starts where it may; whether that comes to an end."""
    needs.sort(key=lambda need: starts[need.target])
    for _ in range(PASSES):
        is_changed = False
        for target, source, delay in needs:
            least = starts[source] + delay
            if starts[target] < least:
                starts[target], is_changed = least, True
        if not is_changed:
            return True
    return False


def own_cycle(graph: Graph, cycle: NeedCycle) -> NeedCycle:
    """A need cycle with its own time."""
    times = graph.times
    time = sum((Fraction(times[step.actor][step.firing % len(times[step.actor])]) for step in cycle.steps[:-1]), Fraction(0))
    return NeedCycle(exact(time), cycle.rounds, cycle.steps)


def own_answer(graph: Graph, told: Rate, capacities: Mapping[str, int], no_overlap: bool) -> Optional[Rate]:
    """An answer by own times, of what the analyser told; None where its times weren't far enough apart for it."""
    cycle = own_cycle(graph, told.cycle)
    if cycle.time == 0:
        raise Fault(FORM, f"no firing on a cycle takes time, so there is no rate: {', '.join(dict.fromkeys(step.actor for step in cycle.steps))}")
    rate = Fraction(cycle.rounds) / cycle.time
    period = exact(told.schedule.rounds / rate)
    passes = {name: len(line) for name, line in told.schedule.starts.items()}
    starts = {(name, place): graph.scale.own(int(start)) for name, line in told.schedule.starts.items() for place, start in enumerate(line)}
    links = list(links_of(graph, capacities, no_overlap))
    if not settled(starts, list(needs_of(links, graph.times, passes, period))):
        return None
    lines = {name: [exact(starts[name, place]) for place in range(number)] for name, number in passes.items()}
    return Rate(rate, Schedule(period, told.schedule.rounds, lines), cycle)
