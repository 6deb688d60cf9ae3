"""The library: typed calls that ask the analyser and answer dataclasses, which a notebook shows as pictures. Each subcommand is a layer over
what stands behind them.

Times and rates are by the times of the graph that is given. Whatever has no answer is a `Fault`, with the exit status that the analyser or
the companion has for it.
"""
from __future__ import annotations

import functools
import os
import tempfile
from dataclasses import dataclass, field
from fractions import Fraction
from typing import Any, Dict, List, Mapping, Optional, Tuple, Union

from sdf3companion import adapting, bounds, changes, curve, graphs, output, reading, timeline, xmltree
from sdf3companion import verify as second
from sdf3companion.analyser import Analyser
from sdf3companion.answers import Completion, NeedCycle, Rate, Schedule, Time, WorstRate
from sdf3companion.claims import Claim
from sdf3companion.faults import FORM, Fault
from sdf3companion.graphs import Graph
from sdf3companion.search import Search

Given = Union[Graph, str, "os.PathLike[str]", Mapping[str, Any], Any]
"""A graph: a `Graph`, a file's name, plain data as `Graph.from_dict` reads it, or a directed graph of networkx."""


@dataclass
class Options:
    """What the analyser is told of a run."""

    no_overlap: bool = False
    states: Optional[int] = None

    def words(self, capacities: Optional[Mapping[str, int]] = None) -> List[str]:
        """The words for the analyser."""
        found = ["--no-overlap"] if self.no_overlap else []
        found += ["--states", str(self.states)] if self.states is not None else []
        return found + graphs.buffers_words(capacities or {})


@dataclass
class Throughput:
    """The rate in rounds per time unit, a schedule that reaches it, and a cycle of needs by which no schedule passes it. `certificate` is
    what `check` accepts, where it was asked for."""

    rate: Fraction
    schedule: Schedule
    cycle: NeedCycle
    times: Dict[str, List[Time]] = field(repr=False)
    certificate: bytes = field(default=b"", repr=False)

    def picture(self) -> str:
        """The schedule as a time line with the cycle in red, in SVG."""
        return timeline.svg(Rate(self.rate, self.schedule, self.cycle), self.times)

    def _repr_svg_(self) -> str:
        return self.picture()


@dataclass
class Pareto:
    """A point of a trade-off: no less storage has its rate, and the capacities of the channels that reach it."""

    storage: int
    rate: Fraction
    capacities: Dict[str, int]
    schedule: Schedule = field(repr=False)


@dataclass
class TradeOff:
    """The points of a trade-off. None is missing up to the storage `complete_to`; `ended` says why the search ended there."""

    points: List[Pareto]
    complete_to: Optional[int]
    ended: str

    def picture(self) -> str:
        """The step curve in SVG; an empty text where there is no point."""
        return curve.svg([(point.storage, point.rate) for point in self.points]) if self.points else ""

    def _repr_svg_(self) -> Optional[str]:
        return self.picture() or None


@dataclass
class Fastest:
    """The rate that no memory passes, the actors of the part that holds the graph back, and its cycle of needs; `rounds` of the part's
    rounds make one of the whole graph."""

    rate: Fraction
    part: List[str]
    rounds: int
    cycle: NeedCycle


@dataclass
class Claimed:
    """A claim of a rate that was judged: whether it holds, in which direction it is wrong, and what shows it."""

    holds: bool
    verdict: str
    throughput: Throughput


@dataclass
class Gain:
    """One thing that is different, and the rate with it; None where there is none, for the reason told."""

    what: str
    now: str
    then: str
    rate: Optional[Fraction]
    refusal: str


@functools.lru_cache(maxsize=None)
def analyser(program: Optional[str] = None) -> Analyser:
    """The analyser that a name gives, or else the one that is found: by $SDF3ANALYSIS, in the repository or package, on the PATH."""
    return Analyser(program)


def graph(given: Given, program: Optional[str] = None) -> Graph:
    """A graph of whatever gives one. Files of SDF3, Kiter and PREESM are taken as they are."""
    if isinstance(given, Graph):
        return given
    if isinstance(given, Mapping):
        return Graph.from_dict(given)
    if isinstance(given, (str, os.PathLike)):
        return reading.opened(analyser(program), os.fspath(given))
    if hasattr(given, "nodes") and hasattr(given, "edges"):
        return Graph.from_networkx(given)
    raise Fault(FORM, f"{type(given).__name__} gives no graph: name a file, or give a dict or a directed graph of networkx")


def adapted(path: Union[str, "os.PathLike[str]"], program: Optional[str] = None) -> Tuple[bytes, List[str]]:
    """A file of another tool as the analyser reads it, and the changes, a line each."""
    name = os.fspath(path)
    source = adapting.adapted(analyser(program), name, output.read(name))
    adapting.tell_scale(source)
    return xmltree.written(source.root), source.changes


def repetition(given: Given, program: Optional[str] = None) -> Dict[str, int]:
    """How often each actor fires in a round."""
    return analyser(program).repetition(graph(given, program))


def throughput(given: Given, *, buffers: Optional[Mapping[str, int]] = None, no_overlap: bool = False, states: Optional[int] = None,
               certified: bool = False, seconds: Optional[float] = None, program: Optional[str] = None) -> Throughput:
    """The rate of self-timed execution, with channels of these capacities. Where it is to be `certified`, `check` has accepted a certificate
    of it."""
    asked, drawn = analyser(program), graph(given, program)
    words = Options(no_overlap, states).words(known(drawn, buffers))
    if certified:
        answer, _, certificate = asked.certified(drawn, words)
    else:
        answer, certificate = asked.throughput(drawn, words, seconds), b""
    return Throughput(answer.rate, answer.schedule, answer.cycle, drawn.times, certificate)


def known(drawn: Graph, buffers: Optional[Mapping[str, int]]) -> Dict[str, int]:
    """Capacities, each of a channel of the graph."""
    names = {channel.name for channel in drawn.channels}
    unknown = next((name for name in buffers or {} if name not in names), None)
    if unknown is not None:
        raise Fault(FORM, f"unknown channel {unknown}")
    return dict(buffers or {})


def tradeoff(given: Given, *, no_overlap: bool = False, states: Optional[int] = None, rate: Optional[Fraction] = None,
             seconds: Optional[float] = None, program: Optional[str] = None) -> TradeOff:
    """All points of storage and rate, or those up to the least storage that has a rate, or as many as are found in some seconds."""
    drawn = graph(given, program)
    search = Search(analyser(program), drawn, Options(no_overlap, states).words(), seconds)
    search.explore(lambda new: None, rate)
    points = [Pareto(point.storage, point.rate, point.capacities(), point.schedule) for point in search.points]
    return TradeOff(points, search.complete, search.ended or "")


def fastest(given: Given, *, buffers: Optional[Mapping[str, int]] = None, no_overlap: bool = False, states: Optional[int] = None,
            program: Optional[str] = None) -> Optional[Fastest]:
    """The rate that no memory passes, of any graph; None where nothing holds it back."""
    drawn = graph(given, program)
    listed = graphs.buffers_list(known(drawn, buffers)) or None
    best = bounds.fastest(analyser(program), drawn, listed, Options(no_overlap, states).words())
    return Fastest(best.rate, best.actors, best.share, best.answer.cycle) if best else None


def what_if(given: Given, factor: Union[int, Fraction] = 2, *, buffers: Optional[Mapping[str, int]] = None, no_overlap: bool = False,
            states: Optional[int] = None, program: Optional[str] = None) -> List[Gain]:
    """The rate with each actor so many times as fast, and with each buffer a step larger, one at a time; the largest gain comes first."""
    asked, drawn, words = analyser(program), graph(given, program), Options(no_overlap, states).words()
    listed = graphs.buffers_list(known(drawn, buffers)) or None
    best = bounds.fastest(asked, drawn, listed, words)
    if best is None:
        raise Fault(FORM, "nothing holds this graph back, so nothing gains")
    found = changes.changes_of(asked, drawn, best.rate, Fraction(factor), listed, words)
    return [Gain(change.what, change.now, change.then, change.rate, change.refusal) for change in found]


def claim(given: Given, claimed: Union[str, Fraction], *, buffers: Optional[Mapping[str, int]] = None, no_overlap: bool = False,
          states: Optional[int] = None, program: Optional[str] = None) -> Claimed:
    """Whether a claim of a rate is right: a fraction, or text as the subcommand `referee` reads it, so `~0.1429` for one of four digits."""
    judged = throughput(given, buffers=buffers, no_overlap=no_overlap, states=states, certified=True, program=program)
    verdict = Claim(claimed if isinstance(claimed, str) else f"{claimed.numerator}/{claimed.denominator}").verdict(judged.rate)
    return Claimed(verdict == "confirmed", verdict, judged)


def complete(given: Given, rounds: int = 1, *, buffers: Optional[Mapping[str, int]] = None, no_overlap: bool = False,
             states: Optional[int] = None, program: Optional[str] = None) -> Completion:
    """The least time in which so many rounds can end; of one round, the least latency."""
    drawn = graph(given, program)
    return analyser(program).complete(drawn, rounds, Options(no_overlap, states).words(known(drawn, buffers)))


def scenario(path: Union[str, "os.PathLike[str]"], *, seconds: Optional[float] = None, program: Optional[str] = None) -> WorstRate:
    """The worst rate over all paths of the automaton of a file of scenarios."""
    name = os.fspath(path)
    return reading.worst_rate(analyser(program), name, output.read(name), seconds)


def check(given: Given, certificate: bytes, *, program: Optional[str] = None) -> str:
    """What `check` says of a certificate that it accepts, as `accepted throughput 1/7`; of another one it is a `Fault` of status 9. A rate
    in it is by the times that the analyser was given."""
    with tempfile.TemporaryDirectory() as folder:
        path = os.path.join(folder, "certificate")
        output.put(path, certificate)
        return analyser(program).check(graph(given, program), path)


def check_again(given: Given, certificate: bytes, *, program: Optional[str] = None) -> str:
    """What the second checker says, which shares nothing with the analyser."""
    drawn = graph(given, program)
    with tempfile.TemporaryDirectory() as folder, drawn.file() as path:
        put = os.path.join(folder, "certificate")
        output.put(put, certificate)
        try:
            return second.verdict(path, put)
        except second.Refused as refused:
            raise Fault(refused.status, refused.line) from refused
