"""Graphs that are drawn, against a plain program that plays self-timed execution firing by firing."""
import os
from fractions import Fraction
from typing import Dict, Iterator, List, Tuple

import pytest

from sdf3companion import api, changes, graphs, reading, timeline, xmltree
from sdf3companion.analyser import Analyser
from sdf3companion.bounds import fastest
from sdf3companion.claims import Claim
from sdf3companion.faults import BUDGET, FORM, Fault
from sdf3companion.graphs import Graph
from sdf3companion.search import Search
from tests.conftest import GraphFile
from tests.drawn import Drawn

SEEDS = range(int(os.environ.get("COMPANION_DRAWN", "200")))
AMPLE = 8
"""Rounds that a buffer holds where no memory is to be saved."""
ALONE = ["--no-overlap"]
GREATER = ["--states", "200000"]
"""Words for graphs in which some firings take no time."""

Of = Tuple[Drawn, Graph]


def drawn_of(seed: int, zero: bool = False) -> Drawn:
    return Drawn(seed, back=.6 if seed % 2 == 0 else 0, phases=seed % 5 == 0, zero=zero)


def ample(drawn: Drawn) -> Dict[str, int]:
    """Capacities that hold some rounds."""
    rounds = drawn.repetition()
    return {way.name: way.tokens + AMPLE * rounds[way.source] * way.made for way in drawn.channels}


def tight(drawn: Drawn) -> Dict[str, int]:
    """Capacities that hold little."""
    return {way.name: max(way.made, way.taken) + way.made + way.tokens for way in drawn.channels}


@pytest.fixture(params=SEEDS)
def seed(request: pytest.FixtureRequest) -> int:
    number: int = request.param
    return number


@pytest.fixture
def drawn_graph(analyser: Analyser, graph_file: GraphFile, seed: int) -> Of:
    drawn = drawn_of(seed)
    return drawn, graphs.opened(analyser, graph_file(drawn.text()))


def test_fastest_and_tradeoff(analyser: Analyser, drawn_graph: Of) -> None:
    """The fastest rate is that with ample memory; the points end there, each has the rate that is played, and no limit adds one."""
    drawn, graph = drawn_graph
    top = fastest(analyser, graph, None, ALONE)
    assert top is not None and top.rate == drawn.rate(ample(drawn))
    search = Search(analyser, graph, ALONE)
    points = [point for new in search.levels() for point in new]
    assert points == search.points
    assert points[-1].rate == top.rate
    for point in points:
        assert point.rate == drawn.rate(point.capacities())
        assert point.storage == sum(point.capacities()[way.name] * way.size for way in drawn.channels)
    assert search.complete is not None
    assert analyser.storage(graph, search.complete + 3, ALONE) == points
    wanted = Search(analyser, graph, ALONE)
    assert [point for new in wanted.levels(points[0].rate) for point in new] == points[:1]


def test_what_if(analyser: Analyser, drawn_graph: Of) -> None:
    """An actor that is faster gives the rate that is played with its time divided."""
    drawn, graph = drawn_graph
    name = drawn.names[len(drawn.names) // 2]
    rate, _ = changes.rate_of(analyser, changes.sped_up(graph, name, Fraction(3, 2)), None, ALONE)
    drawn.times[name] = [Fraction(time) * 2 / 3 for time in drawn.times[name]]
    assert rate == drawn.rate(ample(drawn))


def test_time_line(analyser: Analyser, drawn_graph: Of) -> None:
    """Each box is a firing of the played schedule's form: it lasts its actor's time, and the need cycle takes what it says."""
    drawn, graph = drawn_graph
    answer = analyser.throughput(graph, [*ALONE, *graphs.buffers_words(ample(drawn))])
    times = graph.times
    document = timeline.document(answer, times)
    assert all(box["end"] - box["start"] == times[box["actor"]][box["firing"] % len(times[box["actor"]])] for box in document["firings"])
    firings = timeline.critical_firings(answer)
    assert all(start + timeline.firing_time(times, actor, number) == then for (actor, number, start), (_, _, then) in zip(firings, firings[1:]))
    assert firings[-1][2] - firings[0][2] == answer.cycle.time
    picture = xmltree.parsed(timeline.svg(answer, times).encode(), "picture").root
    assert sum(part.get("class") == "c" for part in picture.iter("rect")) == len({firing[:2] for firing in firings})


def test_claims(analyser: Analyser, drawn_graph: Of) -> None:
    drawn, graph = drawn_graph
    rate = analyser.throughput(graph, [*ALONE, *graphs.buffers_words(ample(drawn))]).rate
    assert Claim(f"{rate.numerator}/{rate.denominator}").verdict(rate) == "confirmed"
    assert Claim(f"~{float(rate):.4f}").verdict(rate) == "confirmed"
    assert Claim(f"{rate.numerator + 1}/{rate.denominator}").verdict(rate) == "too fast"
    assert Claim(f"{rate.numerator}/{rate.denominator + 1}").verdict(rate) == "too slow"


def opened(analyser: Analyser, text: str) -> Graph:
    """The graph of a text, whatever its times are."""
    graph, _ = reading.graph_of(analyser, "graph.xml", text.encode())
    return graph


def test_fractional_times(analyser: Analyser, seed: int) -> None:
    """Rates and schedules are by the times of the file, a quarter of those that are drawn."""
    drawn = drawn_of(seed)
    graph = opened(analyser, drawn.text(lambda time: str(Fraction(time) / 4)))
    answer = analyser.throughput(graph, [*ALONE, *graphs.buffers_words(ample(drawn))])
    assert answer.rate == drawn.rate(ample(drawn)) * 4
    drawn.times = {name: [Fraction(time) / 4 for time in line] for name, line in drawn.times.items()}
    assert graph.times == drawn.times
    assert drawn.keeps(ample(drawn), answer.schedule.starts, answer.schedule.period, answer.schedule.rounds)


def has_zero_cycle(drawn: Drawn) -> bool:
    """Whether a cycle of several actors takes no time, by following every way."""
    idle = {name for name in drawn.names if not any(drawn.times[name])}
    ways = {(way.source, way.target) for way in drawn.channels if way.source in idle and way.target in idle}
    reached = set(ways)
    while more := {(a, d) for a, b in reached for c, d in ways if b == c} - reached:
        reached |= more
    return len(idle) == len(drawn.names) or any((b, a) in reached for a, b in reached)


def answers_of(analyser: Analyser, drawn: Drawn, graph: Graph) -> Iterator[None]:
    """For capacities of two kinds the rate and the schedule are those that are played."""
    for capacities in (ample(drawn), tight(drawn)):
        answer = analyser.throughput(graph, [*ALONE, *graphs.buffers_words(capacities), *GREATER])
        assert answer.rate == drawn.rate(capacities)
        assert Fraction(answer.cycle.rounds) / answer.cycle.time == answer.rate
        assert drawn.keeps(capacities, answer.schedule.starts, answer.schedule.period, answer.schedule.rounds)
        yield


def test_times_of_zero(analyser: Analyser, seed: int) -> None:
    """Rates and schedules for times of zero are those that are played with them."""
    drawn = drawn_of(seed, zero=True)
    if has_zero_cycle(drawn):
        with pytest.raises(Fault, match="form: ") as refused:
            opened(analyser, drawn.text())
        assert refused.value.status == FORM
        return
    graph = opened(analyser, drawn.text())
    assert graph.times == drawn.times
    try:
        assert len(list(answers_of(analyser, drawn, graph))) == 2
    except Fault as fault:
        assert fault.status == BUDGET
        pytest.skip("one time unit instead of none takes more states to come round than the analyser allows")


def test_points_for_times_of_zero(analyser: Analyser, seed: int) -> None:
    """Points have the rates that are played, no two of them the same, and no storage below a point's has its rate."""
    drawn = drawn_of(seed, zero=True)
    if has_zero_cycle(drawn) or seed % 4:
        return
    try:
        found = api.tradeoff(opened(analyser, drawn.text()), no_overlap=True, states=200000, program=analyser.program)
    except Fault as fault:
        assert fault.status == BUDGET
        pytest.skip("one time unit instead of none takes more states to come round than the analyser allows")
    rates = [point.rate for point in found.points]
    assert rates == sorted(set(rates)) and rates[-1] == drawn.rate(ample(drawn))
    for point in found.points:
        assert point.rate == drawn.rate(point.capacities)
        assert all(drawn.rate(less) < point.rate for less in smaller(drawn, point.capacities))


def smaller(drawn: Drawn, capacities: Dict[str, int]) -> List[Dict[str, int]]:
    """The capacities with a token less in one channel, where it has that many."""
    return [{**capacities, way.name: capacities[way.name] - 1} for way in drawn.channels if capacities[way.name] > way.tokens]
