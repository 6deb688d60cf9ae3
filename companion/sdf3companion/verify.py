#!/usr/bin/env python3
"""A second checker of certificates, for people who want to read what they trust.

    sdf3companion verify GRAPH CERTIFICATE

It is unproved. It is written from docs/FILES.md alone and shares no line with the analyser: it reads the graph and the
certificate itself, and tests by whole numbers and fractions whether each line is right. On the same two files its
verdict and its line are those of `sdf3analysis --algo check`. It executes nothing and searches for nothing.

Exit status: 0 accepted, 3 a file isn't of its form, 4 a number of the certificate is too large, 9 rejected, 10 a file
can't be read.
"""
from __future__ import annotations

import argparse
import re
import sys
import xml.etree.ElementTree as ElementTree
from bisect import bisect_left
from collections import deque
from fractions import Fraction
from itertools import accumulate, cycle as repeated
from math import gcd, inf, lcm
from typing import Callable, Collection, Deque, Dict, Iterable, List, Mapping, NamedTuple, Optional, Sequence, Set, Tuple, TypeVar

ACCEPTED, USAGE, FORM, LIMIT, REJECTED, SHELF, UNWRITTEN, MEMORY = 0, 2, 3, 4, 9, 10, 11, 12
MOST_PLACE = 2**32 - 1
"""The greatest number of an actor, a channel, a state or a token."""
MOST_NUMBER = 2**64 - 1
MOST_START = 2**100
MOST_POTENTIAL = 2**127 - 1
MOST_CAPACITY = 1_000_000
MOST_STORAGE = 1_000_000_000
STANDARD = "-"
"""What names standard input to other commands."""
DIGITS = 50
"""So many letters of a number are enough to be above every limit."""
NEVER = -inf
"""The time of a way that there isn't."""

Found = TypeVar("Found")
Capacities = Tuple[Optional[int], ...]
"""A capacity for each channel of the file, None where it has none."""
Node = Tuple[int, int]
"""A state of an automaton and a shared token."""


class Refused(Exception):
    """Why there is no verdict, or that it is against the certificate: an exit status and a line."""

    def __init__(self, status: int, line: str) -> None:
        super().__init__(status, line)
        self.status, self.line = status, line


def require_form(holds: object, line: int) -> None:
    """Goes on only where a line of the certificate is of its form."""
    if not holds:
        raise Refused(FORM, f"form: certificate line {line}")


def require(holds: object, line: int, reason: str) -> None:
    """Goes on only where what a line of the certificate says is so."""
    if not holds:
        raise Refused(REJECTED, f"rejected: line {line}: {reason}")


# What a certificate has.


class Ratio(NamedTuple):
    """A rate as it is written: rounds in a time."""

    rounds: int
    time: int

    def is_lowest(self) -> bool:
        return min(self) >= 1 and gcd(*self) == 1

    def fraction(self) -> Fraction:
        return Fraction(self.rounds, self.time)

    def is_of(self, rounds: int, time: int) -> bool:
        """Whether so many rounds in such a time are this rate."""
        return rounds * self.time == self.rounds * time


class Schedule(NamedTuple):
    """Starts by actor that come again every period, some rounds later; `line` is the number of the schedule's first line."""

    line: int
    period: int
    rounds: int
    starts: List[List[int]]


class Step(NamedTuple):
    """A firing of a cycle, and the link by which it needs the one before it; the first has none."""

    actor: int
    firing: int
    link: str


class Cycle(NamedTuple):
    """Firings of which each needs the one before, the last so many rounds after the first."""

    time: int
    rounds: int
    steps: List[Step]


class Member(NamedTuple):
    """A distribution: its capacities, and either a rate and the cycle that bounds it, or the firings after which it is blocked.
    `line` is the number of its first line, and `cycle_line` that of what bounds it."""

    line: int
    capacities: Capacities
    rate: Ratio
    cycle: Optional[Cycle]
    counts: List[int]
    cycle_line: int


class Point(NamedTuple):
    """A point: its storage, its rate, the number of the member that has both, and a schedule."""

    line: int
    storage: int
    rate: Ratio
    member: int
    schedule: Schedule


class Lines:
    """The lines of a certificate, each with its LF: how many are taken, the next, and the words of the last."""

    def __init__(self, lines: Iterable[str]) -> None:
        self.rest = iter(list(lines))
        self.next = next(self.rest, "")
        self.at = 0
        self.words: List[str] = []
        self.version = 0

    def take(self, form: str, *limits: int, also: Callable[[List[int]], bool] = lambda row: True) -> List[int]:
        """The numbers of the next line: of a form in which N is a number, as `also` tells, within limits in turn."""
        line, self.next = self.next, next(self.rest, "")
        self.at, self.words = self.at + (line != ""), line.split()
        row = [int(word[:DIGITS]) for word in re.findall("-?[0-9]+", line)]
        require_form(re.fullmatch(form.replace("N", "(0|[1-9][0-9]*)") + "\n", line) and also(row), self.at)
        if not all(-limit - 1 <= number <= limit for number, limit in zip(row, repeated(limits))):
            raise Refused(LIMIT, "limit: certificate number too large")
        return row

    def number(self, form: str) -> int:
        [found] = self.take(form, MOST_NUMBER)
        return found

    def end(self) -> None:
        self.take("end")
        require_form(not self.next, self.at + 1)

    def no_overlap(self) -> bool:
        """Whether the firings of an actor without a channel to itself follow each other."""
        self.take("no-overlap (yes|no)")
        return self.words[1] == "yes"

    def ratio(self) -> Ratio:
        return Ratio(*self.take("rate N/N", MOST_NUMBER))

    def schedule(self) -> Schedule:
        line, (period, rounds) = self.at + 1, self.take("schedule N N", MOST_NUMBER)
        starts: List[List[int]] = []
        while self.next[:1].isdigit():
            starts.append(self.take("N( N)*", MOST_START))
        return Schedule(line, period, rounds, starts)

    def cycle(self) -> Cycle:
        time, rounds, actor, firing, count = self.take("cycle N N N N N", MOST_NUMBER, MOST_NUMBER, MOST_PLACE, MOST_NUMBER, MOST_NUMBER)
        return Cycle(time, rounds, [Step(actor, firing, ""), *(self.step() for _ in range(count))])

    def step(self) -> Step:
        actor, firing, _ = self.take("N N [tso]N", MOST_PLACE, MOST_NUMBER, MOST_PLACE)
        return Step(actor, firing, self.words[2])

    def buffers(self) -> Dict[int, int]:
        """Capacities by the number of a channel, in this order."""
        row = self.take("buffers (-|N=N( N=N)*)", MOST_PLACE, MOST_NUMBER, also=lambda row: all(one < other for one, other in zip(row[::2], row[2::2])))
        return dict(zip(row[::2], row[1::2]))

    def listed_cycles(self) -> List[Cycle]:
        """The cycles that members name by their numbers, no two of them the same; the first version has none."""
        cycles: List[Cycle] = []
        for _ in range(self.number("cycles N") if self.version == 2 else 0):
            line = self.at + 1
            cycles.append(self.cycle())
            require_form(cycles[-1] not in cycles[:-1], line)
        return cycles

    def member(self, cycles: Sequence[Cycle], used: Set[int]) -> Member:
        """A member. `used` are the listed cycles that members before it name: it names one of them, or the next one."""
        self.take("member( (N|-))*", MOST_NUMBER)
        line, capacities = self.at, tuple(None if word == "-" else int(word) for word in self.words[1:])
        if self.next.startswith("blocked"):
            self.take("blocked")
            return Member(line, capacities, Ratio(0, 1), None, self.take("N( N)*", MOST_NUMBER), line + 2)
        if self.version == 1:
            return Member(line, capacities, self.ratio(), self.cycle(), [], line + 2)
        rounds, time, cycle = self.take("rate N/N N", MOST_NUMBER, also=lambda row: row[2] < min(len(used) + 1, len(cycles)))
        used.add(cycle)
        return Member(line, capacities, Ratio(rounds, time), cycles[cycle], [], line + 1)

    def point(self) -> Point:
        storage, rounds, time, member = self.take("point N N/N N", MOST_NUMBER)
        return Point(self.at, storage, Ratio(rounds, time), member, self.schedule())

    def node(self) -> Node:
        state, token = self.take("N N", MOST_PLACE)
        return state, token


# The graph file.


class Link:
    """Tokens from one actor to another. `made` and `taken` have how many tokens the first phases make and take."""

    def __init__(self, source: int, target: int, made: Sequence[int], taken: Sequence[int], tokens: int) -> None:
        self.source, self.target, self.made, self.taken, self.tokens = source, target, made, taken, tokens

    def last_need(self, firing: int) -> int:
        """The last firing of the source that a firing of the target needs; below 0 where it needs none."""
        turns, rest = divmod(firing + 1, len(self.taken) - 1)
        lacking = turns * self.taken[-1] + self.taken[rest] - self.tokens
        turns, rest = divmod(lacking - 1, self.made[-1])
        return turns * (len(self.made) - 1) + bisect_left(self.made, rest + 1) - 1


class Channel(Link):
    """A channel of the file. `least` is the smallest capacity, None for a channel of an actor to itself, `step` by how much capacities grow,
    and `size` the memory of a token."""

    def __init__(self, name: str, ends: Tuple[int, int], made: List[int], taken: List[int], tokens: int, size: int) -> None:
        super().__init__(*ends, [0, *accumulate(made)], [0, *accumulate(taken)], tokens)
        self.name, self.size, self.step = name, size, gcd(*made, *taken)
        most = max(*made, *taken)
        self.least = None if self.source == self.target else max(tokens, most + (tokens - most) % self.step)


def numbers(text: str) -> List[int]:
    """A list of numbers by phase, in which `n*v` is n times v."""
    parts = [f"1*{part}".split("*")[-2:] for part in text.split(",")]
    return [int(value) for times, value in parts for _ in range(int(times))]


def there(found: Optional[Found]) -> Found:
    """What a file of its form has."""
    if found is None:
        raise ValueError("something is missing")
    return found


class Graph:
    """The times of each actor by phase, the channels, and the firings of each actor in a round."""

    def __init__(self, parent: ElementTree.Element, kind: str, no_overlap: bool = False) -> None:
        body, properties = there(parent.find(kind)), there(parent.find(f"{kind}Properties"))
        self.actors = [there(actor.get("name")) for actor in body.findall("actor")]
        self.times: List[List[int]] = []
        self.rates: List[Dict[str, List[int]]] = []
        for actor in body.findall("actor"):
            self.read_actor(actor, properties)
        self.channels = [self.channel(element, properties) for element in body.findall("channel")]
        self.links: Dict[str, Link] = {f"t{number}": channel for number, channel in enumerate(self.channels)}
        with_own = {channel.source for channel in self.channels if channel.source == channel.target}
        for actor_number, times in enumerate(self.times):
            if len(times) > 1 or no_overlap and actor_number not in with_own:
                turns = range(len(times) + 1)
                self.links[f"o{actor_number}"] = Link(actor_number, actor_number, turns, turns, 1)
        self.firings = self.repetition_vector()

    def read_actor(self, actor: ElementTree.Element, properties: ElementTree.Element) -> None:
        """The rates of an actor's ports and its times, each by phase; what stands once stands for all phases."""
        ports = {there(port.get("name")): numbers(there(port.get("rate"))) for port in actor.findall("port")}
        rows = {row.get("actor"): row for row in properties.findall("actorProperties")}
        processors = rows[actor.get("name")].findall("processor")
        chosen = min(processors, key=lambda processor: processor.get("default") != "true")
        times = numbers(there(there(chosen.find("executionTime")).get("time")))
        phases = max(len(times), *map(len, ports.values()))
        self.times.append(times * phases if len(times) == 1 else times)
        self.rates.append({name: rates * phases if len(rates) == 1 else rates for name, rates in ports.items()})

    def channel(self, element: ElementTree.Element, properties: ElementTree.Element) -> Channel:
        rows = {row.get("channel"): row for row in properties.findall("channelProperties")}
        size = rows[element.get("name")].find("tokenSize") if element.get("name") in rows else None
        ends = self.actors.index(there(element.get("srcActor"))), self.actors.index(there(element.get("dstActor")))
        return Channel(there(element.get("name")), ends, self.rates[ends[0]][there(element.get("srcPort"))],
                       self.rates[ends[1]][there(element.get("dstPort"))], int(element.get("initialTokens", "0")),
                       max(1, int(size.get("sz", "0"))) if size is not None else 1)

    def repetition_vector(self) -> List[int]:
        """The firings of each actor in a round, along the channels from actor 0."""
        turns = {0: Fraction(1)}
        for channel in self.channels * len(self.times):
            if channel.source in turns:
                turns.setdefault(channel.target, turns[channel.source] * channel.made[-1] / channel.taken[-1])
            elif channel.target in turns:
                turns[channel.source] = turns[channel.target] * channel.taken[-1] / channel.made[-1]
        if len(turns) != len(self.times) or any(turns[channel.source] * channel.made[-1] != turns[channel.target] * channel.taken[-1]
                                                for channel in self.channels):
            raise Refused(FORM, "the graph isn't connected and consistent: ask the analyser why")
        scale = lcm(*(turn.denominator for turn in turns.values()))
        return [int(turns[actor] * scale) * len(times) for actor, times in enumerate(self.times)]

    def time(self, actor: int, firing: int) -> int:
        return self.times[actor][firing % len(self.times[actor])]

    def net(self, capacities: Iterable[Optional[int]]) -> Dict[str, Link]:
        """The links by name: `t` of channels, `o` of actors to themselves, and `s` of the free spaces that capacities leave."""
        spaces = {f"s{number}": Link(channel.target, channel.source, channel.taken, channel.made, capacity - channel.tokens)
                  for number, (capacity, channel) in enumerate(zip(capacities, self.channels)) if capacity is not None}
        return {**self.links, **spaces}

    def storage(self, capacities: Capacities) -> float:
        """The storage that capacities need, infinite where they aren't of the graph's channels."""
        if len(capacities) != len(self.channels):
            return inf
        pairs = list(zip(capacities, self.channels))
        if any((capacity is None) != (channel.least is None) or capacity is not None and capacity < channel.tokens for capacity, channel in pairs):
            return inf
        return sum(capacity * channel.size for capacity, channel in pairs if capacity is not None)


def reached(first: Iterable[Found], after: Callable[[Found], Iterable[Found]]) -> Set[Found]:
    """What can be reached from some nodes, each followed by those that `after` tells."""
    found = set(first)
    waiting = list(found)
    while waiting:
        new = set(after(waiting.pop())) - found
        found |= new
        waiting += new
    return found


# What shows a rate: a schedule that reaches it, and a cycle that bounds it.


def check_schedule(graph: Graph, net: Mapping[str, Link], schedule: Schedule, rate: Ratio) -> None:
    """Rounds by period are the rate, and each actor's starts come in time in every period."""
    passes = [schedule.rounds * firings for firings in graph.firings]
    good = min(schedule.period, schedule.rounds) >= 1 and len(schedule.starts) == len(passes)
    require(good and rate.is_of(schedule.rounds, schedule.period), schedule.line, "schedule")
    for actor, row in enumerate(schedule.starts):
        good = len(row) == passes[actor] and all(one <= other for one, other in zip(row, [*row[1:], row[0] + schedule.period]))
        for link in net.values():
            if good and link.target == actor and len(schedule.starts[link.source]) == passes[link.source]:
                good = are_in_time(graph, link, schedule, passes[link.source])
        require(good, schedule.line + 1 + actor, "schedule")


def are_in_time(graph: Graph, link: Link, schedule: Schedule, passes: int) -> bool:
    """Whether each firing of a link's target starts when what it needs has ended; the source has so many firings in a period."""
    for firing, start in enumerate(schedule.starts[link.target]):
        turns, place = divmod(link.last_need(firing), passes)
        if schedule.starts[link.source][place] + turns * schedule.period + graph.time(link.source, place) > start:
            return False
    return True


def check_cycle(graph: Graph, net: Mapping[str, Link], cycle: Cycle, rate: Ratio, line: int) -> None:
    """Each firing is the last that the next needs along its link, with times and rounds as told, and this rate."""
    left = cycle.time
    for before, step in zip(cycle.steps, cycle.steps[1:]):
        link = net.get(step.link)
        require(link is not None and (link.source, link.target) == (before.actor, step.actor) and link.last_need(step.firing) == before.firing,
                line, "cycle")
        left -= graph.time(before.actor, before.firing)
    first, last = cycle.steps[0], cycle.steps[-1]
    good = len(cycle.steps) > 1 and cycle.rounds >= 1 and last.actor == first.actor
    require(good and last.firing == first.firing + cycle.rounds * graph.firings[first.actor], line, "cycle")
    require(left == 0 and rate.is_of(cycle.rounds, cycle.time), line, "cycle")


# A certificate of a rate.


def check_throughput(lines: Lines, graph_file: str) -> str:
    no_overlap, sizes, rate = lines.no_overlap(), lines.buffers(), lines.ratio()
    schedule, cycle_line, cycle = lines.schedule(), lines.at + 1, lines.cycle()
    lines.end()
    graph = Graph(*section(graph_file, False), no_overlap)
    tokens = {number: channel.tokens for number, channel in enumerate(graph.channels) if channel.least is not None}
    fit = all(number in tokens and tokens[number] <= size <= MOST_CAPACITY for number, size in sizes.items())
    net = graph.net(sizes.get(number) if fit else None for number in range(len(graph.channels)))
    require(not fit or is_connected(net.values(), len(graph.times)), 2, "connection")
    require(fit, 4, "buffers")
    require(rate.is_lowest(), 5, "rate")
    check_schedule(graph, net, schedule, rate)
    check_cycle(graph, net, cycle, rate, cycle_line)
    return f"throughput {rate.rounds}/{rate.time}"


def is_connected(links: Collection[Link], actors: int) -> bool:
    """Whether links lead from each actor to each, and there are some."""
    forth = reached([0], lambda actor: [link.target for link in links if link.source == actor])
    back = reached([0], lambda actor: [link.source for link in links if link.target == actor])
    return bool(links) and len(forth & back) == actors


# A certificate of a trade-off.


def check_storage(lines: Lines, graph_file: str) -> str:
    no_overlap, limit, cycles = lines.no_overlap(), lines.number("limit N"), lines.listed_cycles()
    used: Set[int] = set()
    count, members_line = lines.number("members N"), lines.at
    members = [lines.member(cycles, used) for _ in range(count)]
    count, points_line = lines.number("points N"), lines.at
    require_form(len(used) == len(cycles), points_line)
    points = [lines.point() for _ in range(count)]
    lines.end()
    graph = Graph(*section(graph_file, False), no_overlap)
    corner = tuple(channel.least for channel in graph.channels)
    require(len({link.target for link in graph.net(corner).values()}) == len(graph.times), 2, "connection")
    require(limit <= MOST_STORAGE, 4, "limit")
    first = [corner] if graph.storage(corner) <= limit else []
    require([member.capacities for member in members[:1]] == first, members_line, "member")
    check_members(graph, members, corner, limit)
    check_no_point_lacks(graph, members, points, points_line)
    check_points(graph, members, points)
    return f"storage {len(points)} points within {limit}"


def check_members(graph: Graph, members: Sequence[Member], corner: Capacities, limit: int) -> None:
    """Members stand in order, each is the corner or follows another, and each that has to follow one is there; each has its reason."""
    following = [larger(graph, member) for member in members]
    known, expected = {member.capacities for member in members}, {corner}.union(*following)
    before: Tuple[float, List[int]] = (-1, [])
    for member, rows in zip(members, following):
        rank = graph.storage(member.capacities), [capacity or 0 for capacity in member.capacities]
        require(rank[0] <= limit and rank > before and member.capacities in expected, member.line, "member")
        require(all(row in known or graph.storage(row) > limit for row in rows), member.line, "closure")
        before, net = rank, graph.net(member.capacities)
        if member.cycle is None:
            check_blocked(graph, net, member.counts, member.cycle_line)
        else:
            require(member.rate.is_lowest(), member.line + 1, "rate")
            check_cycle(graph, net, member.cycle, member.rate, member.cycle_line)


def larger(graph: Graph, member: Member) -> List[Capacities]:
    """A member's capacities with a step more room on each channel in turn of which its reason has the free space."""
    if graph.storage(member.capacities) == inf:
        return []
    net = graph.net(member.capacities)
    if member.cycle is not None:
        links = {step.link for step in member.cycle.steps[1:] if step.link in net}
    elif len(member.counts) == len(graph.firings):
        lacking = lacking_links(graph, net, member.counts)
        short = {net[link].target for link in lacking if not link.startswith("s")}
        links = {link for link in lacking if net[link].target not in short}
    else:
        links = set()
    places = [int(link[1:]) for link in links if link.startswith("s")]
    return [tuple(capacity + graph.channels[place].step if capacity is not None and number == place else capacity
                  for number, capacity in enumerate(member.capacities)) for place in places]


def lacking_links(graph: Graph, net: Mapping[str, Link], counts: Sequence[int]) -> Set[str]:
    """The links that lack tokens for an actor below its round after so many firings of each."""
    return {name for name, link in net.items()
            if counts[link.target] < graph.firings[link.target] and link.last_need(counts[link.target]) >= counts[link.source]}


def check_blocked(graph: Graph, net: Mapping[str, Link], counts: Sequence[int], line: int) -> None:
    """After so many firings of each actor some are below their rounds, none above, and each below lacks tokens."""
    good = len(counts) == len(graph.firings) and all(count <= most for count, most in zip(counts, graph.firings))
    below = {actor for actor, (count, most) in enumerate(zip(counts, graph.firings)) if count < most}
    require(good and below and {net[link].target for link in lacking_links(graph, net, counts)} == below, line, "blocked")


def check_no_point_lacks(graph: Graph, members: Sequence[Member], points: Sequence[Point], line: int) -> None:
    """For each member some point of no more storage has its rate or a greater one."""
    rates = [(point.storage, point.rate.fraction()) for point in points if point.rate.time]
    for member in members:
        if member.cycle is not None:
            most = max((rate for storage, rate in rates if storage <= graph.storage(member.capacities)), default=Fraction(0))
            require(most >= member.rate.fraction(), line, "point")


def check_points(graph: Graph, members: Sequence[Member], points: Sequence[Point]) -> None:
    """Each point is its member's, with a schedule, and costs more and runs faster than the one before."""
    before = (-1, Fraction(-1))
    for point in points:
        member = members[point.member] if point.member < len(members) else None
        good = member is not None and member.cycle is not None and member.rate == point.rate and graph.storage(member.capacities) == point.storage
        require(good and point.storage > before[0] and point.rate.fraction() > before[1], point.line, "point")
        check_schedule(graph, graph.net(there(member).capacities), point.schedule, point.rate)
        before = point.storage, point.rate.fraction()


# A certificate of a worst rate.


def check_scenario(lines: Lines, graph_file: str) -> str:
    rate = lines.ratio()
    time, rounds, state, token = lines.take("cycle N N N N", MOST_NUMBER, MOST_NUMBER, MOST_PLACE, MOST_PLACE)
    nodes: List[Node] = [(state, token), *(lines.node() for _ in range(rounds))]
    count, potentials_line = lines.number("potentials N"), lines.at
    rows = [lines.take("N N (-(?!0))?N", MOST_PLACE, MOST_PLACE, MOST_POTENTIAL) for _ in range(count)]
    lines.end()
    edges, initial = timed_graph(there(section(graph_file, True)[0].find("fsmsadf")))
    found = reached(initial, lambda node: edges[node])
    require(rate.is_lowest(), 3, "rate")
    along = [edges.get(node, {}).get(after) for node, after in zip(nodes, nodes[1:])]
    taken = sum(step for step in along if step is not None)
    good = rounds >= 1 and None not in along and nodes[0] == nodes[-1] and set(nodes) <= found
    require(good and taken == time and rate.is_of(rounds, time), 4, "cycle")
    potentials = {(state, token): potential for state, token, potential in rows}
    require([(state, token) for state, token, _ in rows] == sorted(found), potentials_line, "node")
    check_potentials(edges, initial, potentials, rate, potentials_line + 1)
    return f"scenario {rate.rounds}/{rate.time}"


def check_potentials(edges: Mapping[Node, Mapping[Node, float]], initial: Iterable[Node], potentials: Mapping[Node, int], rate: Ratio,
                     first_line: int) -> None:
    """The potential of each initial node is at least 0, and at no edge's end below what its beginning and its time ask for."""
    least: Dict[Node, float] = dict.fromkeys(initial, 0)
    for node, potential in potentials.items():
        for after, time in edges[node].items():
            least[after] = max(least.get(after, NEVER), potential + int(time) * rate.rounds - rate.time)
    for line, (node, potential) in enumerate(potentials.items(), first_line):
        require(potential >= least[node], line, "potential")


def timed_graph(body: ElementTree.Element) -> Tuple[Dict[Node, Dict[Node, float]], List[Node]]:
    """The edges of scenarios with their times, from node to node, and the initial nodes."""
    graphs = {there(scenario.get("name")): Graph(scenario, "sdf") for scenario in body.findall("scenario")}
    shared = [channel.name for channel in next(iter(graphs.values())).channels for _ in range(channel.tokens)]
    matrices = {name: matrix_of(graph, shared) for name, graph in graphs.items()}
    states = body.findall("fsm/state")
    names = [state.get("name") for state in states]
    edges: Dict[Node, Dict[Node, float]] = {}
    for number, state in enumerate(states):
        successors = [names.index(after.get("state")) for after in state.findall("next")]
        rows = matrices[there(state.get("scenario"))]
        for token in range(len(shared)):
            edges[number, token] = {(after, left): row[token] for after in successors for left, row in enumerate(rows) if row[token] != NEVER}
    initial = names.index(there(body.find("fsm")).get("initialState"))
    return edges, [(initial, token) for token in range(len(shared))]


def matrix_of(graph: Graph, shared: Sequence[str]) -> List[List[float]]:
    """For each token that a round leaves the greatest times from each shared token to it, carried along the firings of the round."""
    queues: Dict[str, Deque[List[float]]] = {channel.name: deque() for channel in graph.channels}
    for token, name in enumerate(shared):
        queues[name].append([0 if other == token else NEVER for other in range(len(shared))])
    left = list(graph.firings)
    while any(left):
        short = {channel.target for channel in graph.channels if len(queues[channel.name]) < channel.taken[1]}
        ready = [actor for actor, firings in enumerate(left) if firings and actor not in short]
        if not ready:
            raise Refused(FORM, "a scenario can't complete its round: ask the analyser why")
        for actor in ready:
            fire(graph, queues, actor)
            left[actor] -= 1
    return [row for name in dict.fromkeys(shared) for row in queues[name]]


def fire(graph: Graph, queues: Mapping[str, Deque[List[float]]], actor: int) -> None:
    """A firing of a scenario's actor takes its tokens, and leaves those that it makes when it ends."""
    rows = [queues[channel.name].popleft() for channel in graph.channels if channel.target == actor for _ in range(channel.taken[1])]
    ended = [max(column) + graph.times[actor][0] for column in zip(*rows)]
    for channel in graph.channels:
        if channel.source == actor:
            queues[channel.name].extend([ended] * channel.made[1])


# Both files.


def section(graph_file: str, is_of_scenarios: bool) -> Tuple[ElementTree.Element, str]:
    """The part of a graph file that has the graph, and its kind, which the certificate has to be about."""
    root = ElementTree.parse(graph_file).getroot()
    if (root.get("type") == "fsmsadf") != is_of_scenarios:
        raise Refused(FORM, "form: wrong kind")
    return there(root.find("applicationGraph")), there(root.get("type"))


CHECKS: Dict[str, Callable[[Lines, str], str]] = {"throughput": check_throughput, "storage": check_storage, "scenario": check_scenario}


def verdict(graph_file: str, certificate_file: str) -> str:
    """The line that `check` prints of two files."""
    with open(certificate_file, encoding="latin-1", newline="\n") as file:
        lines = Lines(file)
    [_, lines.version] = lines.take("sdf3-certificate [12]")
    lines.take("(throughput|storage|scenario)")
    return f"accepted {CHECKS[lines.words[0]](lines, graph_file)}"


def told(graph_file: str, certificate_file: str) -> Tuple[int, str]:
    """The exit status and the line for two files."""
    try:
        return ACCEPTED, verdict(graph_file, certificate_file)
    except Refused as refused:
        return refused.status, refused.line
    except OSError as fault:
        return SHELF, f"{fault.filename}: {fault.strerror}"
    except MemoryError:
        return MEMORY, "there is no memory"
    except (ElementTree.ParseError, KeyError, ValueError, TypeError, IndexError, StopIteration, RecursionError) as fault:
        return FORM, f"the graph file isn't of its form: ask the analyser where ({fault})"


def main(words: List[str]) -> int:
    if set(words) & {"-h", "--help"}:
        print(__doc__)
        return ACCEPTED
    if len(words) != 2:
        print(__doc__, file=sys.stderr)
        return USAGE
    status, line = told(*words) if STANDARD not in words else (USAGE, f"{STANDARD} isn't taken here: name a file")
    try:
        print(line if status == ACCEPTED else f"verify: {line}", file=sys.stdout if status == ACCEPTED else sys.stderr, flush=True)
    except OSError:
        return UNWRITTEN
    return status


def add_words(parser: argparse.ArgumentParser) -> None:
    parser.add_argument("graph", metavar="GRAPH")
    parser.add_argument("certificate", metavar="CERTIFICATE")


def run(asked: argparse.Namespace) -> int:
    return main([asked.graph, asked.certificate])


if __name__ == "__main__":
    sys.exit(main(sys.argv[1:]))
