"""The analyser's answers, and how they are read off the texts that it prints. Names are those of the file; in texts the analyser
spells bytes that aren't letters, digits, `_`, `-`, `.` or `:` with `%`. Times are whole numbers, or fractions where the times of the user's
file are."""
from __future__ import annotations

import re
from dataclasses import dataclass, field
from fractions import Fraction
from typing import Any, Dict, List, Mapping, Tuple, Union
from urllib.parse import unquote

Time = Union[int, Fraction]
"""A time in the units of the user's file: an `int` where it is whole."""
UNLINKED = ("/space", "/self", "/order")
"""The endings of links that are no channels of the file."""


def escaped(name: str) -> str:
    """A name as the analyser prints it."""
    data = name.encode("utf-8", "surrogateescape")
    return "".join(chr(byte) if re.fullmatch(rb"[A-Za-z0-9_.:-]", bytes([byte])) else f"%{byte:02X}" for byte in data)


def plain(name: str) -> str:
    """A name as it is, of one that the analyser printed."""
    return unquote(name, errors="surrogateescape")


def plain_link(link: str) -> str:
    """A link with names as they are, but for the letters `%`, `/` and `>`, which stay spelled, so that its ending can be told."""
    return plain(re.sub("%(25|2F|3E)", r"%25\1", link))


def escaped_link(link: str) -> str:
    """A link as the analyser prints it."""
    return "".join(letter if letter in "%/>" else escaped(letter) for letter in link)


def buffers_for_people(capacities: Mapping[str, int]) -> str:
    """Capacities with names as they are, but for the letters `%`, `,` and `=`, which stay spelled, so that companions can read them."""
    letters = {ord(letter): escaped(letter) for letter in "%,="}
    return ",".join(f"{name.translate(letters)}={number}" for name, number in capacities.items()) or "-"


def exact(value: Time) -> Time:
    """A number, as an `int` where it is whole."""
    return value.numerator if value.denominator == 1 else value


def shown(value: Time) -> str:
    """A number without a denominator of 1."""
    return str(value.numerator) if value.denominator == 1 else f"{value.numerator}/{value.denominator}"


@dataclass
class Step:
    """A firing of a need cycle, and the link along which it needs the firing before it; the first has none. A link is a channel,
    `CHANNEL/space` for its free space, `ACTOR/self` for the order of an actor's own firings, or `A>B/order`."""

    actor: str
    firing: int
    link: str = ""


@dataclass
class NeedCycle:
    """Firings each needed by the next, the last so many rounds after the first: no schedule runs the rounds in less time."""

    time: Time
    rounds: int
    steps: List[Step]

    def lines(self) -> List[str]:
        """The lines by which the analyser prints it."""
        first = self.steps[0]
        return [f"cycle {shown(self.time)} {self.rounds} {escaped(first.actor)} {first.firing}",
                *(f"{escaped(step.actor)} {step.firing} {escaped_link(step.link)}" for step in self.steps[1:])]

    def document(self) -> Dict[str, Any]:
        return {"time": self.time, "rounds": self.rounds, "steps": [vars(step) for step in self.steps]}


@dataclass
class Schedule:
    """Starts by actor, in order, that come again every period, some rounds later."""

    period: Time
    rounds: int
    starts: Dict[str, List[Time]]

    def start(self, actor: str, firing: int) -> Time:
        """When a firing starts, however late."""
        line = self.starts[actor]
        return line[firing % len(line)] + firing // len(line) * self.period

    def lines(self) -> List[str]:
        """The lines by which the analyser prints it."""
        rows = [" ".join([escaped(actor), *map(shown, line)]) for actor, line in self.starts.items()]
        return [f"schedule {shown(self.period)} {self.rounds}", *rows]


@dataclass
class Rate:
    """The answer of `throughput`: the rate in rounds per time unit, a schedule that reaches it, and a cycle that bounds it."""

    rate: Fraction
    schedule: Schedule
    cycle: NeedCycle


@dataclass
class Point:
    """A Pareto point of `storage`; its buffers as the analyser spells them."""

    storage: int
    rate: Fraction
    buffers: str
    schedule: Schedule

    def capacities(self) -> Dict[str, int]:
        """Capacities by the channels' names."""
        pairs = self.buffers.split(",") if self.buffers != "-" else []
        return {plain(name): int(number) for name, _, number in (pair.partition("=") for pair in pairs)}

    def words(self) -> List[str]:
        """The words by which `throughput` is asked for these buffers."""
        return ["--buffers", self.buffers] if self.buffers != "-" else []


@dataclass
class Completion:
    """The answer of `complete`: the least time in which so many rounds can end; the way of needs that takes it has so many firings, and of
    each actor on it so many, which take so long."""

    rounds: int
    time: Time
    firings: int
    parts: Dict[str, Tuple[int, Time]] = field(default_factory=dict)


@dataclass
class WorstRate:
    """The answer of `scenario`: the worst rate of all paths, and the cycle that has it, its time, its rounds, and its states in order."""

    rate: Fraction
    time: Time
    rounds: int
    states: List[str]


def schedule_of(lines: List[str], actors: int) -> Schedule:
    """The schedule that begins at a list of lines."""
    _, period, rounds = lines[0].split(" ")
    rows = [line.split(" ") for line in lines[1:actors + 1]]
    return Schedule(int(period), int(rounds), {plain(row[0]): [int(start) for start in row[1:]] for row in rows})


def cycle_of(lines: List[str]) -> NeedCycle:
    """The need cycle that lines spell."""
    _, time, rounds, first, number = lines[0].split(" ")
    steps = [Step(plain(actor), int(firing), plain_link(link)) for actor, firing, link in (line.split(" ") for line in lines[1:])]
    return NeedCycle(int(time), int(rounds), [Step(plain(first), int(number)), *steps])


def keyed(line: str, key: str) -> List[str]:
    """The words behind the first word of a line, which has to be this one."""
    first, *rest = line.split(" ")
    if first != key:
        raise ValueError(line)
    return rest


def repetition_of(text: str) -> Dict[str, int]:
    """The firings of each actor in a round."""
    rows = [line.split(" ") for line in text.splitlines()[1:]]
    return {plain(name): int(number) for name, number in rows}


def rate_of(text: str, actors: int) -> Rate:
    """The answer that the text of `throughput` spells, of so many actors."""
    lines = text.splitlines()
    return Rate(Fraction(keyed(lines[0], "rate")[0]), schedule_of(lines[1:], actors), cycle_of(lines[actors + 2:]))


def points_of(text: str, actors: int) -> List[Point]:
    """The Pareto points that the text of `storage` spells, of so many actors."""
    lines, points, at = text.splitlines(), [], 1
    for _ in range(int(keyed(lines[0], "points")[0])):
        storage, rate = keyed(lines[at], "point")
        points.append(Point(int(storage), Fraction(rate), keyed(lines[at + 1], "buffers")[0], schedule_of(lines[at + 2:], actors)))
        at += 3 + actors
    if at != len(lines):
        raise ValueError(text)
    return points


def completion_of(text: str) -> Completion:
    """The answer that the text of `complete` spells."""
    lines = text.splitlines()
    rounds, time = keyed(lines[0], "complete")
    rows = [line.split(" ") for line in lines[2:]]
    parts: Dict[str, Tuple[int, Time]] = {plain(actor): (int(count), int(took)) for actor, count, took in rows}
    return Completion(int(rounds), int(time), int(keyed(lines[1], "path")[0]), parts)


def worst_rate_of(text: str) -> WorstRate:
    """The answer that the text of `scenario` spells."""
    lines = text.splitlines()
    time, rounds, first, *_ = keyed(lines[1], "cycle")
    onward = [line.split(" ")[0] for line in lines[2:2 + int(rounds) - 1]]
    return WorstRate(Fraction(keyed(lines[0], "rate")[0]), int(time), int(rounds), [plain(first), *map(plain, onward)])


def pairs_of(text: str) -> List[Tuple[int, Fraction]]:
    """Storage and rate of each point of a trade-off, as `storage` and `scenario-storage` print it."""
    lines = text.splitlines()
    number, found, at = int(keyed(lines[0], "points")[0]), [], 1
    while at + 2 < len(lines) and lines[at].startswith("point "):
        _, storage, rate = lines[at].split(" ")
        found.append((int(storage), Fraction(rate)))
        at += 2 + lines_behind(lines[at + 2:], (len(lines) - 1) // number)
    if len(found) != number or at != len(lines):
        raise ValueError(f"the text has {len(found)} of its {number} points")
    return found


def lines_behind(lines: List[str], block: int) -> int:
    """How many lines of a point's block stand behind its first two: of a schedule one an actor, in each block as many; or a
    cycle's and the potentials', as many as their first lines say."""
    if lines[0].startswith("schedule "):
        return block - 2
    cycle = 1 + int(keyed(lines[0], "cycle")[1])
    return cycle + 1 + int(keyed(lines[cycle], "potentials")[0])
