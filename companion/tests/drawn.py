"""Graphs that are drawn from a seed, and plain programs that compute a definition on them, to compare answers with."""
import random
from fractions import Fraction
from math import gcd, lcm
from typing import Callable, Dict, List, Mapping, NamedTuple, Sequence, Union

from sdf3companion.writing import Row, graph_text

Number = Union[int, Fraction]


class Way(NamedTuple):
    """A channel of a drawn graph."""

    name: str
    source: str
    made: int
    target: str
    taken: int
    tokens: int
    size: int


class Drawn:
    """A consistent graph: times by actor, a list by phase, and channels."""

    def __init__(self, seed: int, *, back: float = 0.0, zero: bool = False, phases: bool = False) -> None:
        self.random = random.Random(seed)
        count = self.random.randint(2, 4)
        self.names = [f"a{number}" for number in range(count)]
        self.round = {name: self.random.choice([1, 1, 1, 2, 3]) for name in self.names}
        self.channels: List[Way] = []
        for number in range(1, count):
            self.join(self.names[self.random.randrange(number)], self.names[number], 0)
        self.kind = "csdf" if phases else "sdf"
        self.times: Dict[str, List[Number]] = {name: self.drawn_times(zero, phases) for name in self.names}
        self.close(back)

    def drawn_times(self, zero: bool, phases: bool) -> List[Number]:
        number = self.random.randint(1, 3) if phases else 1
        return [self.random.choice([0, 1, 2, 5]) if zero else self.random.randint(1, 9) for _ in range(number)]

    def join(self, source: str, target: str, tokens: int) -> None:
        """A channel whose rates fit the round."""
        common = lcm(self.round[source], self.round[target])
        made, taken = common // self.round[source], common // self.round[target]
        self.channels.append(Way(f"c{len(self.channels)}", source, made, target, taken, tokens, self.random.choice([1, 1, 2])))

    def close(self, share: float) -> None:
        """Ways back with tokens for a round or two, for a share of the channels."""
        for way in list(self.channels):
            if self.random.random() < share:
                self.join(way.target, way.source, self.round[way.source] * way.made * self.random.randint(1, 2))

    def text(self, spelled: Callable[[Number], str] = str) -> str:
        """Its file, with each time as it is to be spelled."""
        times = {name: ",".join(map(spelled, values)) for name, values in self.times.items()}
        return graph_text(self.kind, times, [Row(*way) for way in self.channels])

    def repetition(self) -> Dict[str, int]:
        """Firings of each actor in a round, which goes through all phases."""
        shared = gcd(*self.round.values())
        least = {name: number // shared for name, number in self.round.items()}
        times = lcm(*(len(values) // gcd(len(values), least[name]) for name, values in self.times.items()))
        return {name: number * times for name, number in least.items()}

    def rate(self, capacities: Mapping[str, int]) -> Fraction:
        """Rounds by time unit of self-timed execution with capacities by channel, firings of an actor one after another: by
        playing it, firing by firing, until what is there comes again. Times may be zero."""
        return Play(self, capacities).rate()

    def keeps(self, capacities: Mapping[str, int], starts: Mapping[str, Sequence[Number]], period: Number, rounds: int) -> bool:
        """Whether no firing of a schedule takes what isn't there, and none of an actor's overlap, over four of its periods."""
        events: List[Event] = []
        for name, line in starts.items():
            values = self.times[name]
            for number in range(4 * len(line)):
                start = line[number % len(line)] + number // len(line) * period
                events += [Event(start, 1, name, number), Event(start + values[number % len(values)], 0, name, number)]
        counts_fit = all(len(line) == rounds * self.repetition()[name] for name, line in starts.items())
        return counts_fit and are_lawful(self, capacities, events)


class Event(NamedTuple):
    """A firing's end (0) or start (1) at a time."""

    time: Number
    is_start: int
    name: str
    number: int


def are_lawful(drawn: Drawn, capacities: Mapping[str, int], events: Sequence[Event]) -> bool:
    """Whether the starts and ends can happen in some order that keeps their times. Of those at one time, ends of firings that have begun come
    first; a firing that takes no time begins and ends at one."""
    play = Play(drawn, capacities)
    waiting = sorted(events)
    while waiting:
        now = waiting[0].time
        due = next((event for event in waiting if event.time == now
                    and (play.can_start(event.name) and event.number == play.fired[event.name] if event.is_start else event.name in play.running)), None)
        if due is None:
            return False
        waiting.remove(due)
        if due.is_start:
            play.start(due.name)
        else:
            play.end(due.name)
    return True


class Play:
    """Self-timed execution by its definition: at each moment all firings that can start do, also those that take no time."""

    def __init__(self, drawn: Drawn, capacities: Mapping[str, int]) -> None:
        self.drawn = drawn
        self.tokens = {way.name: way.tokens for way in drawn.channels}
        self.space = {way.name: capacities[way.name] - way.tokens for way in drawn.channels}
        self.running: Dict[str, Number] = {}
        self.fired = dict.fromkeys(drawn.names, 0)

    def has_tokens(self, name: str) -> bool:
        """Whether an actor has the tokens and the space of a firing."""
        channels = self.drawn.channels
        return (all(self.tokens[way.name] >= way.taken for way in channels if way.target == name)
                and all(self.space[way.name] >= way.made for way in channels if way.source == name))

    def can_start(self, name: str) -> bool:
        return name not in self.running and self.has_tokens(name)

    def start(self, name: str) -> None:
        for way in self.drawn.channels:
            self.tokens[way.name] -= way.taken if way.target == name else 0
            self.space[way.name] -= way.made if way.source == name else 0
        values = self.drawn.times[name]
        self.running[name] = values[self.fired[name] % len(values)]
        self.fired[name] += 1

    def end(self, name: str) -> None:
        for way in self.drawn.channels:
            self.tokens[way.name] += way.made if way.source == name else 0
            self.space[way.name] += way.taken if way.target == name else 0
        del self.running[name]

    def settle(self) -> None:
        """Starts and ends what can at this moment."""
        while True:
            ended = [name for name, left in self.running.items() if left == 0]
            for name in ended:
                self.end(name)
            started = [name for name in self.drawn.names if self.can_start(name)]
            for name in started:
                self.start(name)
            if not ended and not started:
                return

    def rate(self) -> Fraction:
        """0 where it stands still."""
        seen: Dict[object, "tuple[Number, int]"] = {}
        now: Number = 0
        first = self.drawn.names[0]
        while True:
            self.settle()
            if not self.running:
                return Fraction(0)
            phases = tuple(self.fired[name] % len(self.drawn.times[name]) for name in self.drawn.names)
            shape = (tuple(self.tokens.items()), tuple(sorted(self.running.items())), phases)
            if shape in seen:
                before, fired = seen[shape]
                return Fraction(Fraction(self.fired[first] - fired) / (now - before) / self.drawn.repetition()[first])
            seen[shape] = (now, self.fired[first])
            step = min(self.running.values())
            now += step
            self.running = {name: left - step for name, left in self.running.items()}
