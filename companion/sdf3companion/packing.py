"""Schedules and need cycles as few numbers, from which a page draws them.

A list is packed where it repeats itself: `[n, ..]` stands for n times what follows in it, so that the starts of 2,376 firings
that follow each other are one such item. A line of starts is packed as its first start and the differences. A need cycle is a
list of steps, each a number of a table that all points share: an actor, a link, and how far the firing lies behind the one
of this actor before it on the cycle.
"""
from __future__ import annotations

from collections.abc import Sequence
from math import lcm
from typing import Any, Dict, Iterable, List, Union

from sdf3companion.answers import NeedCycle, Rate, Schedule, Time, escaped_link

Packed = List[Union[int, List[int]]]

LONGEST = 8
"""How long what is repeated may be."""
WORTH = 3
"""How many numbers a repetition has to save."""
ENOUGH = 100
"""A repetition that saves more numbers is taken without a look for a better one."""
MOST = 2_000_000
"""How many numbers all points have at most; of a point that has more than its share, later firings are left out."""
LEAST_SHARE = 2_000


def repeated(items: Sequence[int], at: int) -> tuple[int, int]:
    """How often what stands at a place is repeated, and how long it is, so that most is saved."""
    best, saved = (1, 1), 0
    for size in range(1, LONGEST + 1):
        end = at + size
        while end < len(items) and items[end] == items[end - size]:
            end += 1
        times = (end - at) // size
        if (times - 1) * size > saved:
            best, saved = (times, size), (times - 1) * size
        if saved > ENOUGH:
            break
    return best


def packed(items: Sequence[int]) -> Packed:
    """A list of numbers, packed."""
    found: Packed = []
    at = 0
    while at < len(items):
        times, size = repeated(items, at)
        if (times - 1) * size >= WORTH:
            found.append([times, *items[at:at + size]])
            at += times * size
        else:
            found.append(items[at])
            at += 1
    return found


def numbers_in(items: Packed) -> int:
    return sum(len(item) if isinstance(item, list) else 1 for item in items)


def unit_of(times: Iterable[Sequence[Time]], answers: Iterable[Rate]) -> int:
    """The least number by which all times are whole, those of actors and those in answers."""
    found = {value.denominator for row in times for value in row}
    for answer in answers:
        found |= {answer.schedule.period.denominator, answer.cycle.time.denominator}
        found |= {start.denominator for line in answer.schedule.starts.values() for start in line}
    return lcm(*found)


class Table:
    """Numbers for what comes again and again, in the order in which it came."""

    def __init__(self) -> None:
        self.rows: Dict[Any, int] = {}

    def number(self, row: Any) -> int:
        return self.rows.setdefault(row, len(self.rows))


class Packer:
    """Packs answers of one graph, of whose points each has a share of the numbers."""

    def __init__(self, actors: Sequence[str], unit: int, share: int) -> None:
        self.actors = {name: number for number, name in enumerate(actors)}
        self.unit, self.share = unit, share
        self.steps, self.links = Table(), Table()

    def whole(self, value: Time) -> int:
        return int(value * self.unit)

    def document(self, answer: Rate) -> dict[str, Any]:
        """What a page draws of an answer."""
        return {"period": self.whole(answer.schedule.period), "rounds": answer.schedule.rounds, **self.starts(answer.schedule),
                "cycle": self.cycle(answer.cycle)}

    def starts(self, schedule: Schedule) -> dict[str, Any]:
        """The starts by actor; where there are too many, those up to the moment `upto`."""
        lines = [[self.whole(start) for start in schedule.starts[actor]] for actor in self.actors]
        rows = [packed([line[0], *(after - before for before, after in zip(line, line[1:]))]) for line in lines]
        if sum(map(numbers_in, rows)) <= self.share:
            return {"starts": rows}
        most = max(2, self.share // len(rows))
        upto = min(line[most - 1] for line in lines if len(line) > most)
        kept = [line if len(line) <= most else [start for start in line if start <= upto] for line in lines]
        return {"starts": [packed([line[0], *(after - before for before, after in zip(line, line[1:]))]) for line in kept], "upto": upto}

    def cycle(self, cycle: NeedCycle) -> dict[str, Any]:
        """The steps of a need cycle; where there are too many, the first ones."""
        first, last = cycle.steps[0], {cycle.steps[0].actor: cycle.steps[0].firing}
        kinds = []
        for step in cycle.steps[1:]:
            kinds.append(self.steps.number((self.actors[step.actor], self.links.number(step.link), step.firing - last.get(step.actor, 0))))
            last[step.actor] = step.firing
        steps = packed(kinds)
        is_cut = numbers_in(steps) > self.share
        return {"time": self.whole(cycle.time), "rounds": cycle.rounds, "actor": self.actors[first.actor], "firing": first.firing,
                "steps": packed(kinds[:self.share]) if is_cut else steps, **({"isCut": True} if is_cut else {})}

    def tables(self) -> dict[str, Any]:
        """What the documents of all points refer to."""
        return {"actors": list(self.actors), "unit": self.unit, "links": [escaped_link(link) for link in self.links.rows], "steps": list(self.steps.rows)}


def share_of(points: int) -> int:
    """How many numbers the schedule of each of so many points may have."""
    return max(LEAST_SHARE, MOST // max(1, points))
