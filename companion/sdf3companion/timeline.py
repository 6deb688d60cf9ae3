"""A printed schedule as a time line: a row for each actor, a box for each firing, the need cycle red with its needs as arrows.

As SVG, as trace events that Perfetto and Chrome read, or as numbers. Times are whole or fractions.
"""
from __future__ import annotations

from collections.abc import Iterator
from dataclasses import dataclass
from fractions import Fraction
from html import escape
from typing import Any, Dict, List

from sdf3companion.answers import Rate, Schedule, Time, exact, plain, shown
from sdf3companion.ticks import decimal, ticks

Times = Dict[str, List[Time]]
"""Times by actor, a list by phase."""

WIDTH, TOP, LANE, RIGHT = 900, 34, 22, 40
"""Pixels: of the time that is shown, above the rows, of a lane, and at the right."""
LETTER, LEAST_LEFT, MOST_LEFT = 6.4, 60, 260
"""Pixels: of a letter, and of the names at least and at most."""
MOST_FIRINGS = 20_000
"""How many firings are drawn at most."""
MOST_TRACED = 200_000
"""How many firings are traced at most."""
MOST_LANES = 40
"""How many lanes a row has at most; firings that find none cover others."""
PERIODS = 2
"""How many periods are drawn at least, where there is room."""

STYLE = ("<style>.f{fill:#bcd0ea;stroke:#345;stroke-width:.5}.c{fill:#e8a0a0;stroke:#922;stroke-width:.8}.n{stroke:#b22;stroke-width:1.2;fill:none}"
         ".t{font:11px sans-serif;fill:#333}.g{stroke:#ddd}.p{stroke:#777;stroke-dasharray:3}</style>")


@dataclass
class Firing:
    """A box: of one firing, or of several that follow each other in less than a pixel each."""

    actor: str
    numbers: list[int]
    start: Time
    end: Time
    lane: int
    is_critical: bool

    def told(self) -> str:
        return str(self.numbers[0]) if len(self.numbers) == 1 else f"{self.numbers[0]} to {self.numbers[-1]}"


def firing_time(times: Times, actor: str, number: int) -> Time:
    return times[actor][number % len(times[actor])]


def critical_firings(answer: Rate) -> list[tuple[str, int, Time]]:
    """The firings of the need cycle, each with when it starts, the one that closes it included."""
    return [(step.actor, step.firing, answer.schedule.start(step.actor, step.firing)) for step in answer.cycle.steps]


def until(answer: Rate, times: Times) -> Time:
    """Up to which moment firings are drawn: some periods, and the whole need cycle where that isn't too much."""
    schedule = answer.schedule
    last = max(line[-1] + max(times[actor]) for actor, line in schedule.starts.items())
    end = last + (PERIODS - 1) * schedule.period
    return max([end, *(start + firing_time(times, actor, number) for actor, number, start in critical_firings(answer))])


def count_of(schedule: Schedule, actor: str, end: Time) -> int:
    """How many firings of an actor start before a moment."""
    line = schedule.starts[actor]
    full = max(0, int((end - line[-1]) // schedule.period))
    number = full * len(line)
    while number < (full + 3) * len(line) and schedule.start(actor, number) < end:
        number += 1
    return number


def free_lane(lanes: list[Time], start: Time, most: int) -> int:
    """The first lane that is free at a moment, or else the one that is free next."""
    free = next((at for at, end in enumerate(lanes) if end <= start), len(lanes))
    return free if free < most else lanes.index(min(lanes))


def boxes(answer: Rate, times: Times, actor: str, count: int, grain: Time, most_lanes: int = MOST_LANES) -> list[Firing]:
    """The first firings of an actor in lanes, so that those beside each other don't cover each other. Those that follow each
    other within a grain of time are one box."""
    critical = {number for name, number, _ in critical_firings(answer) if name == actor}
    lanes: list[Time] = []
    found: list[Firing] = []
    last: dict[int, Firing] = {}
    for number in range(count):
        start = answer.schedule.start(actor, number)
        stop = start + firing_time(times, actor, number)
        lane = free_lane(lanes, start, most_lanes)
        lanes[lane:lane + 1] = [stop]
        before = last.get(lane)
        if before and before.is_critical == (number in critical) and stop - before.end < grain:
            before.numbers.append(number)
            before.end = max(stop, before.end)
        else:
            last[lane] = Firing(actor, [number], start, stop, lane, number in critical)
            found.append(last[lane])
    return found


def shown_until(answer: Rate, times: Times, end: Time, most: int) -> Time:
    """Up to which moment firings are shown, of which there are at most so many."""
    share = most // len(times)
    shown = min([end, *(answer.schedule.start(actor, share) for actor in times)])
    return max(shown, max(line[0] for line in answer.schedule.starts.values()) + 1)


def rows_of(answer: Rate, times: Times, end: Time) -> dict[str, list[Firing]]:
    """The boxes by actor."""
    shown = shown_until(answer, times, end, MOST_FIRINGS)
    grain = Fraction(shown) / WIDTH
    return {actor: boxes(answer, times, actor, min(count_of(answer.schedule, actor, shown), MOST_FIRINGS), grain) for actor in times}


class Drawing:
    """Collects the parts of the picture; times become pixels."""

    def __init__(self, end: Time, names: list[str]) -> None:
        self.left = min(MOST_LEFT, max([LEAST_LEFT, *(int(LETTER * len(name)) + 12 for name in names)]))
        self.scale = WIDTH / float(end)
        self.end = float(end)
        self.parts: list[str] = []
        self.middle: dict[tuple[str, int], float] = {}
        """How high the critical firings stand."""

    def x(self, time: Time | float) -> float:
        return self.left + float(time) * self.scale

    def row(self, actor: str, found: list[Firing], y: int) -> int:
        """Draws a row, and gives how high it is."""
        lanes = max((box.lane for box in found), default=0) + 1
        height = max(6, LANE // lanes)
        most = int((self.left - 12) / LETTER)
        label = actor if len(actor) <= most else f"{actor[:most - 1]}\N{HORIZONTAL ELLIPSIS}"
        self.parts.append(f"<text class='t' x='{self.left - 6}' y='{y + 15}' text-anchor='end'>{escape(label)}<title>{escape(actor)}</title></text>")
        for box in found:
            self.box(box, y + box.lane * height, height - 3)
        return max(LANE + 6, height * lanes + 6)

    def box(self, box: Firing, top: int, height: int) -> None:
        """Draws a box, and its number where there is room."""
        x, width = self.x(box.start), max(float(box.end - box.start) * self.scale, .6)
        self.parts.append(f"<rect class='{'c' if box.is_critical else 'f'}' x='{x:.1f}' y='{top}' width='{width:.1f}' height='{height}'>"
                          f"<title>{escape(box.actor)} {box.told()}: {shown(box.start)} to {shown(box.end)}</title></rect>")
        if len(box.numbers) == 1 and height > 12 and width > LETTER * len(box.told()) + 4:
            self.parts.append(f"<text class='t' x='{x + width / 2:.1f}' y='{top + height - 5}' text-anchor='middle' pointer-events='none'>{box.told()}</text>")
        self.middle.update(((box.actor, one), top + height / 2) for one in box.numbers if box.is_critical)

    def needs(self, answer: Rate) -> None:
        """An arrow from each critical firing's start to the start of the one that needs it, but where they follow each other in
        less than a pixel."""
        firings = critical_firings(answer)
        for (actor, number, start), (then, later, begin), step in zip(firings, firings[1:], answer.cycle.steps[1:]):
            high, low = self.middle.get((actor, number)), self.middle.get((then, later))
            if high is not None and low is not None and (actor != then or float(begin - start) * self.scale >= 1):
                self.parts.append(f"<path class='n' marker-end='url(#a)' d='M{self.x(start):.1f} {high:.1f}"
                                  f"L{self.x(begin):.1f} {low:.1f}'><title>{escape(plain(step.link))}</title></path>")

    def grid(self, period: Time, bottom: int) -> list[str]:
        """Ticks of time, and a dashed line where each period begins, as far as there is room."""
        found = []
        for value in ticks(0, self.end, 10):
            x = self.x(value)
            found.append(f"<line class='g' x1='{x:.1f}' x2='{x:.1f}' y1='{TOP - 8}' y2='{bottom}'/>"
                         f"<text class='t' x='{x:.1f}' y='{TOP - 14}' text-anchor='middle'>{decimal(value)}</text>")
        every = max(1, round(12 / max(float(period) * self.scale, 1e-9)))
        for number in range(0, int(self.end / float(period)) + 1, every):
            x = self.x(number * period)
            found.append(f"<line class='p' x1='{x:.1f}' x2='{x:.1f}' y1='{TOP - 8}' y2='{bottom}'/>")
        return found


def svg(answer: Rate, times: Times) -> str:
    """The time line of an answer of `throughput`."""
    rows = rows_of(answer, times, until(answer, times))
    end = max(box.end for found in rows.values() for box in found)
    drawing = Drawing(end, list(rows))
    y = TOP
    for actor, found in rows.items():
        y += drawing.row(actor, found, y)
    drawing.needs(answer)
    arrow = ("<defs><marker id='a' markerWidth='7' markerHeight='6' refX='6' refY='3' orient='auto'>"
             "<path d='M0 0L7 3L0 6z' fill='#b22'/></marker></defs>")
    width = drawing.left + WIDTH + RIGHT
    return (f"<svg xmlns='http://www.w3.org/2000/svg' viewBox='0 0 {width} {y + 8}' width='{width}' height='{y + 8}'>"
            f"{STYLE}{arrow}<rect width='100%' height='100%' fill='white'/>" + "\n".join([*drawing.grid(answer.schedule.period, y), *drawing.parts])
            + "</svg>\n")


def document(answer: Rate, times: Times) -> dict[str, Any]:
    """The same as numbers: each firing of the first period, and the need cycle."""
    critical = {(step.actor, step.firing % len(answer.schedule.starts[step.actor])) for step in answer.cycle.steps}
    firings = [{"actor": actor, "firing": number, "start": start, "end": start + firing_time(times, actor, number),
                "critical": (actor, number) in critical} for actor, line in answer.schedule.starts.items() for number, start in enumerate(line)]
    return {"rate": answer.rate, "period": answer.schedule.period, "rounds": answer.schedule.rounds, "firings": firings,
            "cycle": answer.cycle.document()}


class Threads:
    """A thread for each lane of each actor, since what overlaps has no room in one."""

    def __init__(self) -> None:
        self.numbers: dict[tuple[str, int], int] = {}

    def number(self, actor: str, lane: int) -> int:
        return self.numbers.setdefault((actor, lane), len(self.numbers) + 1)

    def events(self) -> Iterator[dict[str, Any]]:
        """Their names and their order."""
        for (actor, lane), thread in self.numbers.items():
            name = actor if lane == 0 else f"{actor}, beside {lane}"
            yield {"ph": "M", "pid": 1, "tid": thread, "name": "thread_name", "args": {"name": name}}
            yield {"ph": "M", "pid": 1, "tid": thread, "name": "thread_sort_index", "args": {"sort_index": thread}}


def moment(time: Time) -> int | float:
    """A time as a trace has it, in which a time unit is a microsecond."""
    return int(time) if time == int(time) else float(time)


def trace(answer: Rate, times: Times) -> dict[str, Any]:
    """The time line as trace events, in the form of Chrome that Perfetto reads as well: a slice for each firing, and an arrow for
    each need of the cycle. A time unit is a microsecond."""
    end = shown_until(answer, times, until(answer, times), MOST_TRACED)
    threads = Threads()
    slices: list[dict[str, Any]] = []
    place: dict[tuple[str, int], int] = {}
    for actor in times:
        for box in boxes(answer, times, actor, count_of(answer.schedule, actor, end), 0, MOST_TRACED):
            number, thread = box.numbers[0], threads.number(actor, box.lane)
            place[actor, number] = thread
            slices.append({"ph": "X", "pid": 1, "tid": thread, "name": f"{actor} {number}", "cat": "need cycle" if box.is_critical else "firing",
                           "ts": moment(box.start), "dur": moment(exact(box.end - box.start)), **({"cname": "terrible"} if box.is_critical else {}),
                           "args": {"firing": number, "start": shown(box.start), "end": shown(box.end)}})
    return {"displayTimeUnit": "ns", "otherData": {"rate": f"{answer.rate.numerator}/{answer.rate.denominator}", "a time unit": "1 microsecond"},
            "traceEvents": [{"ph": "M", "pid": 1, "name": "process_name", "args": {"name": "schedule"}}, *threads.events(), *slices,
                            *needs_traced(answer, place)]}


def needs_traced(answer: Rate, place: dict[tuple[str, int], int]) -> Iterator[dict[str, Any]]:
    """An arrow from each critical firing's start to the start of the one that needs it, where both are traced."""
    firings = critical_firings(answer)
    for number, (before, after, step) in enumerate(zip(firings, firings[1:], answer.cycle.steps[1:]), 1):
        if before[:2] in place and after[:2] in place:
            shared = {"pid": 1, "cat": "need", "name": plain(step.link), "id": number}
            yield {"ph": "s", "tid": place[before[:2]], "ts": moment(before[2]), **shared}
            yield {"ph": "f", "bp": "e", "tid": place[after[:2]], "ts": moment(after[2]), **shared}
