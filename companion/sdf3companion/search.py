"""Searches the whole trade-off of storage and rate, without a limit to be chosen."""
from __future__ import annotations

import contextlib
import time
from fractions import Fraction
from typing import Callable, Iterator, List, Optional, Sequence, Tuple

from sdf3companion import output
from sdf3companion.analyser import MOST_STORAGE, Analyser, Point
from sdf3companion.bounds import Bound, fastest
from sdf3companion.faults import BUDGET, INTERRUPTED, Fault, OutOfTime, Unwritten
from sdf3companion.graphs import Graph

DISTRIBUTIONS = "1000000"
MOMENT = 2
"""Seconds after which limits that rise show points sooner than one run that ends by itself."""
Show = Callable[[List[Point]], None]


class Search:
    """A search for all points. `points` are final up to the storage `complete`; `ended` says why it ended."""

    def __init__(self, analyser: Analyser, graph: Graph, passed_on: Sequence[str] = (), seconds: Optional[float] = None,
                 distributions: str = DISTRIBUTIONS) -> None:
        self.analyser, self.graph, self.seconds, self.start = analyser, graph, seconds, time.monotonic()
        self.words = [*passed_on, "--distributions", distributions]
        self.within(0, seconds)  # what the analyser refuses of the words is told first
        self.top: Optional[Bound] = fastest(analyser, graph, None, passed_on, seconds)
        self.points: List[Point] = []
        self.complete: Optional[int] = None
        self.ended: Optional[str] = None

    def left(self) -> Optional[float]:
        """The seconds that are left; None where there is no limit of time."""
        left = None if self.seconds is None else self.start + self.seconds - time.monotonic()
        if left is not None and left <= 0:
            raise OutOfTime
        return left

    def within(self, limit: int, seconds: Optional[float]) -> List[Point]:
        return self.analyser.storage(self.graph, limit, self.words, seconds)

    def runs(self) -> Iterator[Tuple[int, List[Point]]]:
        """Limits, each with the points within it: the greatest, where a run ends by itself in a moment; else from a storage
        below which some actor can't fire, and the part above that grows by a third."""
        found: List[Point] = []
        excess = 0
        if self.top:
            with contextlib.suppress(Fault):  # limits that rise tell it, if they come to it
                found = self.within(MOST_STORAGE, MOMENT if self.seconds is None else min(MOMENT, self.seconds / 4))
        base, step = least_storage(self.graph)
        while not found and base + excess < MOST_STORAGE:
            yield base + excess, self.within(base + excess, self.left())
            excess = max(excess + excess // 3, excess + step)
        yield MOST_STORAGE, found or self.within(MOST_STORAGE, self.left())

    def levels(self, wanted: Optional[Fraction] = None) -> Iterator[List[Point]]:
        """The points that each run adds, up to the last one or to the first that is fast enough."""
        goal = self.top.rate if wanted is None and self.top else wanted
        for limit, points in self.runs():
            end = next((count for count, point in enumerate(points, 1) if goal is not None and point.rate >= goal), None)
            new = points[len(self.points):end]
            self.points += new
            self.complete = limit if end is None else self.points[-1].storage
            yield new
            if end is not None:
                self.ended = f"no memory buys more, since {self.slowest()} can't be faster" if wanted is None else "the wanted rate is reached"
                return
        self.ended = f"{MOST_STORAGE} is the greatest limit"

    def slowest(self) -> str:
        """The names of the part that holds the graph back."""
        return ", ".join(self.top.actors) if self.top else ""

    def explore(self, show: Show, wanted: Optional[Fraction] = None) -> int:
        """Shows the points of each level. Where it is cut off, what was found is kept, and after the first point that is no failure."""
        try:
            for new in self.levels(wanted):
                show(new)
                output.progress(f"complete up to storage {self.complete}: {len(self.points)} points, {time.monotonic() - self.start:.0f} s")
            return 0
        except KeyboardInterrupt:
            self.ended, status = "interrupted", INTERRUPTED
        except OutOfTime:
            self.ended, status = "the limit of time is reached", BUDGET
        except Fault as fault:
            if not self.points or isinstance(fault, Unwritten):
                raise
            self.ended = fault.line
            return fault.status
        finally:
            output.progress("")
        return 0 if self.points else status


def least_storage(graph: Graph) -> Tuple[int, int]:
    """A storage below which some actor can't fire, and a step in which limits may rise at first."""
    channels = [channel for channel in graph.channels if not channel.is_self_loop]
    least = sum(max(channel.tokens, *channel.made, *channel.taken) * channel.size for channel in channels)
    return least, max((channel.size for channel in channels), default=1)
