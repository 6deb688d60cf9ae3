"""Finds the analyser, asks it, and gives its answers by the times of the user's file."""
from __future__ import annotations

import os
import re
import shutil
import subprocess
import tempfile
import time
from fractions import Fraction
from typing import Callable, Dict, Iterator, List, Optional, Sequence, Tuple, TypeVar, Union

from sdf3companion import answers, needs, output, units, work
from sdf3companion.answers import (Completion, NeedCycle, Point, Rate, Schedule, Step, Time, WorstRate, escaped, exact, plain)
from sdf3companion.faults import MEMORY, MISSING, REJECTED, SHELF, UNWRITTEN, Fault, OutOfTime
from sdf3companion.graphs import Graph

__all__ = ["Analyser", "Completion", "NeedCycle", "Point", "Rate", "Schedule", "Step", "Time", "WorstRate", "escaped", "plain"]

HERE = os.path.dirname(os.path.realpath(__file__))
ROOT = os.path.dirname(os.path.dirname(HERE))
BUILT = os.path.join(ROOT, "crates", "sdf3analysis", "out", "sdf3analysis")
HANDED_ON = [os.path.join(ROOT, "program"), os.path.join(HERE, "program")]
"""The program as the archive and the packages have it: beside the companions, or in them."""
TUNABLES = [os.path.join(ROOT, "tools", "tunables"), os.path.join(HERE, "tunables")]
MOST_STORAGE = 10**9
"""The greatest `--limit` that the analyser takes."""
WITHOUT_LINE = {MEMORY, UNWRITTEN, 13}
"""Statuses with which the analyser may end without a line."""
OF_SEARCH = ("--limit", "--distributions")
"""Words of `storage` that `throughput` doesn't take, each with a value."""

Shown = TypeVar("Shown")


def found(program: Optional[str]) -> str:
    """The analyser that was named, or else the first that is there."""
    named = program or os.environ.get("SDF3ANALYSIS")
    usual = [BUILT, *HANDED_ON, shutil.which("sdf3analysis") or ""]
    for path in [named] if named else usual:
        if path and os.path.isfile(path) and os.access(path, os.X_OK):
            return os.path.abspath(path)
    if named:
        raise Fault(MISSING, f"the analyser isn't there: {named}")
    raise Fault(MISSING, "the analyser isn't there: build it by ./sdf3analysis, or name it by --program or $SDF3ANALYSIS")


def tunables() -> str:
    """What the C library is told where the program is run by its launcher."""
    for path in TUNABLES:
        try:
            with open(path, encoding="utf-8") as file:
                return file.read().strip()
        except OSError:
            continue
    return ""


def placed(line: str, path: str) -> str:
    """A refusal's line; where it names a byte of the file, with the line and the column of that byte."""
    at = re.fullmatch(r"sdf3analysis: form: .* at byte (\d+)", line)
    if not at:
        return line
    before = output.read(path)[:int(at[1])]
    column = len(before[before.rfind(b"\n") + 1:].decode("utf-8", "replace")) + 1
    return f"{line} (line {before.count(10) + 1}, column {column})"


def words_of_rate(words: Sequence[str]) -> List[str]:
    """Those words of a search that `throughput` takes too."""
    found, rest = [], iter(words)
    for word in rest:
        if word in OF_SEARCH:
            next(rest, None)
        else:
            found.append(word)
    return found


def buffers_in(words: Sequence[str]) -> Optional[str]:
    """The buffers list that words have."""
    return words[list(words).index("--buffers") + 1] if "--buffers" in words else None


class Clock:
    """What is left of some seconds; None where there is no limit."""

    def __init__(self, seconds: Optional[float]) -> None:
        self.end = None if seconds is None else time.monotonic() + seconds

    def left(self) -> Optional[float]:
        left = None if self.end is None else self.end - time.monotonic()
        if left is not None and left <= 0:
            raise OutOfTime
        return left


class Analyser:
    """Asks one program, whose refusals become faults. Answers about a graph are by the times of the user's file."""

    def __init__(self, program: Optional[str] = None) -> None:
        self.program = found(program)
        self.tunables = tunables()

    def run(self, algorithm: str, path: str, *words: str, seconds: Optional[float] = None) -> str:
        """What a command prints of a graph file, by the times of this very file. A time that is up ends it."""
        try:
            run = work.ran(self.program, ["--algo", algorithm, "--graph", path, *words], self.tunables, seconds)
        except subprocess.TimeoutExpired as fault:
            raise OutOfTime from fault
        except OSError as fault:
            raise Fault(MISSING, f"{self.program} can't be run: {fault.strerror}") from fault
        if run.status < 0:
            raise Fault(MISSING, f"{self.program} was ended by signal {-run.status}")
        if run.status != 0:
            raise self.refusal(run, path)
        return run.out

    def refusal(self, run: work.Ran, path: str) -> Fault:
        """The fault that a run ended with a status of its own."""
        if run.line.startswith("sdf3analysis: "):
            reason = shelf_reason(path) if run.status == SHELF else ""
            return Fault(run.status, placed(run.line, path) + reason, True)
        if run.status in WITHOUT_LINE and not run.line:
            return Fault(run.status, f"the analyser ended with status {run.status}")
        return self.other(run.line or f"status {run.status}")

    def other(self, said: str) -> Fault:
        """The fault that the program is another one."""
        return Fault(MISSING, f"{self.program} isn't the analyser: it says {said[:200]!r}")

    def read(self, reader: Callable[[str], Shown], text: str) -> Shown:
        """What a text spells."""
        try:
            return reader(text)
        except (ValueError, IndexError, KeyError, ZeroDivisionError) as fault:
            raise self.other(text.partition("\n")[0]) from fault

    def asked(self, algorithm: str, graph: Graph, words: Sequence[str], seconds: Optional[float] = None) -> str:
        """What a command prints of a graph, by the times that it is scaled to."""
        with graph.file() as path:
            return self.run(algorithm, path, *words, seconds=seconds)

    def repetition(self, graph: Union[str, Graph]) -> Dict[str, int]:
        """The firings of each actor in a round."""
        text = self.run("repetition", graph) if isinstance(graph, str) else self.asked("repetition", graph, [])
        return self.read(answers.repetition_of, text)

    def finer(self, graph: Graph) -> Iterator[Graph]:
        """The graph with scales that keep times of zero apart from others, each by ten times as much."""
        firings, zero_factor = self.repetition(graph), max(10, graph.scale.zero_factor)
        while True:
            yield graph.with_times(graph.times, units.scale_for(graph.times, firings, zero_factor))
            zero_factor *= 10

    def throughput(self, graph: Graph, words: Sequence[str], seconds: Optional[float] = None) -> Rate:
        """The rate, with a schedule and a need cycle that show it."""
        if not graph.has_zero:
            return in_units(self.raw_throughput(graph, words, seconds), graph.scale)
        clock = Clock(seconds)
        for fine in self.finer(graph):
            answer = self.own_throughput(fine, words, clock.left())
            if answer is not None:
                return answer
        raise AssertionError("scales that grow end with a fault")

    def raw_throughput(self, graph: Graph, words: Sequence[str], seconds: Optional[float] = None) -> Rate:
        """The rate by the times that a graph is scaled to."""
        text = self.asked("throughput", graph, words, seconds)
        return self.read(lambda told: answers.rate_of(told, len(graph.actors)), text)

    def own_throughput(self, graph: Graph, words: Sequence[str], seconds: Optional[float]) -> Optional[Rate]:
        """The rate of a graph with times of zero; None where they aren't far enough apart from the others."""
        told = self.raw_throughput(graph, words, seconds)
        return needs.own_answer(graph, told, graph.buffers(buffers_in(words)), "--no-overlap" in words)

    def storage(self, graph: Graph, limit: int, words: Sequence[str], seconds: Optional[float] = None) -> List[Point]:
        """The Pareto points up to a limit."""
        if not graph.has_zero:
            return [Point(point.storage, point.rate * graph.scale.factor, point.buffers, in_schedule(point.schedule, graph.scale))
                    for point in self.raw_points(graph, limit, words, seconds)]
        clock = Clock(seconds)
        for fine in self.finer(graph):
            points = self.own_points(fine, self.raw_points(fine, limit, words, clock.left()), words, clock)
            if points is not None:
                return points
        raise AssertionError("scales that grow end with a fault")

    def raw_points(self, graph: Graph, limit: int, words: Sequence[str], seconds: Optional[float]) -> List[Point]:
        text = self.asked("storage", graph, ["--limit", str(limit), *words], seconds)
        return self.read(lambda told: answers.points_of(told, len(graph.actors)), text)

    def own_points(self, graph: Graph, told: List[Point], words: Sequence[str], clock: Clock) -> Optional[List[Point]]:
        """Points by own times, of which none that is equal to the one before stands twice; None where the scale is too coarse for them."""
        points: List[Point] = []
        for point in told:
            answer = self.own_throughput(graph, [*words_of_rate(words), *point.words()], clock.left())
            if answer is None or (answer.rate / graph.scale.plain_factor).numerator > graph.scale.exact:
                return None
            if not points or answer.rate > points[-1].rate:
                points.append(Point(point.storage, answer.rate, point.buffers, answer.schedule))
        return points

    def complete(self, graph: Graph, rounds: int, words: Sequence[str], seconds: Optional[float] = None) -> Completion:
        """The least time in which so many rounds can end."""
        clock = Clock(seconds)
        for fine in self.finer(graph) if graph.has_zero else [graph]:
            text = self.asked("complete", fine, ["--rounds", str(rounds), *words], clock.left())
            told = self.read(answers.completion_of, text)
            if not graph.has_zero or told.firings < fine.scale.zero_factor:
                parts = {name: (count, fine.scale.own(int(took))) for name, (count, took) in told.parts.items()}
                return Completion(told.rounds, fine.scale.own(int(told.time)), told.firings, parts)
        raise AssertionError("scales that grow end with a fault")

    def check(self, graph: Graph, certificate: str) -> str:
        """What `check` prints of a certificate that it accepts."""
        return self.asked("check", graph, ["--certificate", certificate]).strip()

    def certified(self, graph: Graph, words: Sequence[str]) -> Tuple[Rate, str, bytes]:
        """The rate, what `check` says of its certificate, which has to be one of this very rate, and the certificate."""
        for fine in self.finer(graph) if graph.has_zero else [graph]:
            with tempfile.TemporaryDirectory() as folder:
                path = os.path.join(folder, "certificate")
                told = self.raw_throughput(fine, [*words, "--certificate", path])
                accepted, certificate = self.check(fine, path), output.read(path)
            if accepted != f"accepted throughput {told.rate.numerator}/{told.rate.denominator}":
                raise Fault(REJECTED, f"the rate is {told.rate}, but check says: {accepted}")
            own = (needs.own_answer(fine, told, fine.buffers(buffers_in(words)), "--no-overlap" in words) if graph.has_zero
                   else in_units(told, fine.scale))
            if own is not None:
                return own, accepted + (f", by times multiplied by {fine.scale.factor}" if fine.scale.factor != 1 else ""), certificate
        raise AssertionError("scales that grow end with a fault")


def shelf_reason(path: str) -> str:
    """The name of a file and the system's word for why it can't be read."""
    try:
        with open(path, "rb") as file:
            file.read(1)
    except OSError as fault:
        return f" ({path}: {fault.strerror})"
    return ""


def in_schedule(schedule: Schedule, scale: units.Scale) -> Schedule:
    """A schedule by the user's times, of which none is zero."""
    if scale.factor == 1:
        return schedule
    starts = {name: [exact(start / scale.factor) for start in line] for name, line in schedule.starts.items()}
    return Schedule(exact(schedule.period / scale.factor), schedule.rounds, starts)


def in_units(told: Rate, scale: units.Scale) -> Rate:
    """An answer by the user's times, of which none is zero."""
    cycle = NeedCycle(exact(told.cycle.time / scale.factor), told.cycle.rounds, told.cycle.steps)
    return Rate(Fraction(told.rate * scale.factor), in_schedule(told.schedule, scale), cycle)
