"""What it costs to check certificates, and to read and write them.

Makes certificates that could be slow in ways of their own, with their graphs. A row is the least wall-clock time of five runs of the
program, the most memory of one, the millions of instructions of one, where valgrind is there and a run takes no more than a second, and
the text's first line. A certificate of version 2 that is converted comes out again byte for byte.
"""
import argparse
import os
import subprocess
import sys
import tempfile
from collections.abc import Callable, Iterable, Sequence
from dataclasses import dataclass
from functools import partial
from typing import Optional

import graphs
import scenario
from programs import ANALYSER, example, measured, program, written
from tables import Table, add_word

PHASES = 4096
TWINS = 250
"""Channels that go one way, of the 256 that a graph may have."""
FULL = 2**64 - 1
CERTIFICATE_BYTES = 268_435_456
"""The greatest length of a certificate."""


@dataclass(frozen=True)
class Checked:
    """A certificate that is checked: the row's name, and what makes the graph and the certificate."""

    name: str
    graph: Callable[[], str]
    certificate: Callable[[], str]


@dataclass(frozen=True)
class Made:
    """A certificate that the program itself makes of a trade-off and then checks: the row's name, the example or None for two actors and a
    channel, and the words of the trade-off."""

    name: str
    example: Optional[str]
    options: list[str]


@dataclass(frozen=True)
class Converted:
    """A certificate that is converted."""

    name: str
    certificate: Callable[[], str]


def lines(*parts: str) -> str:
    return "".join(part + "\n" for part in parts)


def numbers(row: Iterable[int]) -> str:
    return " ".join(map(str, row))


def ring(phases: int) -> str:
    """Two actors in a ring of that many tokens, each of so many phases of time 1, in which it makes and takes one token."""
    rates = f"{phases}*1" if phases > 1 else "1"
    actors = "".join(f"<actor name='{name}'><port name='o' type='out' rate='{rates}'/><port name='i' type='in' rate='{rates}'/></actor>"
                     for name in "ab")
    channels = ("<channel name='c' srcActor='a' srcPort='o' dstActor='b' dstPort='i'/>"
                f"<channel name='d' srcActor='b' srcPort='o' dstActor='a' dstPort='i' initialTokens='{max(phases, 2)}'/>")
    return graphs.wrapped("csdf" if phases > 1 else "sdf", actors + channels, {"a": rates, "b": rates})


def rate(phases: int, rounds: int) -> str:
    """A certificate of the rate of that ring, with its starts in so many rounds, and the cycle through a's own channel."""
    starts = phases * rounds
    steps = [f"0 {k} o0" for k in range(1, phases + 1)]
    return lines("sdf3-certificate 2", "throughput", "no-overlap yes", "buffers -", f"rate 1/{phases}", f"schedule {starts} {rounds}",
                 numbers(range(starts)), numbers(range(1, starts + 1)), f"cycle {phases} 1 0 0 {phases}", *steps, "end")


def short_lines(count: int) -> str:
    """A certificate whose schedule has a line of one start for each of so many actors."""
    return lines("sdf3-certificate 2", "throughput", "no-overlap yes", "buffers -", "rate 1/1", "schedule 1 1", *["0"] * count,
                 "cycle 1 1 0 0 1", "0 1 o0", "end")


def storage(cycles: Sequence[Sequence[str]], members: Sequence[str]) -> str:
    """A certificate of a trade-off of these cycles and members, without a point."""
    return lines("sdf3-certificate 2", "storage", "no-overlap yes", "limit 1", f"cycles {len(cycles)}", *["\n".join(cycle) for cycle in cycles],
                 f"members {len(members)}", *members, "points 0", "end")


def cycles(count: int, steps: int) -> str:
    """A certificate of so many cycles of so many steps, which differ in the last step alone, each named by a member."""
    alike = [f"0 {k} o0" for k in range(1, steps)]
    found = [[f"cycle {steps} 1 0 0 {steps}", *alike, f"{number} {steps} o0"] for number in range(count)]
    return storage(found, [f"member 1\nrate 1/{steps} {number}" for number in range(count)])


def blocked(count: int) -> str:
    """A certificate of so many blocked members of one channel."""
    return storage([], ["member 1\nblocked\n0 0"] * count)


def around(rounds: int) -> str:
    """A certificate of the rate of `twins`, by the cycle through the last of its channels and back, so many times around."""
    steps = [step for number in range(1, rounds + 1) for step in (f"1 {number - 1} t{TWINS - 1}", f"0 {number} t{TWINS}")]
    return lines("sdf3-certificate 2", "throughput", "no-overlap no", "buffers -", "rate 1/5", "schedule 5 1", "0", "2",
                 f"cycle {5 * rounds} {rounds} 0 0 {2 * rounds}", *steps, "end")


def twins() -> str:
    """Two actors, so many channels from the first to the second, and one back."""
    there: list[graphs.Channel] = [("a", 1, 1, "b", 0)] * TWINS
    return graphs.file({"a": 2, "b": 3}, [*there, ("b", 1, 1, "a", 1)])


def bundle(channels: int) -> str:
    """Two actors and so many channels from the first to the second, for a trade-off."""
    return graphs.file({"a": 2, "b": 3}, [("a", 1, 1, "b", 0)] * channels)


def trade_off(cycle: Sequence[str], members: Sequence[Sequence[int]]) -> str:
    """A certificate of a trade-off of one cycle that all members show, without a point."""
    shown = [f"member {numbers(capacities)}\nrate 1/5 0" for capacities in members]
    return lines("sdf3-certificate 2", "storage", "no-overlap yes", "limit 1000000000", "cycles 1", *cycle, f"members {len(members)}", *shown,
                 "points 0", "end")


def shows_all(members: int) -> str:
    """So many members, each of which shows the free space of each of its channels."""
    cycle = [f"cycle 5 1 0 0 {TWINS}", *(f"0 1 s{channel}" for channel in range(TWINS))]
    return trade_off(cycle, [[1] * TWINS] + [[1] * (TWINS - 1) + [number] for number in range(2, members + 1)])


def shows_late(members: int, steps: int) -> str:
    """So many members that show one cycle, of which only the last step is along a free space."""
    cycle = [f"cycle 5 1 0 0 {steps}", *["0 1 t0"] * (steps - 1), f"0 1 s{TWINS - 1}"]
    return trade_off(cycle, [[1] * (TWINS - 1) + [number] for number in range(1, members + 1)])


def folded(state: int, word: int) -> int:
    """A hash without a secret, as maps of the kit have it: the halves of a product, joined."""
    product = ((state ^ word) & FULL) * (0x9E3779B97F4A7C15 ^ 16)
    return (product & FULL) ^ (product >> 64)


def colliding(members: int) -> str:
    """So many members of two channels, of which all but the first have one hash: the last number undoes what came before."""
    found = [(1, 1)]
    for first in range(2, members + 1):
        state = 0x243F6A8885A308D3
        for word in (2, 1, first, 1):
            state = folded(state, word)
        found.append((first, state))
    return trade_off(["cycle 5 1 0 0 1", "0 1 s0"], found)


def dense(states: int) -> str:
    """Scenarios of one firing, in states that may all follow each other."""
    names = [f"q{number}" for number in range(states)]
    return scenario.file({"f": scenario.alone(1)}, {name: ("f", names) for name in names}, names[0])


def walk(states: int, length: int) -> str:
    """A certificate of the worst rate of `dense`, by a closed walk of so many nodes."""
    nodes = [number * 97 % states for number in range(length - 1)] + [0]
    return lines("sdf3-certificate 2", "scenario", "rate 1/3", f"cycle {3 * length} {length} 0 0", *(f"{node} 0" for node in nodes[1:]), "0 0",
                 f"potentials {states}", *(f"{node} 0 0" for node in range(states)), "end")


def too_long() -> str:
    """A certificate of version 1 of the greatest length, of cycles that differ: in version 2 each member has a number besides."""
    count, row = 1000, "9" * 19
    begin = lines("sdf3-certificate 1", "storage", "no-overlap yes", "limit 1", f"members {count}")
    ends = [f"\nrate 1/1\ncycle 1 1 0 0 1\n{number} 1 o0\n" for number in range(count)]
    room = CERTIFICATE_BYTES - len(begin) - len("points 0\nend\n") - sum(map(len, ends))
    rows = (room - count * len("member")) // (len(row) + 1)
    widths = [rows // count + (number < rows % count) for number in range(count)]
    return begin + "".join("member" + f" {row}" * width + end for width, end in zip(widths, ends)) + "points 0\nend\n"


CHECKED = [
    Checked("a rate, 4096 phases, 10 rounds", partial(ring, PHASES), partial(rate, PHASES, 10)),
    Checked("a rate, 1 phase, 200,000 rounds", partial(ring, 1), partial(rate, 1, 200_000)),
    Checked("a cycle of 200,000 steps, 251 channels", twins, partial(around, 100_000)),
    Checked("a walk of 20,000 nodes, 62,500 edges", partial(dense, 250), partial(walk, 250, 20_000)),
    Checked("200 members that show 250 channels", partial(bundle, TWINS), partial(shows_all, 200)),
    Checked("1,000 members of a cycle of 5,000 steps", partial(bundle, TWINS), partial(shows_late, 1_000, 5_000)),
    Checked("20,000 members of one hash", partial(bundle, 2), partial(colliding, 20_000)),
]

MADE = [
    Made("a trade-off of 43,053 members", "rate_converter.xml", ["--no-overlap", "--limit", "60", "--distributions", "1000000"]),
    Made("a trade-off of 1,000 points", None, ["--limit", "1000"]),
]

CONVERTED = [
    Converted("1,000,000 lines of one start", partial(short_lines, 1_000_000)),
    Converted("300,000 blocked members", partial(blocked, 300_000)),
    Converted("100,000 cycles of 1 step", partial(cycles, 100_000, 1)),
    Converted("2,000 cycles of 500 steps", partial(cycles, 2_000, 500)),
    Converted("one that would be too long", too_long),
]


class Rows:
    """The rows that are wanted: the program, a folder for what it reads and writes, and the table."""

    def __init__(self, path: str, folder: str, word: str) -> None:
        self.path, self.folder, self.word = path, folder, word
        columns = [("certificate", -40), ("bytes", 9), ("status", 6), ("ms", 8), ("MB", 6), ("M instr.", 8)]
        self.table = Table(columns, after="first line")

    def row(self, name: str, certificate: str, words: Sequence[str]) -> int:
        """Measures the program with words that name a certificate, and answers its status."""
        found = measured([self.path, *words])
        self.table.row(name, os.path.getsize(certificate), found.status, found.milliseconds, found.megabytes(), found.millions(),
                       after=found.first_line)
        return found.status

    def check(self, name: str, graph: str, certificate: str) -> None:
        self.row(name, certificate, ["--algo", "check", "--graph", graph, "--certificate", certificate])

    def checked(self) -> None:
        for case in [case for case in CHECKED if self.word in case.name]:
            of = written(self.folder, "graph.xml", case.graph().encode())
            self.check(case.name, of, written(self.folder, "certificate", case.certificate().encode()))

    def made(self) -> None:
        certificate = os.path.join(self.folder, "certificate")
        for case in [case for case in MADE if self.word in case.name]:
            of = example(case.example) if case.example else written(self.folder, "graph.xml", bundle(1).encode())
            words = [self.path, "--algo", "storage", "--graph", of, *case.options, "--certificate", certificate]
            subprocess.run(words, stdout=subprocess.DEVNULL, check=True)
            self.check(case.name, of, certificate)

    def converted(self) -> None:
        other = os.path.join(self.folder, "other")
        for case in [case for case in CONVERTED if self.word in case.name]:
            certificate = written(self.folder, "certificate", case.certificate().encode())
            status = self.row(case.name, certificate, ["--algo", "convert", "--certificate", certificate, "--output", other])
            if status == 0 and not same(certificate, other):
                sys.exit(f"{case.name}: another text came out")


def same(one: str, other: str) -> bool:
    """Whether two files have the same bytes."""
    with open(one, "rb") as first, open(other, "rb") as second:
        return first.read() == second.read()


def add_words(parser: argparse.ArgumentParser) -> None:
    add_word(parser, [*(case.name for case in CHECKED), *(case.name for case in MADE), *(case.name for case in CONVERTED)])


def run(asked: argparse.Namespace) -> None:
    path = program(ANALYSER)
    with tempfile.TemporaryDirectory() as folder:
        rows = Rows(path, folder, asked.word)
        rows.checked()
        rows.made()
        rows.converted()
