"""What the worst rate of scenarios costs, and the trade-off of what they share.

Draws files that could be slow in ways of their own. A row is the least wall-clock time of five runs of the program, the most memory of
one, and the millions of instructions of one, where valgrind is there and a run takes no more than a second.
"""
import argparse
import tempfile
from collections.abc import Callable, Mapping, Sequence
from dataclasses import dataclass
from functools import partial
from typing import Optional

import graphs
from programs import ANALYSER, example, measured, program, written
from tables import Table, list_rows

States = Mapping[str, tuple[str, Sequence[str]]]
"""By the name of a state the scenario that it runs, and the states that may follow it."""


@dataclass(frozen=True)
class Case:
    """A row: its name, what makes the file's text, and the limit of the trade-off, or None for the worst rate."""

    name: str
    make: Callable[[], str]
    limit: Optional[int] = None


def file(scenarios: Mapping[str, str], states: States, initial: str) -> str:
    """A file of scenarios by name, and of states."""
    drawn = [f"<scenario name='{name}'>{text}</scenario>" for name, text in scenarios.items()]
    drawn.append(f"<fsm initialState='{initial}'>")
    drawn += [f"<state name='{name}' scenario='{scenario}'>" + "".join(f"<next state='{other}'/>" for other in later) + "</state>"
              for name, (scenario, later) in states.items()]
    return "<sdf3 type='fsmsadf'><applicationGraph><fsmsadf>" + "".join(drawn) + "</fsm></fsmsadf></applicationGraph></sdf3>"


def alone(tokens: int) -> str:
    """A scenario of one firing over so many tokens."""
    return graphs.scenario({"x": 3}, {"s": ("x", 1, 1, "x", tokens)})


def fan(firings: int, width: int, shared: int) -> str:
    """An actor that fires so often before the one that it feeds through so many channels fires once."""
    channels: dict[str, graphs.Channel] = {"s": ("x", 1, 1, "x", shared - 1), "t": ("y", 1, 1, "y", 1)}
    channels.update({f"c{number}": ("x", 1, firings, "y", 0) for number in range(width)})
    return file({"f": graphs.scenario({"x": 3, "y": 2}, channels)}, {"q": ("f", ["q"])}, "q")


def falling(path: int, dense: int) -> str:
    """States that lead down to the first one, and from there to states that may each follow each other."""
    states = {f"q{number}": ("f", [f"q{number - 1 if number else path}"]) for number in range(path)}
    rest = [f"q{number}" for number in range(path, path + dense)]
    states.update((name, ("f", rest)) for name in rest)
    return file({"f": alone(1)}, states, f"q{path - 1}")


def kinds(number: int) -> str:
    """So many kinds of frames that are read, decoded and shown over two shared buffers. A state for each; two may follow it."""
    channels: dict[str, graphs.Channel] = {
        "r": ("read", 1, 1, "read", 1), "d": ("decode", 1, 1, "decode", 1), "w": ("show", 1, 1, "show", 1),
        "bits": ("read", 1, 1, "decode", 1), "pictures": ("decode", 1, 1, "show", 1)}
    scenarios = {f"f{k}": graphs.scenario({"read": 2 + k % 7, "decode": 3 + 5 * k % 11, "show": 8}, channels) for k in range(number)}
    states = {f"q{k}": (f"f{k}", [f"q{later}" for later in sorted({(k + 1) % number, (3 * k + 2) % number})]) for k in range(number)}
    return file(scenarios, states, "q0")


def idle(number: int, shared: int) -> str:
    """So many scenarios that share so many tokens of one channel. There is one state, which runs the first of them."""
    return file({f"f{k}": alone(shared) for k in range(number)}, {"q": ("f0", ["q"])}, "q")


def text_of(name: str) -> str:
    """The text of an example."""
    with open(example(name), encoding="utf-8") as text:
        return text.read()


CASES = [
    Case("the modes of a video decoder", partial(text_of, "video_modes.xml")),
    Case("20,000 firings, 16 channels", partial(fan, 20_000, 16, 199)),
    Case("a falling path of 64 to 64 states", partial(falling, 64, 64)),
    Case("a falling path of 128 to 128", partial(falling, 128, 128)),
    Case("a falling path of 192 to 64", partial(falling, 192, 64)),
    Case("1,024 tokens, 64 scenarios, 1 is run", partial(idle, 64, 1_024)),
    Case("the buffers of a video decoder, to 9", partial(text_of, "video_buffers.xml"), 9),
    # Three tokens have no capacity: 64 states times 13 + 3 are the 1,024 nodes that are allowed.
    Case("64 kinds of frames, to 13", partial(kinds, 64), 13),
]


def add_words(parser: argparse.ArgumentParser) -> None:
    list_rows(parser, (case.name for case in CASES))


def asked_of(path: str, limit: Optional[int]) -> list[str]:
    """The words that ask for the worst rate, or for the trade-off up to a limit."""
    if limit is None:
        return ["--algo", "scenario", "--graph", path]
    return ["--algo", "scenario-storage", "--graph", path, "--limit", str(limit)]


def run(_: argparse.Namespace) -> None:
    built = program(ANALYSER)
    table = Table([("scenarios", -36), ("bytes", 9), ("ms", 8), ("MB", 6), ("M instr.", 8)])
    with tempfile.TemporaryDirectory() as folder:
        for case in CASES:
            data = case.make().encode()
            found = measured([built, *asked_of(written(folder, "scenarios.xml", data), case.limit)])
            found.ended.check_returncode()
            table.row(case.name, len(data), found.milliseconds, found.megabytes(), found.millions())
