"""Draws a graph: its actors with their times, its channels with rates, tokens and buffers, what holds it back in red.

An actor's box has its name and its time; a channel has its name, its tokens after a dot, its capacity in brackets where
--buffers gives one, and at its ends the rates that aren't 1. What holds the graph back is red, as by `sdf3companion fastest`:
actors and channels of the need cycle, and in dashes the free space of a channel. Of a graph that the analyser refuses the
fault is red: the unbalanced walk, the actors that are blocked, with their firings, and what they lack, or the way that is
missing, in dashes. The refusal stands below, and is told as ever. A drawing that is too wide is folded into rows: what ends
at the right goes on at the left of the row below. graphviz draws, as SVG, PNG or PDF by the ending of the name; without a
name SVG is printed.

  sdf3companion draw examples/modem.xml modem.svg --no-overlap
"""
from __future__ import annotations

import argparse
import os
import re
import shutil
import subprocess
import textwrap
from collections.abc import Iterator, Mapping, Sequence
from dataclasses import dataclass, field
from itertools import groupby

from sdf3companion import asking, graphs, output, words, xmltree
from sdf3companion.analyser import Analyser
from sdf3companion.answers import NeedCycle, Time, escaped, plain, shown
from sdf3companion.bounds import fastest
from sdf3companion.faults import USAGE, Fault, needed
from sdf3companion.folding import Drawing, Folded, quoted

FORMATS = ("svg", "png", "pdf")
ROOM = 800
"""How wide a row is at most, in points."""
LETTERS = 28
"""How many letters of a name are shown at most."""
NUMBERS = 24
"""How many letters a list of numbers has at most."""

NAME = r"([^\s,]+)"
WALK = re.compile(rf"(?:inconsistent: walk|limit: ratio above \d+ along) ((?:[-+]{NAME} ?)+)")
BLOCKED = re.compile(rf"{NAME} (\d+) of (\d+) lacks {NAME}")
MISSING_WAY = re.compile(rf"connection: (?:no way from {NAME} to {NAME}|{NAME} and {NAME} are apart|{NAME} has no input)")
UNANSWERED = re.compile(r"limit: (?:round|starts) above|budget: ")


@dataclass
class Marks:
    """What is red, by name: actors, channels, channels by their free space, and a way that is missing; what else is told of
    actors; and the refusal that stands below."""

    actors: set[str] = field(default_factory=set)
    channels: set[str] = field(default_factory=set)
    spaces: set[str] = field(default_factory=set)
    missing: tuple[str, str] | None = None
    told: dict[str, str] = field(default_factory=dict)
    refusal: str = ""

    def add(self, link: str) -> None:
        """Marks what a link stands for; the token of an actor to itself is in its actor."""
        name, _, kind = link.partition("/")
        if kind == "space":
            self.spaces.add(plain(name))
        elif not kind:
            self.channels.add(plain(name))


def of_cycle(cycle: NeedCycle | None) -> Marks:
    """A need cycle."""
    marks = Marks()
    for step in cycle.steps if cycle else []:
        marks.actors.add(step.actor)
        if step.link:
            marks.add(step.link)
    return marks


def of_refusal(line: str) -> Marks | None:
    """What a refusal says of a graph; None where it says nothing that could be drawn."""
    marks = Marks(refusal=line)
    if walk := WALK.search(line):
        marks.channels.update(plain(step[1:]) for step in walk[1].split())
    elif "deadlock: " in line:
        for actor, fired, due, link in BLOCKED.findall(line.partition("deadlock: ")[2]):
            marks.actors.add(plain(actor))
            marks.told[plain(actor)] = f"{fired} of {due} firings"
            marks.add(link)
    elif way := MISSING_WAY.search(line):
        ends = [plain(name) for name in way.groups() if name]
        marks.actors.update(ends)
        marks.missing = (ends[0], ends[1]) if len(ends) == 2 else None
    elif not UNANSWERED.search(line):
        return None
    return marks


def label(text: str) -> str:
    """A label in graphviz's language, of which lines and signs stay what they are."""
    return quoted(text.replace("\\", "\\\\").replace("&", "&amp;").replace("\n", "\\n"))


def shortened(name: str) -> str:
    """A name that has room."""
    return name if len(name) <= LETTERS else f"{name[:LETTERS - 10]}\N{HORIZONTAL ELLIPSIS}{name[-9:]}"


def listed(values: Sequence[Time]) -> str:
    """Numbers by phase, `n*v` for n times v, as far as there is room."""
    runs = [(len(list(run)), shown(value)) for value, run in groupby(values)]
    text = ",".join(f"{times}*{value}" if times > 1 and len(values) > 2 else ",".join([value] * times) for times, value in runs)
    return text if len(text) <= NUMBERS else f"{text[:NUMBERS].rpartition(',')[0]},\N{HORIZONTAL ELLIPSIS} of {len(values)}"


def rates(values: Sequence[int]) -> str:
    """The rates of a port as its end of a channel shows them: nothing where they are 1."""
    return listed(values) if set(values) != {1} else ""


def red(is_red: bool) -> str:
    return ' color="#bb2222" fontcolor="#bb2222" penwidth=1.8' if is_red else ""


def actor_line(actor: graphs.Actor, marks: Marks, variant: str) -> str:
    name, is_red = escaped(actor.name), actor.name in marks.actors
    told = [shortened(actor.name), listed(actor.times), marks.told.get(actor.name, "")]
    return f"{quoted(name)} [id={quoted(f'{variant}actor/{name}')} label={label(chr(10).join(filter(None, told)))}{red(is_red)}];"


def channel_lines(channel: graphs.Channel, marks: Marks, capacities: Mapping[str, int], variant: str) -> Iterator[str]:
    """The channel, and its free space where that is red."""
    name, source, target = escaped(channel.name), quoted(escaped(channel.source)), quoted(escaped(channel.target))
    told = [shortened(channel.name), *([f"\N{BLACK CIRCLE}{channel.tokens}"] if channel.tokens else []),
            *([f"[{capacities[channel.name]}]"] if channel.name in capacities else [])]
    ends = f"taillabel={label(rates(channel.made))} headlabel={label(rates(channel.taken))}"
    yield (f"{source} -> {target} [id={quoted(f'{variant}channel/{name}')} label={label(chr(10).join(told))} {ends}"
           f"{red(channel.name in marks.channels)}];")
    if channel.name in marks.spaces:
        yield f"{target} -> {source} [id={quoted(f'{variant}space/{name}')} label=space style=dashed constraint=false{red(True)}];"


def dot(graph: graphs.Graph, marks: Marks | None, capacities: Mapping[str, int], variant: str = "", between: float = 0.5) -> str:
    """The graph in graphviz's language. What `variant` says stands before each part's id; so many inches are between actors at least."""
    marks = marks or Marks()
    lines = ["digraph g {", f"rankdir=LR; ranksep={between};", 'node [shape=box style=rounded fontname="sans-serif" fontsize=11];',
             'edge [fontname="sans-serif" fontsize=9 arrowsize=0.7];']
    lines += [actor_line(actor, marks, variant) for actor in graph.actors]
    lines += [line for channel in graph.channels for line in channel_lines(channel, marks, capacities, variant)]
    if marks.missing:
        ends = " -> ".join(quoted(escaped(name)) for name in marks.missing)
        lines.append(f'{ends} [label="no way" style=dashed constraint=false{red(True)}];')
    return "\n".join([*lines, "}"])


def graphviz(program: str, text: str, *options: str) -> bytes:
    """What a program of graphviz makes of a text."""
    if shutil.which(program) is None:
        raise needed(f"{program} of graphviz", "graphviz")
    done = subprocess.run([program, *options], input=text.encode(), capture_output=True, check=False)
    if done.returncode != 0:
        raise Fault(USAGE, f"{program}: {done.stderr.decode(errors='replace').strip()}")
    return done.stdout


def picture(text: str, form: str, room: float = ROOM, note: str = "") -> bytes:
    """What graphviz draws of a text, folded into rows that have so much room, with a note below."""
    drawing = Drawing(graphviz("dot", text, "-Tjson0").decode())
    below = "".join(f"{line}\\l" for line in textwrap.wrap(note.replace("\\", "\\\\").replace("&", "&amp;"), 100))
    return graphviz("neato", Folded(drawing, room).text(below), "-n2", f"-T{form}")


def add_words(parser: argparse.ArgumentParser) -> None:
    words.add_graph(parser)
    parser.add_argument("output", metavar="OUT.svg", nargs="?", help="the picture: .svg, .png or .pdf; without it, or by -, SVG is printed")


def refused(asked: argparse.Namespace, fault: Fault) -> graphs.Graph:
    """The graph of a file that the analyser refuses for what could be drawn; else the fault stays."""
    if of_refusal(fault.line) is None or asked.graph == output.STANDARD:
        raise fault
    return graphs.Graph(xmltree.parsed(output.read(asked.graph), asked.graph).root, asked.graph, asked.graph)


def held_back(analyser: Analyser, graph: graphs.Graph, asked: argparse.Namespace) -> tuple[NeedCycle | None, Fault | None]:
    """What holds a graph back: a need cycle, or a refusal that could be drawn."""
    try:
        bound = fastest(analyser, graph, asked.buffers, words.without_buffers(asked))
        return (bound.answer if bound else analyser.throughput(graph, words.passed_on(asked))).cycle, None
    except Fault as fault:
        if of_refusal(fault.line) is None:
            raise
        return None, fault


def run(asked: argparse.Namespace) -> int:
    output.require_ending(asked.output, FORMATS)
    cycle: NeedCycle | None = None
    fault: Fault | None = None
    try:
        analyser, graph = asking.asked_graph(asked)
        cycle, fault = held_back(analyser, graph, asked)
    except Fault as refusal:
        graph, fault = refused(asked, refusal), refusal
    marks = (of_refusal(fault.line) if fault else None) or of_cycle(cycle)
    text = dot(graph, marks, graph.buffers(asked.buffers))
    is_named = asked.output not in (None, output.STANDARD)
    if asked.json:
        words.as_json({"cycle": cycle and cycle.document(), "refusal": fault and fault.line, "dot": text})
    if is_named or not asked.json:
        form = os.path.splitext(asked.output)[1][1:].lower() if is_named else "svg"
        output.put_or_print(asked.output, picture(text, form or "svg", note=marks.refusal))
    if fault:
        raise fault
    return 0
