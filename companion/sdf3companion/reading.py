"""Opens the graph files that users have: those that the analyser reads, and those of other tools, which are adapted in memory."""
from __future__ import annotations

import os
import stat
import tempfile
from fractions import Fraction
from typing import Dict, List, Optional, Tuple
from xml.etree.ElementTree import Element

from sdf3companion import output, xmltree
from sdf3companion.adapting import adapted, buffer_sizes, constraint
from sdf3companion.analyser import Analyser, Clock
from sdf3companion.answers import WorstRate, worst_rate_of
from sdf3companion.faults import FORM, LIMIT, Fault
from sdf3companion.graphs import Graph
from sdf3companion.source import Source
from sdf3companion.units import scale_in


def is_ordinary(path: str) -> bool:
    """Whether a path names a file that can be read more than once."""
    try:
        return stat.S_ISREG(os.stat(path).st_mode)
    except OSError:
        return False


def asked_about(analyser: Analyser, algorithm: str, data: bytes, seconds: Optional[float] = None) -> str:
    """What the analyser says of a file's bytes; what it says against them is a fault."""
    with tempfile.NamedTemporaryFile(suffix=".xml") as file:
        file.write(data)
        file.flush()
        return analyser.run(algorithm, file.name, seconds=seconds)


def adapted_after(analyser: Analyser, refusal: Fault, path: str, data: bytes) -> Source:
    """A file that the analyser refused, as `adapt` makes it; where that isn't read either, the fault is the refusal, and why `adapt` can't."""
    try:
        source = adapted(analyser, path, data)
    except Fault as fault:
        raise Fault(refusal.status, refusal.line, refusal.is_analysers, [f"`adapt` can't change that: {fault.line}"]) from fault
    try:
        asked_about(analyser, "scenario" if source.is_scenarios else "repetition", xmltree.written(source.root))
    except Fault as fault:
        if fault.status in (FORM, LIMIT):
            raise Fault(refusal.status, refusal.line, refusal.is_analysers, [f"and of the file that `adapt` makes it says: {fault.line}"]) from fault
    return source


def opened(analyser: Analyser, path: str) -> Graph:
    """The graph of a file, which may be one of SDF3, Kiter or PREESM; what is changed in it is told. `-` is standard input."""
    data = output.read(path)
    graph, changes = graph_of(analyser, path, data, path if is_ordinary(path) else None)
    if changes:
        output.tell(f"{path} is read as `adapt` makes it: {'; '.join(changes)}")
    return graph


def graph_of(analyser: Analyser, label: str, data: bytes, path: Optional[str] = None) -> Tuple[Graph, List[str]]:
    """The graph of a file's bytes, and the changes without which the analyser doesn't read it. `path` names the file where it can be
    read again."""
    try:
        if path is not None:
            analyser.run("repetition", path)
        else:
            asked_about(analyser, "repetition", data)
    except Fault as refusal:
        if refusal.status != FORM or not refusal.is_analysers:
            raise
        source = adapted_after(analyser, refusal, label, data)
        if source.is_scenarios:
            raise Fault(refusal.status, refusal.line, True, [f"{label} is a file of scenarios, which isn't read here"]) from refusal
        graph = Graph(source.root, None, label)
        return graph, [*source.changes, *(["times are scaled for the analyser"] if graph.scale.factor != 1 else [])]
    return Graph(xmltree.parsed(data, label).root, path, label), []


def worst_rate(analyser: Analyser, label: str, data: bytes, seconds: Optional[float] = None) -> WorstRate:
    """The worst rate of a file of scenarios, by its own times."""
    clock = Clock(seconds)
    try:
        text = asked_about(analyser, "scenario", data, clock.left())
        root: Element = xmltree.parsed(data, label).root
    except Fault as refusal:
        if refusal.status != FORM or not refusal.is_analysers:
            raise
        root = adapted_after(analyser, refusal, label, data).root
        text = asked_about(analyser, "scenario", xmltree.written(root), clock.left())
    while True:
        told, scale = analyser.read(worst_rate_of, text), scale_in(root)
        if not scale.has_zero or told.rounds <= scale.exact:
            time = scale.own(int(told.time))
            return WorstRate(Fraction(told.rounds) / time, time, told.rounds, told.states)
        root = adapted(analyser, label, data, told.rounds).root
        text = asked_about(analyser, "scenario", xmltree.written(root), clock.left())


def file_buffers(graph: Graph) -> Dict[str, int]:
    """The capacities that a graph's file gives by `bufferSize`."""
    return buffer_sizes(Source(graph.label, graph.root))


def file_rate(graph: Graph) -> Optional[Fraction]:
    """The throughput constraint that a graph's file has, by its own times."""
    return constraint(Source(graph.label, graph.root))
