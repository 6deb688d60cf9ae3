"""Judges an answer that came from another machine: by its certificate, or by asking again here."""
from __future__ import annotations

import os
import tempfile
from fractions import Fraction
from typing import List, NamedTuple, Optional, Sequence, Tuple

from sdf3companion import graphs, reading, units, words, xmltree
from sdf3companion.analyser import Analyser, buffers_in
from sdf3companion.faults import REJECTED, Fault
from sdf3companion.work import Answer


class Task(NamedTuple):
    """What is asked about a file: its bytes, and the words, of which the first is the algorithm."""

    data: bytes
    words: List[str]


Judged = Tuple[int, Optional[str], str]
"""The status, the rate and the line of a row."""


def question_of(task: Task) -> List[str]:
    """The lines by which a certificate says what was asked, after its version."""
    if task.words[0] == "scenario":
        return ["scenario"]
    listed = buffers_in(task.words)
    pairs = ["-"]
    if listed:
        graph = graphs.Graph(xmltree.parsed(task.data, "graph").root)
        capacities = graph.buffers(listed)
        pairs = [f"{number}={capacities[channel.name]}" for number, channel in enumerate(graph.channels) if channel.name in capacities]
    return ["throughput", f"no-overlap {'yes' if '--no-overlap' in task.words else 'no'}", " ".join(["buffers", *pairs])]


def verdict_of(analyser: Analyser, data: bytes, certificate: bytes) -> str:
    """What `check` says here of a certificate."""
    with tempfile.TemporaryDirectory() as folder:
        paths = [os.path.join(folder, name) for name in ("graph.xml", "certificate")]
        for path, text in zip(paths, (data, certificate)):
            with open(path, "wb") as file:
                file.write(text)
        try:
            return analyser.run("check", paths[0], "--certificate", paths[1]).strip()
        except Fault as fault:
            return fault.line


def here(analyser: Analyser, label: str, task: Task, seconds: Optional[float] = None) -> Judged:
    """The row of an answer that this machine gives, by the file's own times. A file of another tool is adapted in memory."""
    try:
        return 0, words.fraction(rate_here(analyser, label, task, seconds)), ""
    except Fault as fault:
        return fault.status, None, "; ".join([fault.line, *fault.more])


def rate_here(analyser: Analyser, label: str, task: Task, seconds: Optional[float]) -> Fraction:
    if task.words[0] == "scenario":
        return reading.worst_rate(analyser, label, task.data, seconds).rate
    graph, _ = reading.graph_of(analyser, label, task.data)
    return analyser.throughput(graph, spelled(graph, task.words[1:]), seconds).rate


def spelled(graph: graphs.Graph, given: Sequence[str]) -> List[str]:
    """Words with the buffers as the analyser spells them."""
    listed = buffers_in(given)
    return [graphs.buffers_list(graph.buffers(word)) if word is listed else word for word in given]


def judged(analyser: Analyser, label: str, task: Task, answer: Optional[Answer], seconds: Optional[float] = None) -> Judged:
    """The row that counts of an answer that came from elsewhere. It has to be about what was asked, and `check` has to accept it; a refusal,
    and an answer about times of which some were zero, is asked again here."""
    if answer is None:
        return REJECTED, None, "refused: the worker gave no answer"
    if answer.status != 0:
        return here(analyser, label, task, seconds)
    said, question = answer.text.partition("\n")[0].removeprefix("rate "), question_of(task)
    if answer.certificate.decode("utf-8", "replace").split("\n")[1:len(question) + 1] != question:
        return REJECTED, None, f"refused: the worker's certificate of {said} is about something else"
    verdict = verdict_of(analyser, task.data, answer.certificate)
    if verdict != f"accepted {task.words[0]} {said}":
        return REJECTED, None, f"refused: the worker says {said}, and check says: {verdict}"
    scale = units.scale_in(xmltree.parsed(task.data, label).root)
    return here(analyser, label, task, seconds) if scale.has_zero else (0, words.fraction(Fraction(said) * scale.factor), "")
