"""Graphs: as files have them, which stay the trees of their files, so that what nobody asks about is kept; or made of plain data.

Times are those of the user's file: whole numbers, fractions or zero. How they are scaled for the analyser is the graph's own affair.
"""
from __future__ import annotations

import contextlib
import copy
import os
import tempfile
from dataclasses import dataclass
from fractions import Fraction
from math import gcd
from typing import Any, Collection, Dict, Iterator, List, Mapping, Optional, Sequence, Set
from xml.etree.ElementTree import Element

from sdf3companion import units, xmltree
from sdf3companion.answers import Time, escaped, exact, plain
from sdf3companion.faults import FORM, Fault
from sdf3companion.parts import strong_parts
from sdf3companion.writing import Row, graph_text
from sdf3companion.xmltree import property_row, time_element


@dataclass
class Actor:
    """An actor; `element` has its time, None where the file gives none; `times` are by phase, `ports` its rates by port, a list each."""

    name: str
    element: Optional[Element]
    ports: Dict[str, List[int]]
    times: List[Time]


@dataclass
class Channel:
    """A channel; `made` and `taken` are rates by phase, `size` the memory of a token."""

    name: str
    source: str
    made: List[int]
    target: str
    taken: List[int]
    tokens: int
    size: int

    @property
    def step(self) -> int:
        """The greatest common divisor of the rates: capacities between two steps gain nothing."""
        return gcd(*self.made, *self.taken)

    @property
    def is_self_loop(self) -> bool:
        return self.source == self.target


def numbers(text: str) -> List[int]:
    """The numbers of a list, of which `n*v` stands for n times v."""
    found: List[int] = []
    for item in text.split(","):
        times, star, value = item.rpartition("*")
        found += [int(value)] * (int(times) if star else 1)
    return found


def named(element: Element, attribute: str) -> str:
    """An attribute that has to be there."""
    value = element.get(attribute)
    if value is None:
        raise Fault(FORM, f"missing {attribute} in {element.tag}")
    return value


class Graph:
    """A synchronous or cyclo-static graph. Names of actors and channels are those of the file. `path` names its file, where it has one
    that the analyser reads; `label` is what people are told of where it came from."""

    def __init__(self, root: Element, path: Optional[str] = None, label: str = "graph") -> None:
        self.root, self.path, self.label = root, path, label
        self.scale = units.scale_in(root)
        self.kind = named(root, "type")
        application = root.find("applicationGraph")
        section = application.find(self.kind) if application is not None else None
        if application is None or section is None:
            raise Fault(FORM, f"{label} has no applicationGraph with {self.kind}")
        self.section = section
        self.properties = application.find(f"{self.kind}Properties")
        self.actors = [self.actor(element) for element in self.section.findall("actor")]
        self.channels = [self.channel(element) for element in self.section.findall("channel")]

    @classmethod
    def from_dict(cls, document: Mapping[str, Any]) -> "Graph":
        """A graph of plain data: `actors` by name, each a time or a list of times by phase; `channels`, each with `from` and `to`, and
        where it isn't usual with `made` and `taken` (1 each, or a list by phase), `tokens` (0), `size` (1) and `name`."""
        try:
            times = {str(name): listed_times(time) for name, time in document["actors"].items()}
            rows = [row_of(number, channel) for number, channel in enumerate(document.get("channels", []))]
            kind = "sdf" if all(len(line) == 1 for line in times.values()) and all(is_one(row) for row in rows) else "csdf"
            text = graph_text(kind, {name: ",".join("1" for _ in line) for name, line in times.items()}, rows)
        except (KeyError, TypeError, ValueError, AttributeError) as fault:
            raise Fault(FORM, f"the graph isn't of the form {{'actors': {{NAME: TIME}}, 'channels': [{{'from': .., 'to': ..}}]}}: {fault!r}") from fault
        return cls(xmltree.parsed(text.encode("utf-8", "surrogateescape"), "graph").root).with_times(times)

    @classmethod
    def from_networkx(cls, drawn: Any) -> "Graph":
        """A graph of networkx, directed: nodes with `time` (1 where it isn't given), edges with what `from_dict` reads of a channel."""
        actors = {str(node): data.get("time", 1) for node, data in drawn.nodes(data=True)}
        channels = [{**data, "from": str(source), "to": str(target)} for source, target, data in drawn.edges(data=True)]
        return cls.from_dict({"actors": actors, "channels": channels})

    def actor(self, element: Element) -> Actor:
        name = named(element, "name")
        ports = {named(port, "name"): numbers(named(port, "rate")) for port in element.findall("port")}
        time = time_element(self.properties, name)
        times = [self.scale.own(value) for value in numbers(named(time, "time"))] if time is not None else []
        return Actor(name, time, ports, times)

    def channel(self, element: Element) -> Channel:
        ports = {actor.name: actor.ports for actor in self.actors}
        source, target = named(element, "srcActor"), named(element, "dstActor")
        row = property_row(self.properties, "channel", named(element, "name"))
        size = row.find("tokenSize") if row is not None else None
        return Channel(named(element, "name"), source, ports[source][named(element, "srcPort")], target, ports[target][named(element, "dstPort")],
                       int(element.get("initialTokens") or 0), max(1, int(size.get("sz") or 0)) if size is not None else 1)

    @property
    def times(self) -> Dict[str, List[Time]]:
        """The times of each actor by phase, in the user's units."""
        return {actor.name: actor.times for actor in self.actors}

    @property
    def has_zero(self) -> bool:
        """Whether some firing takes no time."""
        return any(0 in actor.times for actor in self.actors)

    def copied(self) -> "Graph":
        """A graph of its own with the same tree, which may be changed."""
        return Graph(copy.deepcopy(self.root), label=self.label)

    def with_times(self, times: Mapping[str, Sequence[Time]], scale: Optional[units.Scale] = None) -> "Graph":
        """The graph with other times, whole, fractional or zero. Without a scale it is the least that makes them whole, and where some are
        zero that of this graph."""
        zero_factor = max(10, self.scale.zero_factor)
        if scale is None:
            some_zero = any(time == 0 for line in times.values() for time in line)
            factor = units.common_factor(times)
            scale = units.Scale(factor * zero_factor, zero_factor, self.scale.zero_firings, self.scale.exact) if some_zero else units.Scale(factor)
        new = self.copied()
        for actor in new.actors:
            element = actor.element
            if element is None:
                raise Fault(FORM, f"actor {actor.name} has no executionTime")
            element.set("time", ",".join(map(str, units.scaled({actor.name: times[actor.name]}, scale)[actor.name])))
        units.put_scale(new.root, scale)
        return Graph(new.root, label=self.label)

    @contextlib.contextmanager
    def file(self) -> Iterator[str]:
        """The path of a file with this graph: its own, or one that stands for as long as it is needed."""
        if self.path is not None:
            yield self.path
            return
        handle, path = tempfile.mkstemp(suffix=".xml")
        try:
            with os.fdopen(handle, "wb") as file:
                file.write(self.text())
            yield path
        finally:
            os.unlink(path)

    def text(self) -> bytes:
        """The graph as a file that the analyser reads."""
        return xmltree.written(self.root)

    def only(self, names: Collection[str]) -> "Graph":
        """The graph of some actors and of the channels between them."""
        part = self.copied()
        kept = {channel.name for channel in self.channels if channel.source in names and channel.target in names}
        prune(part.section, "actor", "name", names)
        prune(part.section, "channel", "name", kept)
        prune(part.properties, "actorProperties", "actor", names)
        prune(part.properties, "channelProperties", "channel", kept)
        return Graph(part.root, label=self.label)

    def buffers(self, text: Optional[str]) -> Dict[str, int]:
        """The capacities of a list NAME=NUMBER,.. by channel. A name stands as it is, or with letters spelled by `%`."""
        names = {channel.name for channel in self.channels}
        found: Dict[str, int] = {}
        for spelled, number in pairs_of(text):
            name = spelled if spelled in names else plain(spelled)
            if name not in names:
                raise Fault(FORM, f"unknown channel {spelled}")
            if name in found:
                raise Fault(FORM, f"channel {name} has two capacities")
            found[name] = number
        return found

    def picture(self) -> str:
        """The graph as graphviz draws it, in SVG."""
        from sdf3companion import draw
        return draw.picture(draw.dot(self, None, {}), "svg").decode("utf-8")

    def _repr_svg_(self) -> Optional[str]:
        """The graph as a notebook shows it; nothing where graphviz isn't there."""
        try:
            return self.picture()
        except Fault:
            return None


def listed_times(time: Any) -> List[Time]:
    """One time, or a list of them, as numbers: `int`, `Fraction`, `float` or text as `2/3`."""
    line = list(time) if isinstance(time, (list, tuple)) else [time]
    found = [exact(Fraction(str(value))) for value in line]
    if not found or any(value < 0 for value in found):
        raise ValueError(f"{time!r} is no time")
    return found


def row_of(number: int, channel: Mapping[str, Any]) -> Row:
    """A channel of plain data, whose name is its number where it has none."""
    unknown = set(channel) - {"name", "from", "to", "made", "taken", "tokens", "size"}
    if unknown:
        raise ValueError(f"a channel has no {sorted(unknown)[0]!r}")
    return Row(str(channel.get("name", f"c{number}")), str(channel["from"]), channel.get("made", 1), str(channel["to"]), channel.get("taken", 1),
               int(channel.get("tokens", 0)), int(channel.get("size", 1)))


def is_one(row: Row) -> bool:
    """Whether the rates of a channel are the same in all phases."""
    return isinstance(row.made, int) and isinstance(row.taken, int)


def prune(tree: Optional[Element], tag: str, attribute: str, names: Collection[str]) -> None:
    """Takes the elements of a tag out of a section that aren't of some names."""
    if tree is None:
        return
    for row in tree.findall(tag):
        if row.get(attribute) not in names:
            tree.remove(row)


def opened(analyser: Any, path: str) -> Graph:
    """The graph of a file; what the analyser refuses in it, and `adapt` can't change, is a fault with the analyser's line."""
    from sdf3companion import reading
    return reading.opened(analyser, path)


def parts(graph: Graph, buffered: Collection[str] = ()) -> List[Set[str]]:
    """The strongly connected parts, as sets of actors' names. A buffered channel leads back as well, by its space."""
    ways = [(channel.source, channel.target) for channel in graph.channels]
    spaces = [(channel.target, channel.source) for channel in graph.channels if channel.name in buffered]
    return strong_parts([actor.name for actor in graph.actors], ways + spaces)


def pairs_of(text: Optional[str]) -> List[Any]:
    """The pairs of name and capacity of a buffers list."""
    pairs = [pair.rpartition("=") for pair in text.split(",")] if text else []
    if any(not (name and sign and number.isdecimal() and number.isascii()) for name, sign, number in pairs):
        raise Fault(FORM, f"{text} isn't a list of buffers; write NAME=NUMBER,..")
    return [(name, int(number)) for name, _, number in pairs]


def buffers_list(capacities: Mapping[str, int]) -> str:
    """Capacities as the analyser takes them."""
    return ",".join(f"{escaped(name)}={number}" for name, number in capacities.items())


def buffers_words(capacities: Mapping[str, int]) -> List[str]:
    """The words by which the analyser is given buffers."""
    return ["--buffers", buffers_list(capacities)] if capacities else []
