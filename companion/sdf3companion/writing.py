"""Writes graph files: the one place that spells actors, channels and times as a graph file has them."""
from __future__ import annotations

from fractions import Fraction
from typing import Iterable, List, Mapping, NamedTuple, Sequence, Tuple, Union
from xml.sax.saxutils import quoteattr

Number = Union[int, Fraction]
Listed = Union[str, Number, Sequence[Number]]
"""Numbers by phase: as a file spells them, one, or a list."""


class Row(NamedTuple):
    """A channel: what a firing of its source makes on it, and one of its target takes, and the tokens that are there at first."""

    name: str
    source: str
    made: Listed
    target: str
    taken: Listed
    tokens: int = 0
    size: int = 1


def listed(values: Listed) -> str:
    """Numbers as a file spells them."""
    if isinstance(values, str):
        return values
    if isinstance(values, (int, Fraction)):
        return str(values)
    return ",".join(map(str, values))


def port(name: str, way: str, rate: Listed) -> str:
    return f"<port name={quoteattr(name)} type='{way}' rate='{listed(rate)}'/>"


def graph_part(kind: str, times: Mapping[str, Listed], rows: Iterable[Row]) -> str:
    """The elements of a graph and of its properties."""
    ports: Mapping[str, List[str]] = {actor: [] for actor in times}
    channels, sizes = [], []
    for row in rows:
        ports[row.source].append(port(f"{row.name}_out", "out", row.made))
        ports[row.target].append(port(f"{row.name}_in", "in", row.taken))
        ends = (f"srcActor={quoteattr(row.source)} srcPort={quoteattr(row.name + '_out')} "
                f"dstActor={quoteattr(row.target)} dstPort={quoteattr(row.name + '_in')}")
        channels.append(f"<channel name={quoteattr(row.name)} {ends} initialTokens='{row.tokens}'/>")
        if row.size != 1:
            sizes.append(f"<channelProperties channel={quoteattr(row.name)}><tokenSize sz='{row.size}'/></channelProperties>")
    actors = [f"<actor name={quoteattr(actor)} type='actor'>{''.join(held)}</actor>" for actor, held in ports.items()]
    took = [f"<actorProperties actor={quoteattr(actor)}><processor type='p' default='true'><executionTime time='{listed(time)}'/>"
            "</processor></actorProperties>" for actor, time in times.items()]
    inside, properties = ("\n".join(["", *lines, ""]) for lines in (actors + channels, took + sizes))
    return f"<{kind} name='g' type='G'>{inside}</{kind}>\n<{kind}Properties>{properties}</{kind}Properties>"


def graph_text(kind: str, times: Mapping[str, Listed], rows: Iterable[Row]) -> str:
    """A graph file of actors by their times, and channels."""
    return f"<sdf3 type='{kind}' version='1.0'><applicationGraph name='g'>\n{graph_part(kind, times, rows)}\n</applicationGraph></sdf3>\n"


def scenarios_text(scenarios: Mapping[str, str], states: Mapping[str, Tuple[str, Sequence[str]]], initial: str) -> str:
    """A file of scenarios by name, each the part of its graph, and of states by name: the scenario that each runs, and the states that
    may follow it."""
    drawn = [f"<scenario name={quoteattr(name)}>{part}</scenario>" for name, part in scenarios.items()]
    drawn.append(f"<fsm initialState={quoteattr(initial)}>")
    for name, (scenario, later) in states.items():
        onward = "".join(f"<next state={quoteattr(other)}/>" for other in later)
        drawn.append(f"<state name={quoteattr(name)} scenario={quoteattr(scenario)}>{onward}</state>")
    inside = "\n".join(drawn)
    return f"<sdf3 type='fsmsadf' version='1.0'><applicationGraph name='g'><fsmsadf>\n{inside}\n</fsm></fsmsadf></applicationGraph></sdf3>\n"
