"""Graphs as files have them."""
from collections.abc import Mapping, Sequence
from typing import Union

Number = Union[int, str]
"""A rate or a time: a number, or the words for those by phase."""
Channel = tuple[str, Number, Number, str, int]
"""Its source, tokens put, tokens taken, its target, tokens that are there."""


def properties(times: Mapping[str, Number]) -> str:
    """The actors' times."""
    return "".join(f"<actorProperties actor='{actor}'><processor type='p' default='true'><executionTime time='{time}'/>"
                   "</processor></actorProperties>" for actor, time in times.items())


def parts(times: Mapping[str, Number], channels: Sequence[Channel], names: Sequence[str], ports: Sequence[str]) -> str:
    """Actors and channels. Each channel has a name, and a word with which its two ports end."""
    held: dict[str, list[str]] = {actor: [] for actor in times}
    lines = []
    for (source, put, taken, target, tokens), name, port in zip(channels, names, ports):
        held[source].append(f"<port name='o{port}' type='out' rate='{put}'/>")
        held[target].append(f"<port name='i{port}' type='in' rate='{taken}'/>")
        lines.append(f"<channel name='{name}' srcActor='{source}' srcPort='o{port}' dstActor='{target}' dstPort='i{port}'"
                     f" initialTokens='{tokens}'/>")
    actors = [f"<actor name='{actor}'>{''.join(own)}</actor>" for actor, own in held.items()]
    return "".join(actors + lines)


def wrapped(kind: str, inner: str, times: Mapping[str, Number]) -> str:
    """A file of one graph, of actors and channels and of the actors' times."""
    return (f"<sdf3 type='{kind}'><applicationGraph><{kind}>{inner}</{kind}>"
            f"<{kind}Properties>{properties(times)}</{kind}Properties></applicationGraph></sdf3>")


def file(times: Mapping[str, Number], channels: Sequence[Channel], kind: str = "sdf") -> str:
    """A file of actors by their times, and of channels, which are called c0, c1 and so on."""
    numbers = [str(number) for number in range(len(channels))]
    return wrapped(kind, parts(times, channels, [f"c{number}" for number in numbers], numbers), times)


def scenario(times: Mapping[str, Number], channels: Mapping[str, Channel]) -> str:
    """The graph of a scenario: actors by their times, and channels by their names."""
    names = list(channels)
    return f"<sdf>{parts(times, list(channels.values()), names, names)}</sdf><sdfProperties>{properties(times)}</sdfProperties>"
