"""The graphs on which executions can be slow in ways of their own."""
from collections.abc import Mapping, Sequence
from typing import Optional

from graphs import Channel, Number, file

PRIMES = [2, 3, 5, 7, 11, 13, 17, 19, 23, 29, 31, 37, 41, 43, 47, 53]


class Graph:
    """Actors with their times, and channels."""

    def __init__(self, times: Mapping[str, Number], kind: str = "sdf") -> None:
        self.times, self.kind = times, kind
        self.channels: list[Channel] = []

    def channel(self, source: str, made: Number, taken: Number, target: str, tokens: int) -> None:
        self.channels.append((source, made, taken, target, tokens))

    def bounded(self, source: str, made: Number, taken: Number, target: str, capacity: int) -> None:
        """A channel with as much space as the capacity, which a channel in the other direction stands for."""
        self.channel(source, made, taken, target, 0)
        self.channel(target, taken, made, source, capacity)

    def text(self) -> str:
        return file(self.times, self.channels, self.kind)


def decoder(blocks: int, frames: int) -> Graph:
    """A decoder of that many blocks in a frame, with buffers of so many frames."""
    return decoder_by(Graph({"vld": 26018, "iq": 559, "idct": 486, "mc": 10958}), blocks, blocks, frames)


def decoder_in_phases(blocks: int, frames: int) -> Graph:
    """The same with two phases for what makes a frame and for what takes it, of half its blocks each."""
    graph = Graph({"vld": "26018,26018", "iq": 559, "idct": 486, "mc": "10958,10958"}, "csdf")
    return decoder_by(graph, f"{blocks // 2},{blocks // 2}", blocks, frames)


def decoder_by(graph: Graph, made: Number, blocks: int, frames: int) -> Graph:
    graph.bounded("vld", made, 1, "iq", frames * blocks)
    graph.bounded("iq", 1, 1, "idct", 2)
    graph.bounded("idct", 1, made, "mc", frames * blocks)
    return graph


def converter() -> Graph:
    """A sample-rate converter in five steps."""
    rates = [(1, 1), (2, 3), (2, 7), (8, 7), (5, 1)]
    graph = Graph({f"s{i}": 1 for i in range(6)})
    for i, (made, taken) in enumerate(rates):
        graph.bounded(f"s{i}", made, taken, f"s{i + 1}", 2 * (made + taken))
    return graph


def chain(actors: int) -> Graph:
    """Actors of coprime times one after another; `buffers` bounds the channels between them."""
    graph = Graph({f"s{i}": PRIMES[i % len(PRIMES)] for i in range(actors)})
    for i in range(actors - 1):
        graph.channel(f"s{i}", 1, 1, f"s{i + 1}", 0)
    return graph


def buffers(actors: int, capacity: int) -> list[str]:
    return ["--no-overlap", "--buffers", ",".join(f"c{i}={capacity}" for i in range(actors - 1))]


def treadmill() -> Graph:
    """A quick actor that makes 20 firings of a slow one start at each moment, until none of their results is left."""
    graph = Graph({"x": 50_000, "y": 1})
    graph.channel("y", 1, 1, "y", 1)
    graph.channel("y", 20, 1, "x", 0)
    graph.channel("x", 1, 20, "y", 999_980)
    return graph


def running(firings: int) -> Graph:
    """So many firings run while a quick actor goes on."""
    graph = Graph({"x": 1_000_000_000, "y": 1})
    graph.channel("y", 1, 1, "y", 1)
    graph.channel("x", 1, 1, "y", 1_000_000)
    graph.channel("y", 1, 1, "x", firings)
    return graph


def spent() -> Graph:
    """Two actors that start a million firings at once, again and again."""
    graph = Graph({"x": 999_999_937, "y": 1})
    graph.channel("x", 1, 1, "y", 1_000_000)
    graph.channel("y", 1, 1, "x", 1_000_000)
    return graph


def ring(actors: int, tokens: int, times: Optional[Sequence[int]] = None) -> Graph:
    graph = Graph({f"a{i}": times[i % len(times)] if times else 1 + i % 7 for i in range(actors)})
    for i in range(actors):
        graph.channel(f"a{i}", 1, 1, f"a{(i + 1) % actors}", tokens if i == actors - 1 else 0)
    return graph


def million() -> Graph:
    """One actor with a million firings at once."""
    graph = Graph({"x": 1})
    for _ in range(10):
        graph.channel("x", 1, 1, "x", 1_000_000)
    return graph
