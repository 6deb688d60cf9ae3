"""How fast the program reads graph files.

Makes texts on which a reader can be slow, all of the greatest size but those that are named by what they hold. A row is the least
wall-clock time of five runs, the most memory of one, and the millions of instructions of one, where valgrind is there.
"""
import argparse
import tempfile
from collections.abc import Callable
from functools import partial

from programs import ALWAYS, ANALYSER, measured, program, written
from tables import Table, list_rows

MIB = 1024 * 1024
LIMIT = 4 * MIB
"""The greatest length of a graph file, in bytes."""
WIDE = "\U0001F600"
BEGIN, END = "<sdf3 type='sdf'><applicationGraph><sdf>", "</sdf></applicationGraph></sdf3>"


def mebibytes(word: str) -> int:
    """So many mebibytes, in bytes."""
    number = float(word)
    if not 0 < number < float("inf"):
        raise argparse.ArgumentTypeError("a number above 0 is wanted")
    return int(number * MIB)


def add_words(parser: argparse.ArgumentParser) -> None:
    parser.add_argument("size", metavar="MIB", nargs="?", type=mebibytes, default=LIMIT, help="the greatest file in MiB, 4 by default, and at most")
    list_rows(parser, CASES)


def channel(i: int) -> str:
    return f"<channel name='c{i}' srcActor='a' srcPort='o{i}' dstActor='b' dstPort='i{i}' initialTokens='0'/>\n"


def filled(size: int, start: str, piece: Callable[[int], str], end: str) -> str:
    """A text of at most this size: the start, pieces by number, the end."""
    parts, length, i = [start], len(start) + len(end), 0
    part = piece(i)
    while length + len(part) <= size:
        parts.append(part)
        length += len(part)
        i += 1
        part = piece(i)
    parts.append(end)
    return "".join(parts)


def channels(size: int) -> str:
    return filled(size, BEGIN, channel, END)


def tags(size: int) -> str:
    return filled(size, "<a>", lambda _: "<o a=''/>", "</a>")


def attributes(count: int, _: int) -> str:
    return "<a " + " ".join(f"n{i}=''" for i in range(count)) + "/>"


def chain(actors: int, names: int, _: int) -> str:
    """A chain of actors with the longest names that are allowed, and passed-over elements of other names."""
    inner = []
    for i in range(actors):
        ports = ("<port name='o' type='out' rate='1'/>" if i < actors - 1 else "") + (
            "<port name='i' type='in' rate='1'/>" if i else "")
        inner.append(f"<actor name='{'a' * 120}{i}'>{ports}</actor>")
    for i in range(actors - 1):
        inner.append(f"<channel name='c{i}' srcActor='{'a' * 120}{i}' srcPort='o' dstActor='{'a' * 120}{i + 1}' dstPort='i'/>")
    inner.extend(f"<other name='n{i}'/>" for i in range(names))
    return BEGIN + "".join(inner) + END


CASES: dict[str, Callable[[int], str]] = {
    "channels, a tenth": lambda size: channels(size // 10),
    "channels": channels,
    "open tags": lambda size: "<a>" * (size // 3),
    "half-open tags": lambda size: "<a " * (size // 3),
    "small tags": tags,
    "a comment": lambda size: "<a><!--" + "x" * (size - 14) + "--></a>",
    "a text": lambda size: "<a>" + "x" * (size - 7) + "</a>",
    "a value": lambda size: "<a b='" + "x" * (size - 9) + "'/>",
    "hyphens in a comment": lambda size: "<a><!--" + "-" * (size - 14) + "--></a>",
    "hyphens and letters in a comment": lambda size: "<a><!--" + "-x" * (size // 2 - 7) + "--></a>",
    "a comment that has no end": lambda size: "<a><!--" + "-" * (size - 7),
    "lines": lambda size: "<a>" + "\n" * (size - 7) + "</a>",
    "lines before the root": lambda size: "\n" * (size - 4) + "<a/>",
    "lines in a tag": lambda size: "<a" + "\n" * (size - 4) + "/>",
    "lines in an end tag": lambda size: "<a></a" + "\n" * (size - 7) + ">",
    "four-byte characters": lambda size: "<a>" + WIDE * (size // 4 - 2) + "</a>",
    "the same in a comment": lambda size: "<a><!--" + WIDE * (size // 4 - 4) + "--></a>",
    "the same in a value": lambda size: "<a b='" + WIDE * (size // 4 - 3) + "'/>",
    "the same in a name": lambda size: "<" + WIDE * (size // 4 - 1) + "/>",
    "letters and two-byte characters": lambda size: "<a>" + "x\u00E9" * (size // 3 - 3) + "</a>",
    "a name of an element": lambda size: "<" + "x" * (size - 3) + "/>",
    "a name of both its tags": lambda size: "<" + "x" * (size // 2 - 3) + "></" + "x" * (size // 2 - 3) + ">",
    "a name of an attribute": lambda size: "<a " + "x" * (size - 8) + "=''/>",
    "quotes in a value": lambda size: "<a b='" + '"' * (size - 9) + "'/>",
    "entities": lambda size: "<a>" + "&amp;" * (size // 5 - 2) + "</a>",
    "entities in a value": lambda size: "<a b='" + "&amp;" * (size // 5 - 2) + "'/>",
    "broken UTF-8 at the end": lambda size: "<a>" + "x" * (size - 10),
    "10,000 attributes": partial(attributes, 10_000),
    "100,000 attributes": partial(attributes, 100_000),
    "128 actors": partial(chain, 128, 0),
    "128 actors, 3,000 other names": partial(chain, 128, 3_000),
    "128 actors, 30,000 other names": partial(chain, 128, 30_000),
}
"""The texts by their names, each made by the greatest size."""


def data_of(name: str, size: int) -> bytes:
    """The bytes of a text."""
    data = CASES[name](size).encode()
    return data + b"\xe2\x82\x41" if name.startswith("broken") else data


def run(asked: argparse.Namespace) -> None:
    built = program(ANALYSER)
    table = Table([("file", -32), ("bytes", 9), ("status", 6), ("ms", 8), ("MB/s", 8), ("MB", 6), ("M instr.", 8)])
    with tempfile.TemporaryDirectory() as folder:
        for name in CASES:
            data = data_of(name, min(LIMIT, asked.size))
            found = measured([built, "--algo", "repetition", "--graph", written(folder, "graph.xml", data)])
            table.row(name, len(data), found.status, found.milliseconds, f"{len(data) / found.seconds / 1e6:.1f}", found.megabytes(),
                      found.millions(ALWAYS))
