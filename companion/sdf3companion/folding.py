"""Folds a wide drawing into rows, as text is wrapped: it is cut where no actor stands, and what crosses a cut goes on at the left of the row
below. Lengths are points, as graphviz has them, and heights grow upwards."""
from __future__ import annotations

import json
import math
from bisect import bisect
from collections.abc import Iterator
from dataclasses import dataclass, field
from itertools import groupby
from typing import Any

Place = tuple[float, float]
"""How far to the right, and how far up."""
Curve = list[Place]
"""Bezier curves end to end: a place, and then two that guide and one that ends, for each."""

GAP = 30.0
"""Between two rows."""
BESIDE = 16.0
"""How near to an actor a cut may lie: the tip of an arrow stays whole."""
LETTER = 0.58
"""The width of a letter, in heights of its font."""
SAMPLES = 24
"""In how many parts a curve or a gap is looked through."""


@dataclass
class Box:
    """An actor's box, about its middle."""

    name: str
    middle: Place
    width: float
    height: float
    attributes: dict[str, str]


@dataclass
class Line:
    """A channel's line, with where its arrow ends and where its labels stand."""

    tail: str
    head: str
    curve: Curve
    tip: Place | None
    attributes: dict[str, str]
    labels: dict[str, Place] = field(default_factory=dict)


@dataclass
class Piece:
    """The part of a line in a row. The first begins at the tail, and the last ends at the head."""

    row: int
    curve: Curve
    is_first: bool = False
    is_last: bool = False
    shown: dict[str, str] = field(default_factory=dict)


LABELS = {"label": "lp", "taillabel": "tail_lp", "headlabel": "head_lp"}
"""By what stands at a line, the attribute of its place."""


def place(text: str) -> Place:
    x, y = text.split(",")[:2]
    return float(x), float(y)


def spelled(spot: Place) -> str:
    return f"{spot[0]:.2f},{spot[1]:.2f}"


def quoted(text: str) -> str:
    """A value as graphviz's language has it; its own escapes stay."""
    return '"' + text.replace('"', '\\"') + '"'


def attributes_of(row: dict[str, Any]) -> dict[str, str]:
    return {name: value for name, value in row.items() if isinstance(value, str) and name not in ("name", "pos", *LABELS.values())}


class Drawing:
    """A drawing as graphviz laid it out."""

    def __init__(self, text: str) -> None:
        rows = json.loads(text)
        self.boxes = [Box(row["name"], place(row["pos"]), 72 * float(row["width"]), 72 * float(row["height"]), attributes_of(row))
                      for row in rows.get("objects", [])]
        self.lines = [self.line(row) for row in rows.get("edges", [])]

    def line(self, row: dict[str, Any]) -> Line:
        words = row["pos"].split(";")[0].split()
        tip = next((place(word[2:]) for word in words if word.startswith("e,")), None)
        line = Line(self.boxes[row["tail"]].name, self.boxes[row["head"]].name, [place(word) for word in words if word[0] not in "es"], tip,
                    attributes_of(row))
        line.labels = {name: end_label(line, name) or place(row[at]) for name, at in LABELS.items() if row.get(name) and at in row}
        return line

    def width(self) -> float:
        """How wide the boxes and lines are."""
        ends = [x for box in self.boxes for x in (box.middle[0] - box.width / 2, box.middle[0] + box.width / 2)]
        ends += [x for line in self.lines for x, _ in line.curve]
        return max(ends) - min(ends)


def text_size(text: str, attributes: dict[str, str]) -> tuple[float, float]:
    """About how wide and high a label is."""
    height, lines = float(attributes.get("fontsize", "14")), text.split("\\n")
    return max(map(len, lines)) * LETTER * height, len(lines) * height * 1.2


def gaps(drawing: Drawing) -> Iterator[tuple[float, float]]:
    """From where to where no box stands, between boxes."""
    spans = sorted((box.middle[0] - box.width / 2, box.middle[0] + box.width / 2) for box in drawing.boxes)
    end = spans[0][1]
    for start, stop in spans:
        if start > end:
            yield end, start
        end = max(end, stop)


def candidates(drawing: Drawing) -> list[float]:
    """A cut for each gap, across as few labels as may be, and of these as far to the left."""
    spans = [(spot[0] - size / 2, spot[0] + size / 2) for line in drawing.lines for name, spot in line.labels.items()
             for size, _ in [text_size(line.attributes[name], line.attributes)]]
    found = []
    for start, end in gaps(drawing):
        low, high = min(start + BESIDE, (start + end) / 2), max(end - BESIDE, (start + end) / 2)
        places = [low + (high - low) * number / SAMPLES for number in range(SAMPLES + 1)]
        found.append(min(places, key=lambda x: sum(left < x < right for left, right in spans)))
    return found


def cuts(drawing: Drawing, room: float) -> list[float]:
    """Where to cut, so that no row is wider than the room, but for one without a gap."""
    if not drawing.boxes or drawing.width() <= room:
        return []
    found: list[float] = []
    begin, last = min(box.middle[0] - box.width / 2 for box in drawing.boxes), None
    end = max(box.middle[0] + box.width / 2 for box in drawing.boxes)
    for x in [*candidates(drawing), end]:
        if x - begin > room and last is not None:
            found.append(last)
            begin = last
        last = x
    return found


def end_label(line: Line, name: str) -> Place | None:
    """Where the rates at an end of a line stand: beside the line, below it, so that they aren't read as part of its name. None for the
    others, and where the line is a loop."""
    if name == "label" or line.tail == line.head:
        return None
    path = line.curve if name == "taillabel" else line.curve[::-1]
    end = path[0] if name == "taillabel" or line.tip is None else line.tip
    away = (path[3][0] - end[0], path[3][1] - end[1])
    long = math.hypot(*away) or 1.0
    onward = (away[0] / long, away[1] / long)
    beside = (-onward[1], onward[0]) if onward[0] < 0 else (onward[1], -onward[0])
    width, height = text_size(line.attributes[name], line.attributes)
    far, off = (7 if name == "taillabel" else 11) + abs(onward[0]) * width / 2, abs(beside[1]) * height / 2 + abs(beside[0]) * (width / 2 + 3) + 1
    return end[0] + onward[0] * far + beside[0] * off, end[1] + onward[1] * far + beside[1] * off


def halves(curve: Curve, share: float) -> tuple[Curve, Curve]:
    """One Bezier curve as two (after de Casteljau)."""
    left, right, rest = [curve[0]], [curve[-1]], curve
    while len(rest) > 1:
        rest = [(x + (to_x - x) * share, y + (to_y - y) * share) for (x, y), (to_x, to_y) in zip(rest, rest[1:])]
        left.append(rest[0])
        right.append(rest[-1])
    return left, right[::-1]


def along(curve: Curve, share: float) -> float:
    """How far to the right a share of a Bezier curve ends."""
    return halves(curve, share)[0][-1][0]


def crossing(curve: Curve, cut: float) -> float | None:
    """The first share of a Bezier curve after which it passes a cut."""
    before = along(curve, 0.02 / SAMPLES) < cut
    for number in range(1, SAMPLES + 1):
        if (along(curve, number / SAMPLES) < cut) != before:
            low, high = (number - 1) / SAMPLES, number / SAMPLES
            for _ in range(20):
                middle = (low + high) / 2
                low, high = (middle, high) if (along(curve, middle) < cut) == before else (low, middle)
            return high if 0 < high < 1 else None
    return None


def parted(curve: Curve, where: list[float]) -> Iterator[tuple[int, Curve]]:
    """The parts of a Bezier curve between cuts, each with its row."""
    first = min((share for cut in where for share in [crossing(curve, cut)] if share is not None), default=None)
    if first is None:
        yield bisect(where, along(curve, 0.5)), curve
        return
    head, rest = halves(curve, first)
    yield bisect(where, along(head, 0.5)), head
    yield from parted(rest, where)


def pieces(line: Line, where: list[float]) -> list[Piece]:
    """The parts of a line by row, from its tail on."""
    parts = [part for at in range(0, len(line.curve) - 1, 3) for part in parted(line.curve[at:at + 4], where)]
    found = []
    for row, group in groupby(parts, key=lambda part: part[0]):
        curves = [curve for _, curve in group]
        found.append(Piece(row, [curves[0][0], *(spot for curve in curves for spot in curve[1:])]))
    found[0].is_first = found[-1].is_last = True
    return found


class Folded:
    """A drawing in rows: its text in graphviz's language, with a place for everything."""

    def __init__(self, drawing: Drawing, room: float) -> None:
        self.drawing, self.cuts = drawing, cuts(drawing, room)
        self.parts = [(line, pieces(line, self.cuts)) for line in drawing.lines]
        self.left = [min((box.middle[0] - box.width / 2 for box in drawing.boxes), default=0.0), *self.cuts]
        self.down: list[float] = []
        self.bottom = 0.0
        for row in range(len(self.left)):
            low, high = self.heights(row)
            self.down.append(self.bottom - high)
            self.bottom -= high - low + GAP

    def row(self, spot: Place) -> int:
        return bisect(self.cuts, spot[0])

    def heights(self, row: int) -> tuple[float, float]:
        """How low and how high a row goes."""
        found = [box.middle[1] + half for box in self.drawing.boxes if self.row(box.middle) == row for half in (-box.height / 2, box.height / 2)]
        for line, parts in self.parts:
            found += [spot[1] for piece in parts if piece.row == row for spot in piece.curve]
            found += [spot[1] + half for name, spot in line.labels.items() if self.row(spot) == row
                      for _, height in [text_size(line.attributes[name], line.attributes)] for half in (-height / 2, height / 2)]
        return min(found, default=0.0), max(found, default=0.0)

    def moved(self, spot: Place, row: int | None = None) -> str:
        """A place in its row."""
        row = self.row(spot) if row is None else row
        return spelled((spot[0] - self.left[row], spot[1] + self.down[row]))

    def boxes(self) -> Iterator[str]:
        for box in self.drawing.boxes:
            yield f"{quoted(box.name)} [{self.listed({**box.attributes, 'pos': self.moved(box.middle)})}];"

    def listed(self, attributes: dict[str, str]) -> str:
        return " ".join(f"{name}={quoted(value)}" for name, value in attributes.items())

    def lines(self) -> Iterator[str]:
        for number, (line, parts) in enumerate(self.parts):
            self.name_parts(line, parts)
            for at, piece in enumerate(parts):
                ends = [line.tail if piece.is_first else f"{number} ..{at}", line.head if piece.is_last else f"{number} {at}.."]
                for end, spot, is_cut in zip(ends, (piece.curve[0], piece.curve[-1]), (not piece.is_first, not piece.is_last)):
                    if is_cut:
                        yield f'{quoted(end)} [style=invis shape=point width=0.01 label="" pos="{self.moved(spot, piece.row)}"];'
                yield f"{quoted(ends[0])} -> {quoted(ends[1])} [{self.listed(self.piece_attributes(line, piece, at))}];"

    def name_parts(self, line: Line, parts: list[Piece]) -> None:
        """Gives each label to a part, and to each other part that is long enough the name."""
        for name, spot in line.labels.items():
            holder = next((piece for piece in parts if piece.row == self.row(spot)), parts[0])
            holder.shown.update({name: line.attributes[name], LABELS[name]: self.moved(spot)})
        name = line.attributes.get("label", "").split("\\n")[0]
        width, height = text_size(name, line.attributes)
        for piece in parts:
            x, y = min(piece.curve[0], piece.curve[-1])
            if name and "label" not in piece.shown and max(spot[0] for spot in piece.curve) - x > width + BESIDE:
                piece.shown.update(label=name, lp=self.moved((x + width / 2 + 2, y + height / 2), piece.row))

    def piece_attributes(self, line: Line, piece: Piece, at: int) -> dict[str, str]:
        found = {name: value for name, value in line.attributes.items() if name not in LABELS}
        if at > 0 and "id" in found:
            found["id"] += f"/{at}"
        path = " ".join(self.moved(spot, piece.row) for spot in piece.curve)
        if piece.is_last and line.tip is not None:
            return {**found, **piece.shown, "pos": f"e,{self.moved(line.tip, piece.row)} {path}"}
        return {**found, **piece.shown, "arrowhead": "none", "pos": path}

    def torn(self) -> Iterator[str]:
        """A dotted line at each end of a row that goes on in another one."""
        for number, cut in enumerate(self.cuts):
            for row in (number, number + 1):
                spots = [(cut, height) for height in self.heights(row)]
                ends = [f"{side} of row {row}, {end}" for side in ["right" if row == number else "left"] for end in ("below", "above")]
                for end, spot in zip(ends, spots):
                    yield f'{quoted(end)} [style=invis shape=point width=0.01 label="" pos="{self.moved(spot, row)}"];'
                path = " ".join(self.moved(spot, row) for spot in (spots[0], spots[0], spots[1], spots[1]))
                yield f'{quoted(ends[0])} -> {quoted(ends[1])} [class=cut style=dotted color="#667380" arrowhead=none pos="{path}"];'

    def text(self, note: str = "") -> str:
        """All of it, with a note below."""
        widths = [x - self.left[bisect(self.cuts, x)] for box in self.drawing.boxes for x in [box.middle[0] + box.width / 2]]
        below = [f'"the note" [shape=plaintext label={quoted(note)} fontcolor="#bb2222" fontname="sans-serif" fontsize=11 '
                 f'pos="{spelled((max(widths, default=0.0) / 2, self.bottom - 6.0 * note.count(chr(92) + "l")))}"];'] if note else []
        return "\n".join(["digraph g {", *self.boxes(), *self.lines(), *self.torn(), *below, "}"])
