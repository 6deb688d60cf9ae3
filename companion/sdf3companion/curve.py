"""The trade-off of storage and rate as a step curve in SVG: the rate that each storage allows, and a mark at each point."""
from __future__ import annotations

from fractions import Fraction
from html import escape
from typing import Iterator, Sequence, Tuple

from sdf3companion.ticks import decimal, ticks
from sdf3companion.words import fraction

WIDTH, HEIGHT, LEFT, BOTTOM, MARGIN = 640, 400, 84, 52, 20
"""Pixels: of the whole, left of the rates, below the storage, above and to the right."""
TICKS = 6
"""How many numbers an axis has, about."""
MOST_RADIUS, LEAST_RADIUS = 4.0, 1.4
"""Pixels: of a point where there are few, and where there are many."""
STYLE = ("<style>text{font:12px sans-serif;fill:#333}.grid{stroke:#ddd}.axis{stroke:#555;fill:none}.step{stroke:#446688;stroke-width:2;fill:none}"
         ".point{fill:#bb3333}</style>")
Pair = Tuple[int, Fraction]


class Axes:
    """Where a storage and a rate lie in the picture."""

    def __init__(self, points: Sequence[Pair]) -> None:
        span = max(1, points[-1][0] - points[0][0])
        self.low, self.high = points[0][0] - Fraction(span, 20), points[-1][0] + Fraction(span, 10)
        self.top = points[-1][1] * Fraction(11, 10)

    def x(self, storage: Fraction) -> float:
        return LEFT + float((storage - self.low) / (self.high - self.low)) * (WIDTH - LEFT - MARGIN)

    def y(self, rate: Fraction) -> float:
        return HEIGHT - BOTTOM - float(rate / self.top) * (HEIGHT - BOTTOM - MARGIN)


def steps(axes: Axes, points: Sequence[Pair]) -> str:
    """The line of the rate that each storage allows."""
    path = [f"M{axes.x(Fraction(points[0][0])):.1f} {axes.y(Fraction(0)):.1f}"]
    path += [f"H{axes.x(Fraction(storage)):.1f}V{axes.y(rate):.1f}" for storage, rate in points]
    return "".join([*path, f"H{WIDTH - MARGIN}"])


def mark(axes: Axes, point: Pair, radius: float) -> str:
    storage, rate = point
    return (f"<circle class='point' cx='{axes.x(Fraction(storage)):.1f}' cy='{axes.y(rate):.1f}' r='{radius:.1f}'>"
            f"<title>storage {storage}, rate {fraction(rate)} ({decimal(rate)})</title></circle>")


def label(x: float, y: float, anchor: str, text: str) -> str:
    return f"<text x='{x:.1f}' y='{y:.1f}' text-anchor='{anchor}'>{escape(text)}</text>"


def grid(axes: Axes) -> Iterator[str]:
    """Lines at round numbers, with the numbers."""
    floor = HEIGHT - BOTTOM
    for storage in ticks(float(axes.low), float(axes.high), TICKS):
        if storage == int(storage):
            x = axes.x(Fraction(storage))
            yield f"<path class='grid' d='M{x:.1f} {MARGIN}V{floor}'/>{label(x, floor + 18, 'middle', str(int(storage)))}"
    for rate in ticks(0, float(axes.top), TICKS):
        y = axes.y(Fraction(rate))
        yield f"<path class='grid' d='M{LEFT} {y:.1f}H{WIDTH - MARGIN}'/>{label(LEFT - 8, y + 4, 'end', decimal(rate))}"


def svg(points: Sequence[Pair]) -> str:
    """The curve of pairs of storage and rate, which rise; there is one."""
    axes = Axes(points)
    radius = min(MOST_RADIUS, max(LEAST_RADIUS, (WIDTH - LEFT - MARGIN) / len(points) / 2.2))
    return "\n".join([
        f"<svg xmlns='http://www.w3.org/2000/svg' role='img' aria-label='trade-off of storage and rate, {len(points)} points' "
        f"viewBox='0 0 {WIDTH} {HEIGHT}' width='{WIDTH}' height='{HEIGHT}'>",
        f"{STYLE}<rect width='100%' height='100%' fill='white'/>", *grid(axes),
        f"<path class='axis' d='M{LEFT} {MARGIN}V{HEIGHT - BOTTOM}H{WIDTH - MARGIN}'/>", f"<path class='step' d='{steps(axes, points)}'/>",
        *(mark(axes, point, radius) for point in points), label((LEFT + WIDTH - MARGIN) / 2, HEIGHT - 12, "middle", "storage"),
        label(LEFT, MARGIN - 6, "middle", "rate (rounds per time unit)"), "</svg>\n"])
