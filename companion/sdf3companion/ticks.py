"""Round numbers along an axis, and decimals beside fractions."""
from __future__ import annotations

from fractions import Fraction
from math import ceil, floor, log10

DIGITS = 6
"""How many digits of a decimal are shown."""


def ticks(low: float, high: float, most: int) -> list[float]:
    """Numbers between two, about so many, at steps of 1, 2 or 5 times a power of ten."""
    rough = (high - low) / max(1, most) or 1.0
    power = 10.0 ** floor(log10(rough))
    step = next(times * power for times in (1, 2, 5, 10) if times * power >= rough * 0.999)
    return [number * step for number in range(ceil(low / step - 1e-9), floor(high / step + 1e-9) + 1)]


def decimal(value: float | Fraction) -> str:
    """A number as a decimal of so many digits."""
    return f"{float(value):.{DIGITS}g}"
