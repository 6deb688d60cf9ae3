"""Somebody's claim of a rate."""
from __future__ import annotations

import re
from fractions import Fraction

from sdf3companion import words


class Claim:
    """A rate that somebody names: one exactly, or all that round to its digits."""

    def __init__(self, text: str) -> None:
        self.text = text
        rounded = re.fullmatch(r"~(\d+)(?:\.(\d*))?(?:[eE]([-+]?\d{1,3}))?", text.strip(), re.ASCII)
        self.rate = words.number(text.strip()[1:]) if rounded else words.rate(text)
        digit = int(rounded[3] or 0) - len(rounded[2] or "") if rounded else 0
        self.slack = Fraction(10) ** digit / 2 if rounded else Fraction(0)

    def verdict(self, rate: Fraction) -> str:
        """`confirmed`, or in which direction the claim is wrong."""
        if abs(rate - self.rate) <= self.slack:
            return "confirmed"
        return "too fast" if self.rate > rate else "too slow"
