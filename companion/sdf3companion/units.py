"""The units of the user's file beside those of the analyser, which takes whole times of at least 1.

Times that aren't whole are multiplied by one factor for all. Where some are zero, those become 1 and all others are multiplied by a large
number K besides: a cycle of time T with z firings that take no time then takes K T + z. A file that was scaled says so in an element,
which the analyser passes over:

    <timeScale factor='60' zeroFactor='10' zeroFirings='1' exact='9'/>

in the root. `factor` has the zero factor in it. So the file's own time of t is 0 where the zero factor isn't 1 and t is 1, and else t
divided by the factor.
"""
from __future__ import annotations

from dataclasses import dataclass
from fractions import Fraction
from math import lcm
from typing import Dict, List, Mapping, Optional, Sequence
from xml.etree.ElementTree import Element

from sdf3companion.answers import Time, exact
from sdf3companion.faults import LIMIT, Fault

MOST_TIME = 10**9
"""The greatest time that the analyser takes."""
TAG = "timeScale"


@dataclass(frozen=True)
class Scale:
    """The factor of all times; its part K that is there for times of zero, and the firings of time zero in a round. Rates are
    exact up to the numerator `exact`, those of scenarios on cycles of up to so many rounds."""

    factor: Fraction = Fraction(1)
    zero_factor: int = 1
    zero_firings: int = 0
    exact: int = 0

    @property
    def plain_factor(self) -> Fraction:
        """The factor but for the times of zero."""
        return self.factor / self.zero_factor

    @property
    def has_zero(self) -> bool:
        return self.zero_factor > 1

    def scaled_rate(self, rate: Fraction) -> Fraction:
        """What a wanted rate by the file's times is by the new ones: where firings take no time, the least that it may become."""
        return 1 / (self.factor / rate + self.zero_firings)

    def own(self, time: int) -> Time:
        """A time of the scaled file by the user's file: of one firing, or of several on a way with fewer of time zero than K."""
        return exact(Fraction(time // self.zero_factor) / self.plain_factor if self.has_zero else time / self.factor)

    def element(self) -> Element:
        """The element by which a file says how it was scaled."""
        return Element(TAG, {"factor": str(self.factor), "zeroFactor": str(self.zero_factor), "zeroFirings": str(self.zero_firings),
                             "exact": str(self.exact)})


def scale_in(root: Element) -> Scale:
    """How the file of a root was scaled; a file that says nothing of it wasn't."""
    element = root.find(TAG)
    if element is None:
        return Scale()
    try:
        parts = {name: Fraction(element.get(name, "")) for name in ("factor", "zeroFactor", "zeroFirings", "exact")}
        scale = Scale(parts["factor"], int(parts["zeroFactor"]), int(parts["zeroFirings"]), int(parts["exact"]))
    except (ValueError, ZeroDivisionError):
        scale = Scale(Fraction(0))
    if scale.factor <= 0 or scale.zero_factor < 1 or scale.zero_firings < 0:
        raise Fault(3, f"the element {TAG} has another form; `adapt` writes it")
    return scale


def put_scale(root: Element, scale: Scale) -> None:
    """Says in a file how it is scaled."""
    for old in root.findall(TAG):
        root.remove(old)
    if scale.factor != 1:
        root.append(scale.element())


def common_factor(times: Mapping[str, Sequence[Time]]) -> Fraction:
    """The least factor that makes times whole."""
    return Fraction(lcm(*(time.denominator for line in times.values() for time in line)))


def scale_for(times: Mapping[str, Sequence[Time]], repetition: Optional[Mapping[str, int]] = None, zero_factor: int = 10) -> Scale:
    """The scale of times by actor. Where some are zero it takes the firings of a round, and a zero factor."""
    factor = common_factor(times)
    if repetition is None or all(all(line) for line in times.values()):
        return Scale(factor)
    firings = sum(repetition[name] * list(line).count(0) // len(line) for name, line in times.items())
    return Scale(factor * zero_factor, zero_factor, firings, (zero_factor - 1) // max(firings, 1))


def scaled(times: Mapping[str, Sequence[Time]], scale: Scale) -> Dict[str, List[int]]:
    """Times as the analyser takes them."""
    found = {name: [int(time * scale.factor) or 1 for time in line] for name, line in times.items()}
    most = max((time for line in found.values() for time in line), default=0)
    if most > MOST_TIME:
        raise Fault(LIMIT, f"times have to be multiplied by {scale.factor}, which makes one greater than {MOST_TIME}")
    return found
