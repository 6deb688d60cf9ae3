"""Makes the times of a file whole numbers of at least 1, as the analyser counts them, by one factor for all.

Times of zero become 1 where all others are multiplied by a large number K besides. With z firings of time zero on a cycle
of time T and h rounds, the cycle then takes K T + z. Let Z be how many such firings a round has; no cycle that passes each
firing of a round once has more. For two cycles with T1/h1 > T2/h2, and T1/h1 = p/q in lowest terms, the difference is at
least 1/(q h2), so that K T1/h1 is above (K T2 + z2)/h2 where K is above Z q: the first stays the slower one. And where K is
above Z, T is K T + z divided by K, rounded down. Rounds of scenarios follow each other on a cycle, which has Z such firings
in each; there q has to be times the rounds of the other cycle.
"""
from __future__ import annotations

from fractions import Fraction
from math import isqrt, lcm
from typing import Callable, Dict, List, Mapping, Sequence, Tuple
from xml.etree.ElementTree import Element

from sdf3companion import units, words, xmltree
from sdf3companion.faults import LIMIT, Fault
from sdf3companion.parts import strong_parts
from sdf3companion.source import Section, Source
from sdf3companion.units import MOST_TIME, Scale

EXACT = 9
"""Up to which numerator rates are exact at least, where times are zero."""
Repetition = Callable[[Element, Mapping[str, int]], Mapping[str, int]]
"""Asks for the firings of a round, of a section and the number of phases of each actor."""


def items(source: Source, element: Element) -> List[Tuple[str, Fraction]]:
    """The items of a list of times, each with the text before it: `3*` where it stands for three."""
    found: List[Tuple[str, Fraction]] = []
    for item in (element.get("time") or "").split(","):
        times, star, value = item.rpartition("*")
        if star and not (times.strip().isdecimal() and int(times) > 0):
            raise source.fault(element, f"how often a time stands there is no number from 1: {times.strip()!r}")
        try:
            found.append((times.strip() + star, words.number(value.strip())))
        except (ValueError, ZeroDivisionError):
            raise source.fault(element, f"a time is no number: {value.strip()!r}") from None
        if found[-1][1] < 0:
            raise source.fault(element, f"a time is below zero: {value.strip()}")
    return found


def times_of(source: Source, section: Element, properties: Element) -> Dict[str, Element]:
    """By actor the element of the time that counts; each actor has to have one."""
    found: Dict[str, Element] = {}
    for actor in section.findall("actor"):
        name = actor.get("name") or ""
        element = xmltree.time_element(properties, name)
        if element is None:
            raise source.fault(actor, f"actor {name} has no executionTime")
        found[name] = element
    return found


def values(source: Source, element: Element) -> List[Fraction]:
    return [value for _, value in items(source, element)]


def other_values(source: Source, properties: Element, counted: Mapping[str, Element]) -> List[Fraction]:
    """The times of processors that don't count, as far as they are numbers."""
    found: List[Fraction] = []
    known = {id(element) for element in counted.values()}
    for element in properties.iter("executionTime"):
        if id(element) not in known:
            try:
                found += values(source, element)
            except Fault:
                continue
    return found


def refuse_zero_cycle(source: Source, section: Element, times: Mapping[str, Element]) -> None:
    """Cycles of two or more actors that take no time are refused at the first of them, and so is a graph without any time."""
    idle = [name for name, element in times.items() if not any(values(source, element))]
    if idle and len(idle) == len(times):
        raise source.fault(times[idle[0]], "no actor takes any time, so there is no rate")
    ways = [(channel.get("srcActor") or "", channel.get("dstActor") or "") for channel in section.findall("channel")]
    parts = strong_parts(idle, [(start, end) for start, end in ways if start in idle and end in idle])
    held = next((name for name in idle for part in parts if name in part and len(part) > 1), None)
    if held is not None:
        part = next(part for part in parts if held in part)
        raise source.fault(times[held], f"the times on a cycle are all zero: {', '.join(name for name in idle if name in part)}")


def phases_of(source: Source, element: Element) -> List[Fraction]:
    """The times of a list, each as often as it stands for."""
    return [value for before, value in items(source, element) for _ in range(int(before.rstrip("*") or 1))]


def zero_firings(source: Source, section: Element, times: Mapping[str, Element], repetition_of: Repetition) -> int:
    """How many firings of a round take no time."""
    phases = {name: phases_of(source, element) for name, element in times.items()}
    repetition = repetition_of(section, {name: len(line) for name, line in phases.items()})
    return sum(repetition[name] * line.count(Fraction(0)) // len(line) for name, line in phases.items())


def scale_of(source: Source, sections: Sequence[Section], repetition_of: Repetition, wanted: int = EXACT) -> Scale:
    """The scale for all sections of a file: one, or one by scenario. `repetition_of(section, phases)` is asked only where times are zero."""
    times = [(section, times_of(source, section, properties)) for section, properties in sections]
    counted = [value for _, found in times for element in found.values() for value in values(source, element)]
    if not counted:
        raise source.fault(source.root, "there is no actor")
    others = [value for (_, found), (_, properties) in zip(times, sections) for value in other_values(source, properties, found)]
    factor = Fraction(lcm(*(value.denominator for value in [*counted, *others])))
    return zero_scale(source, times, factor, wanted, repetition_of) if 0 in counted else Scale(factor)


def zero_scale(source: Source, times: Sequence[Tuple[Element, Mapping[str, Element]]], factor: Fraction, wanted: int,
               repetition_of: Repetition) -> Scale:
    """The scale where times are zero, by the least power of ten that makes rates exact as far as wanted: the greater it is, the
    longer self-timed execution may take to come round."""
    for section, found in times:
        refuse_zero_cycle(source, section, found)
    firings = max(zero_firings(source, section, found, repetition_of) for section, found in times)
    is_sequence = source.root.get("type") == "fsmsadf"
    zero_factor = 10
    while (zero_factor - 1) // firings < (wanted**2 if is_sequence else wanted):
        zero_factor *= 10
    most, element = max(((max(values(source, element)), element) for _, found in times for element in found.values()), key=lambda pair: pair[0])
    if most * factor * zero_factor > MOST_TIME:
        raise source.fault(element, f"{firings} firings of a round take no time, so that all times have to be multiplied by {factor * zero_factor}, "
                           f"which makes this one greater than {MOST_TIME}", LIMIT)
    exact = (zero_factor - 1) // firings
    return Scale(factor * zero_factor, zero_factor, firings, isqrt(exact) if is_sequence else exact)


def apply(source: Source, sections: Sequence[Section], scale: Scale) -> bool:
    """Multiplies all times, those of processors that don't count too, where they are numbers. Whether some text changed."""
    is_changed = False
    for section, properties in sections:
        counted = {id(element) for element in times_of(source, section, properties).values()}
        for element in properties.iter("executionTime"):
            try:
                new = ",".join(before + str(value * scale.factor or 1) for before, value in items(source, element))
            except Fault:
                if id(element) in counted:
                    raise
            else:
                is_changed |= new != element.get("time")
                element.set("time", new)
    units.put_scale(source.root, scale)
    return is_changed


def unscale(source: Source) -> None:
    """Gives the times of a file that was scaled before as they were."""
    scale = units.scale_in(source.root)
    units.put_scale(source.root, Scale())
    for _, properties in source.sections() if scale.factor != 1 else []:
        for element in properties.iter("executionTime"):
            try:
                own = [(before, scale.own(int(value))) for before, value in items(source, element)]
            except Fault:
                continue
            element.set("time", ",".join(before + str(value) for before, value in own))
