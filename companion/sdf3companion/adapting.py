"""Makes a file of another tool one that the analyser reads, in memory: for `adapt`, and for every companion that is given such a file."""
from __future__ import annotations

import tempfile
from fractions import Fraction
from typing import TYPE_CHECKING, Dict, Mapping, Optional
from xml.etree import ElementTree
from xml.etree.ElementTree import Element

from sdf3companion import scaling, words, xmltree
from sdf3companion.source import Source, name_kind, plain_names
from sdf3companion.units import scale_in

if TYPE_CHECKING:
    from sdf3companion.analyser import Analyser


def repetition_by(analyser: Analyser) -> scaling.Repetition:
    """Asks the analyser for the repetition vector of a section by the file's names; of its times only the number of phases counts."""
    def ask(section: Element, phases: Mapping[str, int]) -> Mapping[str, int]:
        root = Element("sdf3", {"type": "csdf", "version": "1.0"})
        holder = ElementTree.SubElement(root, "applicationGraph", {"name": "g"})
        ElementTree.SubElement(holder, "csdf", {"name": "g", "type": "G"}).extend(list(section))
        properties = ElementTree.SubElement(holder, "csdfProperties")
        for name, number in phases.items():
            row = ElementTree.SubElement(properties, "actorProperties", {"actor": name})
            ElementTree.SubElement(ElementTree.SubElement(row, "processor"), "executionTime", {"time": f"{number}*1"})
        with tempfile.NamedTemporaryFile(suffix=".xml") as file:
            file.write(xmltree.written(root))
            file.flush()
            return analyser.repetition(file.name)
    return ask


def tell_scale(source: Source) -> None:
    """Notes how the times were scaled, for who asks the analyser itself about the new file."""
    scale = scale_in(source.root)
    if scale.plain_factor != 1:
        source.changed(f"times are multiplied by {scale.plain_factor}, which the file says, so that companions tell rates by its own times")
    if scale.has_zero:
        bound = "no cycle has more rounds than" if source.is_scenarios else "its numerator is at most"
        source.changed(f"times of zero are 1, and the others are multiplied by {scale.zero_factor} besides: of a `cycle W H` that the analyser prints "
                       f"the rate is H * {scale.plain_factor} / (W div {scale.zero_factor}), exactly where {bound} {scale.exact}")


def adapted(analyser: Analyser, path: str, data: bytes, exact: int = scaling.EXACT) -> Source:
    """A file as the analyser reads it, with the changes that were made."""
    source = Source.read(path, data)
    plain_names(source)
    name_kind(source)
    scaling.unscale(source)
    scale = scaling.scale_of(source, source.sections(), repetition_by(analyser), exact)
    if scaling.apply(source, source.sections(), scale) and scale.factor == 1:
        source.changed("times are written as whole numbers")
    return source


def buffer_sizes(source: Source) -> Dict[str, int]:
    """The file's own capacities by channel; a self-loop has none."""
    found: Dict[str, int] = {}
    for section, properties in source.sections() if not source.is_scenarios else []:
        loops = {channel.get("name") for channel in section.findall("channel") if channel.get("srcActor") == channel.get("dstActor")}
        for row in properties.findall("channelProperties"):
            name, size = row.get("channel") or "", row.find("bufferSize")
            text = (size.get("sz") or "").strip() if size is not None else ""
            if size is not None and text and not (text.lstrip("-").isdecimal() and text.isascii()):
                raise source.fault(size, f"a buffer size is no whole number: {text}")
            if text and not text.startswith("-") and name not in loops:
                found[name] = int(text)
    return found


def constraint(source: Source) -> Optional[Fraction]:
    """The file's throughput constraint, as a rate by its own times; None where there is none."""
    element = source.root.find("applicationGraph//timeConstraints/throughput")
    text = (element.text or "").strip() if element is not None else ""
    try:
        rate = words.number(text or "0")
    except (ValueError, ZeroDivisionError):
        raise source.fault(element if element is not None else source.root, f"the throughput constraint is no number: {text}") from None
    return rate if rate > 0 else None
