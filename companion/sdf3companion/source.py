"""A file of another program: its tree, the changes that are made to it, and its root in the form that the analyser reads."""
from __future__ import annotations

from typing import List, Sequence, Tuple
from xml.etree.ElementTree import Element

from sdf3companion import scenario_forms, xmltree
from sdf3companion.faults import FORM, Fault

KINDS = ("sdf", "csdf", "fsmsadf")
Section = Tuple[Element, Element]
"""A graph and its properties."""


class Source:
    """A file that is adapted: its tree, and the changes that were made."""

    def __init__(self, path: str, root: Element, changes: Sequence[str] = ()) -> None:
        self.path, self.root, self.changes = path, root, list(changes)

    @classmethod
    def read(cls, path: str, data: bytes) -> "Source":
        reader = xmltree.parsed(data, path)
        return cls(path, reader.root, reader.notes)

    def fault(self, element: Element, line: str, status: int = FORM) -> Fault:
        """The fault that something stands at an element that can't be kept."""
        row, column = xmltree.place_of(element)
        return Fault(status, f"{self.path}: line {row}, column {column}: {line}")

    def changed(self, line: str) -> None:
        """Notes a change, once."""
        if line not in self.changes:
            self.changes.append(line)

    def application(self) -> Element:
        found = self.root.findall("applicationGraph")
        if len(found) != 1:
            raise self.fault(found[1] if found else self.root, f"there has to be one applicationGraph, and there are {len(found)}")
        return found[0]

    @property
    def is_scenarios(self) -> bool:
        return self.root.get("type") == "fsmsadf"

    def sections(self) -> List[Section]:
        """Each graph with its properties: one, or one by scenario."""
        application = self.application()
        holders = application.findall("fsmsadf/scenario") if self.is_scenarios else [application]
        kind = "sdf" if self.is_scenarios else self.root.get("type") or ""
        return [(self.only(holder, kind), self.only(holder, f"{kind}Properties")) for holder in holders]

    def only(self, holder: Element, tag: str) -> Element:
        found = holder.findall(tag)
        if len(found) != 1:
            raise self.fault(found[1] if found else holder, f"there has to be one {tag} in {holder.tag}, and there are {len(found)}")
        return found[0]


def plain_names(source: Source) -> None:
    """Leaves prefixes of name spaces out of tags, and line ends out of attributes."""
    for element in source.root.iter():
        if ":" in element.tag:
            element.tag = element.tag.rpartition(":")[2]
            source.changed("prefixes of name spaces are left out")
        for name, value in element.attrib.items():
            element.set(name, value.translate({9: " ", 10: " ", 13: " "}))


def name_kind(source: Source) -> None:
    """Gives the root the word of its kind."""
    root = source.root
    if root.tag != "sdf3":
        hint = "; PREESM writes this form by its export to SDF3" if root.tag == "graphml" else ""
        raise source.fault(root, f"the root is {root.tag}, and has to be sdf3{hint}")
    application = source.application()
    named = (root.get("type") or "").lower()
    held: List[str] = [kind for kind in KINDS if application.find(kind) is not None]
    kind = named if named in KINDS else held[0] if held else None
    if kind is None:
        raise source.fault(application, f"there is none of {', '.join(KINDS)} in applicationGraph")
    if kind != root.get("type"):
        root.set("type", kind)
        source.changed(f"the type is {kind}")
    if kind == "fsmsadf" and scenario_forms.adapt(source, application):
        source.changed("scenarios are written with a graph and times in each")
