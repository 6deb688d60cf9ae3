"""Reads XML of any encoding that Python's expat knows into elements that know their places."""
from __future__ import annotations

from typing import Any, Dict, List, Optional, Tuple
from xml.etree import ElementTree
from xml.parsers import expat

from sdf3companion.faults import FORM, Fault

DEPTH = 256
"""How many elements may be open at one place; the analyser takes 32."""


class Element(ElementTree.Element):
    """An element with the line and the column, both from 1, at which its tag begins."""

    place: Tuple[int, int] = (0, 0)


def place_of(element: ElementTree.Element) -> Tuple[int, int]:
    """The line and the column of an element, (0, 0) where it didn't come from a text."""
    return element.place if isinstance(element, Element) else (0, 0)


class Reader:
    """Builds the tree, and notes which forms stood in the text that don't stay in it."""

    def __init__(self, name: str) -> None:
        self.name = name
        self.tree: Optional[Element] = None
        self.notes: List[str] = []
        self.open: List[Element] = []
        self.parser = expat.ParserCreate()
        self.parser.buffer_text = True
        self.parser.StartElementHandler = self.start
        self.parser.EndElementHandler = self.end
        self.parser.CharacterDataHandler = self.text
        self.parser.XmlDeclHandler = self.declaration
        self.parser.StartDoctypeDeclHandler = self.noting("the document type is left out")
        self.parser.StartCdataSectionHandler = self.noting("CDATA sections became text")
        self.parser.ProcessingInstructionHandler = self.noting("processing instructions are left out")
        self.parser.CommentHandler = self.noting("comments are left out")

    @property
    def root(self) -> Element:
        """The root of a text that was read."""
        assert self.tree is not None, "a text that expat accepts has a root"
        return self.tree

    def noting(self, line: str) -> Any:
        """What notes a line, whatever expat tells with it."""
        def handler(*_: object) -> None:
            self.note(line)
        return handler

    def note(self, line: str) -> None:
        if line not in self.notes:
            self.notes.append(line)

    def declaration(self, _version: str, encoding: Optional[str], _standalone: int) -> None:
        if encoding and encoding.lower() != "utf-8":
            self.note(f"the encoding {encoding} became UTF-8")

    def start(self, tag: str, attributes: Dict[str, str]) -> None:
        element = Element(tag, attributes)
        element.place = (self.parser.CurrentLineNumber, self.parser.CurrentColumnNumber + 1)
        if len(self.open) == DEPTH:
            raise Fault(FORM, f"{self.name}: line {element.place[0]}, column {element.place[1]}: more than {DEPTH} elements are open here")
        if self.open:
            self.open[-1].append(element)
        else:
            self.tree = element
        self.open.append(element)

    def end(self, _tag: str) -> None:
        self.open.pop()

    def text(self, characters: str) -> None:
        """Text stands where it stood: before the first child, or behind the last one."""
        last = self.open[-1][-1] if len(self.open[-1]) else None
        if last is None:
            self.open[-1].text = (self.open[-1].text or "") + characters
        else:
            last.tail = (last.tail or "") + characters

    def read(self, data: bytes) -> "Reader":
        try:
            self.parser.Parse(data, True)
        except (expat.ExpatError, ValueError, LookupError) as fault:
            line, column = self.parser.CurrentLineNumber, self.parser.CurrentColumnNumber + 1
            raise Fault(FORM, f"{self.name}: line {line}, column {column}: {str(fault).partition(':')[0]}") from fault
        if b"&#" in data:
            self.note("character references became characters")
        return self


def parsed(data: bytes, name: str) -> Reader:
    """The reader of a text, done: its root, and what it noted."""
    return Reader(name).read(data)


def written(root: ElementTree.Element) -> bytes:
    """The text of a file with a root."""
    text: bytes = ElementTree.tostring(root, encoding="utf-8")
    return b'<?xml version="1.0" encoding="UTF-8"?>\n' + text + b"\n"


def property_row(properties: Optional[ElementTree.Element], kind: str, name: str) -> Optional[ElementTree.Element]:
    """The properties of an actor or a channel; None where the file gives none."""
    rows = properties.findall(f"{kind}Properties") if properties is not None else []
    return next((row for row in rows if row.get(kind) == name), None)


def time_element(properties: Optional[ElementTree.Element], name: str) -> Optional[ElementTree.Element]:
    """The element of the time that counts: of an actor's first default processor, or else of its first one."""
    row = property_row(properties, "actor", name)
    processors = row.findall("processor") if row is not None else []
    chosen = next((one for one in processors if one.get("default") == "true"), processors[0] if processors else None)
    return chosen.find("executionTime") if chosen is not None else None
