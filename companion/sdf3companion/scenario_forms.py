"""Gives the scenarios of an SDF3 file the form that the analyser reads: a graph and its times in each scenario."""
from __future__ import annotations

from typing import TYPE_CHECKING, Dict, Mapping, Optional
from xml.etree import ElementTree
from xml.etree.ElementTree import Element

from sdf3companion import xmltree

if TYPE_CHECKING:
    from sdf3companion.source import Source


def placed(tag: str, like: Element, **attributes: Optional[str]) -> Element:
    """A new element that has the place of another."""
    element = xmltree.Element(tag, {name: value for name, value in attributes.items() if value is not None})
    element.place = xmltree.place_of(like)
    return element


def either(element: Element, *names: str) -> Optional[str]:
    """The first attribute of some names that an element has."""
    return next((element.get(name) for name in names if element.get(name) is not None), None)


def graphs_of(section: Element) -> Dict[Optional[str], Element]:
    """The graphs of scenarios by name, under both spellings of their tag."""
    return {graph.get("name"): graph for tag in ("scenariograph", "scenarioGraph") for graph in section.findall(tag)}


def properties_of(scenario: Element, graph: Element, default: Optional[Element]) -> Element:
    """A scenario's own properties, and the default ones of actors and channels that have none of their own."""
    found = placed("sdfProperties", scenario)
    for kind in ("actor", "channel"):
        tag = f"{kind}Properties"
        own = scenario.findall(tag)
        named = {row.get(kind) for row in own}
        there = {row.get("name") for row in graph.findall(kind)}
        rest = [row for row in (default.findall(tag) if default is not None else []) if row.get(kind) in there - named]
        found.extend([*own, *rest])
    return found


def scenario_of(source: Source, scenario: Element, drawn: Mapping[Optional[str], Element], default: Optional[Element]) -> Element:
    """A scenario in the analyser's form."""
    graph = drawn.get(scenario.get("graph"))
    if graph is None:
        raise source.fault(scenario, f"there is no graph {scenario.get('graph')!r} for scenario {scenario.get('name')!r}")
    new = placed("scenario", scenario, name=scenario.get("name"))
    section = placed("sdf", graph, name=graph.get("name"), type=graph.get("type") or "G")
    section.extend(list(graph))
    new.extend([section, properties_of(scenario, graph, default)])
    return copied(new)


def copied(element: Element) -> Element:
    """A copy of a tree that keeps the places; scenarios share graphs, and each scales its own times."""
    new = placed(element.tag, element, **element.attrib)
    new.text, new.tail = element.text, element.tail
    new.extend([copied(child) for child in element])
    return new


def automaton_of(automaton: Element) -> Element:
    new = placed("fsm", automaton, initialState=either(automaton, "initialstate", "initialState"))
    for state in automaton.findall("state"):
        row = placed("state", state, name=state.get("name"), scenario=state.get("scenario"))
        for tag in ("nextstate", "nextState", "next"):
            row.extend([placed("next", onward, state=either(onward, "name", "state")) for onward in state.findall(tag)])
        new.append(row)
    return new


def adapt(source: Source, application: Element) -> bool:
    """Rewrites the scenario section of a file of SDF3; whether there was something to rewrite."""
    section, properties = application.find("fsmsadf"), application.find("fsmsadfProperties")
    if section is None or not graphs_of(section):
        return False
    drawn = graphs_of(section)
    listed = properties.find("scenarios") if properties is not None else None
    automaton = next((tree.find("fsm") for tree in (properties, section) if tree is not None and tree.find("fsm") is not None), None)
    if properties is None or listed is None or automaton is None:
        raise source.fault(section, "a file of scenarios needs fsmsadfProperties with scenarios, and an fsm")
    new = placed("fsmsadf", section)
    default = properties.find("defaultProperties")
    new.extend([scenario_of(source, scenario, drawn, default) for scenario in listed.findall("scenario")])
    new.append(automaton_of(automaton))
    application.remove(section)
    application.remove(properties)
    application.append(new)
    ElementTree.indent(new)
    return True
