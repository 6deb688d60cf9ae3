"""Files of other programs, and what becomes of them."""
import json
from pathlib import Path
from typing import Dict, Union

import pytest

from sdf3companion import graphs, xmltree
from sdf3companion.analyser import Analyser
from tests.conftest import Example, GraphFile, Run

RING = """<?xml version="1.0" encoding="{encoding}"?>
<!DOCTYPE sdf3 SYSTEM "sdf3.dtd">
<s:sdf3 type="SDF" version="1.0" xmlns:s="urn:s">
 <s:applicationGraph name="g">
  <s:sdf name="g" type="G">
   <actor name="{name}" type="x"><port name="o" type="out" rate="1"/><port name="i" type="in" rate="1"/></actor>
   <actor name="y" type="y"><port name="i" type="in" rate="1"/><port name="o" type="out" rate="1"/></actor>
   <channel name="xy" srcActor="{name}" srcPort="o" dstActor="y" dstPort="i"/>
   <channel name="yx" srcActor="y" srcPort="o" dstActor="{name}" dstPort="i" initialTokens="&#49;"/>
  </s:sdf>
  <s:sdfProperties>
   <actorProperties actor="{name}"><processor type="p" default="true"><executionTime time="{first}"/></processor></actorProperties>
   <actorProperties actor="y"><processor type="p" default="true"><executionTime time="{second}"/></processor></actorProperties>
   <channelProperties channel="xy"><bufferSize sz="4"/></channelProperties>
   <graphProperties><timeConstraints><throughput><![CDATA[{wanted}]]></throughput></timeConstraints></graphProperties>
  </s:sdfProperties>
 </s:applicationGraph>
</s:sdf3>
"""

SCENARIOS = """<sdf3 type="fsmsadf"><applicationGraph name="g">
 <fsmsadf><scenariograph name="one"><actor name="a"><port name="o" type="out" rate="1"/><port name="i" type="in" rate="1"/></actor>
  <channel name="c" srcActor="a" srcPort="o" dstActor="a" dstPort="i" initialTokens="1"/></scenariograph></fsmsadf>
 <fsmsadfProperties>
  <defaultProperties><actorProperties actor="a"><processor type="p" default="true"><executionTime time="1.5"/></processor></actorProperties></defaultProperties>
  <scenarios><scenario name="s" graph="one"/><scenario name="t" graph="{graph}">
   <actorProperties actor="a"><processor type="p" default="true"><executionTime time="4"/></processor></actorProperties></scenario></scenarios>
  <fsm initialstate="q"><state name="q" scenario="s"><nextstate name="r"/></state><state name="r" scenario="t"><nextstate name="q"/></state></fsm>
 </fsmsadfProperties></applicationGraph></sdf3>
"""


def ring(encoding: str = "ISO-8859-1", name: str = "x", first: str = "2", second: str = "3", wanted: str = "0.2") -> bytes:
    return RING.format(encoding=encoding, name=name, first=first, second=second, wanted=wanted).encode(encoding)


def rate_by(analyser: Analyser, path: Union[str, Path], *words: str) -> str:
    return analyser.run("throughput", str(path), *words).split()[1]


def test_forms_that_the_analyser_refuses(run: Run, analyser: Analyser, graph_file: GraphFile, tmp_path: Path) -> None:
    out = tmp_path / "out.xml"
    status, text, said = run("adapt", graph_file(ring(name="größe")), out)
    assert (status, text) == (0, "--buffers xy=4\n--rate 1/5\n")
    for change in ("encoding ISO-8859-1", "document type", "CDATA", "character references", "prefixes", "the type is sdf"):
        assert change in said
    assert rate_by(analyser, out, "--buffers", "xy=4") == "1/5"
    assert graphs.Graph(xmltree.parsed(out.read_bytes(), "out").root).actors[0].name == "größe"


def test_utf_16(run: Run, analyser: Analyser, graph_file: GraphFile, tmp_path: Path) -> None:
    assert run("adapt", graph_file(ring("UTF-16")), tmp_path / "out.xml")[0] == 0
    assert rate_by(analyser, tmp_path / "out.xml") == "1/5"


def test_fractional_times_and_what_they_make_of_a_constraint(run: Run, analyser: Analyser, graph_file: GraphFile, tmp_path: Path) -> None:
    out = tmp_path / "out.xml"
    status, text, said = run("adapt", graph_file(ring(first="0.5", second="4/3")), out)
    assert (status, text) == (0, "--buffers xy=4\n--rate 1/5\n")
    assert "times are multiplied by 6" in said
    assert rate_by(analyser, out) == "1/11"


def test_times_of_zero(run: Run, analyser: Analyser, graph_file: GraphFile, tmp_path: Path) -> None:
    out = tmp_path / "out.xml"
    status, text, _ = run("adapt", graph_file(ring(first="0")), out, "--json")
    told = json.loads(text)
    assert status == 0
    assert (told["zero_factor"], told["exact_up_to"], told["rate"]) == (10, 9, "1/5")
    assert rate_by(analyser, out) == "1/31"
    status, text, _ = run("adapt", graph_file(ring(first="0")), out, "--json", "--exact", "10")
    assert (status, json.loads(text)["zero_factor"]) == (0, 100)
    assert rate_by(analyser, out) == "1/301"
    assert run("adapt", graph_file(ring()), out, "--exact", "0")[0] == 2


@pytest.mark.parametrize("change, line", [
    ({"first": "0", "second": "0"}, "line 12, column 66: no actor takes any time, so there is no rate"),
    ({"first": "-1"}, "line 12, column 66: a time is below zero: -1"),
    ({"second": "soon"}, "line 13, column 66: a time is no number: 'soon'"),
    ({"wanted": "fast"}, "line 15, column 38: the throughput constraint is no number: fast"),
])
def test_refusals_have_places(run: Run, graph_file: GraphFile, tmp_path: Path, change: Dict[str, str], line: str) -> None:
    path = graph_file(ring(**change))
    status, text, said = run("adapt", path, tmp_path / "out.xml")
    assert (status, text) == (3, "")
    assert said == f"sdf3companion adapt: {path}: {line}\n"
    assert not (tmp_path / "out.xml").exists()


def test_cycle_of_zero_times_beside_others(run: Run, graph_file: GraphFile, tmp_path: Path) -> None:
    third = """<actor name="z" type="z"><port name="i" type="in" rate="1"/></actor>
   <channel name="yz" srcActor="y" srcPort="p" dstActor="z" dstPort="i"/>"""
    text = ring(first="0", second="0").decode("latin-1").replace("""<channel name="xy\"""", third + """<channel name="xy\"""", 1)
    text = text.replace("""<actor name="y" type="y">""", """<actor name="y" type="y"><port name="p" type="out" rate="1"/>""")
    text = text.replace("<channelProperties", """<actorProperties actor="z"><processor><executionTime time="7"/></processor></actorProperties>
   <channelProperties""")
    status, _, said = run("adapt", graph_file(text.encode("latin-1")), tmp_path / "out.xml")
    assert status == 3
    assert "line 13, column 66: the times on a cycle are all zero: x, y" in said


def test_scenarios_of_sdf3(run: Run, analyser: Analyser, graph_file: GraphFile, tmp_path: Path) -> None:
    out = tmp_path / "out.xml"
    status, _, said = run("adapt", graph_file(SCENARIOS.format(graph="one")), out)
    assert status == 0
    assert "times are multiplied by 2" in said
    assert analyser.run("scenario", str(out)).split()[1] == "2/11"
    status, _, said = run("adapt", graph_file(SCENARIOS.format(graph="two")), out)
    assert status == 3
    assert "line 6, column 46: there is no graph 'two' for scenario 't'" in said


@pytest.mark.parametrize("text, status, line", [
    ("<a", 3, "line 1, column 1: unclosed token"),
    ("<html/>", 3, "line 1, column 1: the root is html, and has to be sdf3"),
    ("<graphml/>", 3, "line 1, column 1: the root is graphml, and has to be sdf3; PREESM writes this form by its export to SDF3"),
    ("<sdf3><architectureGraph/></sdf3>", 3, "line 1, column 1: there has to be one applicationGraph, and there are 0"),
])
def test_other_files(run: Run, graph_file: GraphFile, tmp_path: Path, text: str, status: int, line: str) -> None:
    path = graph_file(text)
    assert run("adapt", path, tmp_path / "out.xml") == (status, "", f"sdf3companion adapt: {path}: {line}\n")


def test_files_that_are_not_there(run: Run, example: Example, tmp_path: Path) -> None:
    assert run("adapt", tmp_path / "none.xml", tmp_path / "out.xml")[0] == 10
    assert run("adapt", tmp_path, tmp_path / "out.xml")[0] == 10
    status, _, said = run("adapt", example("ring"), tmp_path / "none" / "out.xml")
    assert status == 10
    assert "can't be written" in said


KITER = """<?xml version="1.0"?>
<sdf3 type="csdf" version="1.0"><applicationGraph name="g"><csdf name="g" type="g">
 <actor name="a" type="a"><port name="o" type="out" rate="1,2"/><port name="i" type="in" rate="1, 0"/></actor>
 <actor name="b" type="b"><port name="i" type="in" rate="3"/><port name="o" type="out" rate="1"/></actor>
 <channel name="c" srcActor="a" srcPort="o" dstActor="b" dstPort="i" initialTokens="0"/>
 <channel name="d" srcActor="b" srcPort="o" dstActor="a" dstPort="i" initialTokens="1"/></csdf>
<csdfProperties>
 <actorProperties actor="a"><processor type="cluster" default="true"><executionTime time="{times}"/></processor></actorProperties>
 <actorProperties actor="b"><processor type="cluster" default="true"><executionTime time="4"/></processor></actorProperties>
 <channelProperties channel="c"><bufferSize sz="-1"/></channelProperties>
</csdfProperties></applicationGraph></sdf3>
"""


def test_phases_of_zero_time(run: Run, analyser: Analyser, graph_file: GraphFile, tmp_path: Path) -> None:
    """In a round a takes 0 and 3 one after the other, and b 4 once both are done: 7 time units, and one for the phase without time."""
    out = tmp_path / "out.xml"
    status, text, said = run("adapt", graph_file(KITER.format(times="0,3")), out)
    assert (status, text) == (0, "")
    assert "multiplied by 10 besides" in said
    assert rate_by(analyser, out) == "1/71"


@pytest.mark.parametrize("times, line", [("0*1,3", "how often a time stands there is no number from 1: '0'"), ("1e9999,3", "a time is no number: '1e9999'"),
                                         ("1,", "a time is no number: ''"), ("1/0,3", "a time is no number: '1/0'")])
def test_lists_that_are_none(run: Run, graph_file: GraphFile, tmp_path: Path, times: str, line: str) -> None:
    path = graph_file(KITER.format(times=times))
    assert run("adapt", path, tmp_path / "out.xml") == (3, "", f"sdf3companion adapt: {path}: line 8, column 70: {line}\n")


def test_times_too_far_apart(run: Run, graph_file: GraphFile, tmp_path: Path) -> None:
    status, _, said = run("adapt", graph_file(KITER.format(times="0,900000000")), tmp_path / "out.xml")
    assert status == 4
    assert "line 8, column 70: 1 firings of a round take no time" in said


@pytest.mark.parametrize("name", ["ring", "chain", "modem", "mp3_player", "two_filters", "video_modes"])
def test_examples_stay_what_they_are(run: Run, analyser: Analyser, example: Example, tmp_path: Path, name: str) -> None:
    out = tmp_path / "out.xml"
    assert run("adapt", example(name), out)[0] == 0
    algorithm = "scenario" if name == "video_modes" else "repetition"
    assert analyser.run(algorithm, str(out)) == analyser.run(algorithm, example(name))
