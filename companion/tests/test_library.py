"""The library, as its page shows it, and where an example would show too little."""
import doctest
import os
import shutil
from fractions import Fraction
from typing import Any, Dict, List, Tuple

import pytest

import sdf3companion as sdf3
from sdf3companion.analyser import ROOT, Analyser
from tests.conftest import Example, GraphFile
from tests.drawn import Drawn

PAGE = os.path.join(ROOT, "docs", "LIBRARY.md")
LOOP = {"actors": {"a": [0, Fraction(3, 2)], "b": 4},
        "channels": [{"from": "a", "to": "b", "made": [1, 2], "taken": 3, "name": "x, y"}, {"from": "b", "to": "a", "taken": [1, 0], "tokens": 1}]}


def test_each_example_of_the_page(analyser: Analyser, monkeypatch: pytest.MonkeyPatch) -> None:
    pytest.importorskip("networkx", reason="python3-networkx isn't installed")
    monkeypatch.setenv("SDF3ANALYSIS", analyser.program)
    monkeypatch.chdir(ROOT)
    sdf3.api.analyser.cache_clear()
    failed, tried = doctest.testfile(PAGE, module_relative=False, encoding="utf-8")
    assert failed == 0 and tried >= 25


def test_a_graph_of_plain_data(analyser: Analyser) -> None:
    """In a round a takes 0 and 3/2, and b 4 after both."""
    graph = sdf3.graph(LOOP)
    assert graph.kind == "csdf" and [channel.name for channel in graph.channels] == ["x, y", "c1"]
    found = sdf3.throughput(graph, program=analyser.program)
    assert found.rate == Fraction(2, 11)
    assert sdf3.repetition(graph, analyser.program) == {"a": 2, "b": 1}
    assert sdf3.throughput(graph, buffers={"x, y": 3}, program=analyser.program).rate == Fraction(2, 11)


BAD: List[Any] = [{}, {"actors": {"a": -1}}, {"actors": {"a": []}}, {"actors": {"a": "soon"}}, {"actors": {"a": 1}, "channels": [{"from": "a"}]},
                  {"actors": {"a": 1}, "channels": [{"from": "a", "to": "b"}]}, {"actors": {"a": 1}, "channels": [{"from": "a", "to": "a", "token": 1}]}, 7]


@pytest.mark.parametrize("given", BAD)
def test_what_is_no_graph(given: Any) -> None:
    with pytest.raises(sdf3.Fault) as refused:
        sdf3.graph(given)
    assert refused.value.status == 3


def test_faults_have_the_statuses_of_the_analyser(analyser: Analyser, example: Example) -> None:
    chain, program = example("chain"), analyser.program
    refused: List[Tuple[int, Dict[str, Any]]] = [(6, {}), (3, {"buffers": {"gamma": 1}, "no_overlap": True}), (2, {"states": 200001}),
                                                 (8, {"buffers": {"alpha": 4, "beta": 2}, "states": 1}), (8, {"seconds": 0.0})]
    for status, words in refused:
        with pytest.raises(sdf3.Fault) as fault:
            sdf3.throughput(chain, program=program, **words)
        assert fault.value.status == status, fault.value.line
    with pytest.raises(sdf3.Fault) as missing:
        sdf3.throughput("/nowhere/graph.xml", program=program)
    assert missing.value.status == 10
    with pytest.raises(sdf3.Fault) as rejected:
        sdf3.check(example("ring"), b"sdf3-certificate 2\n", program=program)
    assert rejected.value.status == 3


@pytest.mark.parametrize("seed", range(8))
def test_both_checkers_accept_what_is_certified(analyser: Analyser, graph_file: GraphFile, seed: int) -> None:
    path = graph_file(Drawn(seed, back=1, phases=seed % 2 == 1).text())
    found = sdf3.throughput(path, no_overlap=True, certified=True, program=analyser.program)
    said = f"accepted throughput {found.rate.numerator}/{found.rate.denominator}"
    assert sdf3.check(path, found.certificate, program=analyser.program) == sdf3.check_again(path, found.certificate) == said


def test_pictures(analyser: Analyser, example: Example) -> None:
    front = sdf3.tradeoff(example("chain"), no_overlap=True, program=analyser.program)
    assert front._repr_svg_() == front.picture()
    assert all(f">{point.rate}<" in front.picture() or str(point.storage) in front.picture() for point in front.points)
    graph = sdf3.graph(example("chain"), analyser.program)
    if shutil.which("dot") is None:
        assert graph._repr_svg_() is None
    else:
        assert "<svg" in graph.picture() and "alpha" in graph.picture()
