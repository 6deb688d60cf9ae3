"""The words of every companion, and what it says to input that has no answer."""
import argparse
import json
from fractions import Fraction
from pathlib import Path
from typing import Dict, List

import pytest

from sdf3companion import words
from sdf3companion.__main__ import COMMANDS, OF_GRAPHS, WITHOUT_BUFFERS
from tests.conftest import Example, GraphFile, Run, Word

ON_GRAPHS = ["tradeoff", "fastest", "whatif", "referee", "gantt", "draw", "page"]


def asked(name: str, path: Word, tmp_path: Path) -> List[Word]:
    """The words of a subcommand on a file."""
    more: Dict[str, List[Word]] = {"referee": ["--claim", "1/5"], "page": [tmp_path / "page.html"]}
    return [name, path, *more.get(name, [])]


@pytest.mark.parametrize("name", COMMANDS)
def test_help_says_that_it_is_unproved(run: Run, name: str) -> None:
    status, text, _ = run(name, "--help")
    assert status == 0
    assert "Unproved" in text
    assert "exit status" in text
    words_of = ["--json", "--program"] if name != "verify" else []
    words_of += ["--no-overlap", "--states"] if name in OF_GRAPHS else []
    words_of += ["--buffers"] if name in OF_GRAPHS and name not in WITHOUT_BUFFERS else []
    assert all(word in text for word in words_of)


def test_overview_names_all(run: Run) -> None:
    status, text, _ = run("--help")
    assert status == 0
    assert "Unproved" in text
    assert all(f"\n    {name} " in text for name in COMMANDS)
    assert run("nothing")[0] == 2
    assert run()[0] == 2
    assert run("--version")[1].startswith("sdf3companion ")


@pytest.mark.parametrize("name", ON_GRAPHS)
def test_missing_file_folder_and_no_xml(run: Run, graph_file: GraphFile, tmp_path: Path, name: str) -> None:
    status, text, error = run(*asked(name, tmp_path / "none.xml", tmp_path))
    assert (status, text, error) == (10, "", f"sdf3companion {name}: {tmp_path / 'none.xml'} can't be read: No such file or directory\n")
    assert run(*asked(name, tmp_path, tmp_path))[0] == 10
    status, text, error = run(*asked(name, graph_file("<?xml version='1.0'?>\n<sdf3 type='sdf'>\n  <a b=1/></sdf3>"), tmp_path))
    assert (status, text) == (3, "")
    assert error.startswith("sdf3analysis: form: text at byte 47 (line 3, column 8)\n")
    assert "Traceback" not in error


@pytest.mark.parametrize("name", ON_GRAPHS)
def test_inconsistent_graph(run: Run, graph_file: GraphFile, tmp_path: Path, name: str) -> None:
    text = """<sdf3 type='sdf'><applicationGraph><sdf><actor name='a'><port name='o' type='out' rate='2'/><port name='i' type='in' rate='1'/></actor>
        <channel name='c' srcActor='a' srcPort='o' dstActor='a' dstPort='i' initialTokens='1'/></sdf></applicationGraph></sdf3>"""
    status, shown, error = run(*asked(name, graph_file(text), tmp_path))
    assert (status, shown if name != "draw" else "") == (5, "")
    assert error.startswith("sdf3analysis: inconsistent: walk")


@pytest.mark.parametrize("name", ["gantt", "draw", "page"])
def test_output_that_cannot_be_written(run: Run, example: Example, tmp_path: Path, name: str) -> None:
    ending = {"page": "html"}.get(name, "svg")
    status, _, error = run(name, example("ring"), tmp_path / "none" / f"out.{ending}")
    assert status == 10
    assert "can't be written" in error


def test_what_stands_is_kept_where_nothing_replaces_it(run: Run, example: Example, tmp_path: Path) -> None:
    old = tmp_path / "out.svg"
    old.write_text("old")
    assert run("gantt", example("chain"), old)[0] == 6
    assert old.read_text() == "old"
    assert [path.name for path in tmp_path.iterdir()] == ["out.svg"]


def test_no_graphviz(run: Run, example: Example, tmp_path: Path) -> None:
    status, _, error = run("draw", example("ring"), tmp_path / "ring.svg", environment={"PATH": "/nowhere"})
    assert status == 14
    assert "apt-get install graphviz" in error


def test_no_analyser(run: Run, example: Example) -> None:
    status, _, error = run("fastest", example("ring"), "--program", "/nowhere/analyser")
    assert status == 14
    assert "/nowhere/analyser" in error


@pytest.mark.parametrize("text, value", [("1/7", Fraction(1, 7)), ("0.125", Fraction(1, 8)), ("60/s@100MHz", Fraction(6, 10**7)),
                                         ("25/s@1ms", Fraction(1, 40)), ("1/2/s@2kHz", Fraction(1, 4000)), ("1e-3", Fraction(1, 1000))])
def test_rates(text: str, value: Fraction) -> None:
    assert words.rate(text) == value


@pytest.mark.parametrize("text", ["", "x", "1/0", "-1", "60/s@", "60/s@100", "60/s@0MHz", "60/s@5parsecs", "1/7x"])
def test_no_rates(text: str) -> None:
    with pytest.raises(argparse.ArgumentTypeError):
        words.rate(text)


def test_states_are_passed_on(run: Run, example: Example) -> None:
    status, _, error = run("fastest", example("modem"), "--no-overlap", "--states", "1")
    assert status == 8
    assert error.startswith("sdf3analysis: budget: 1 states")


def test_json_has_exact_fractions(run: Run, example: Example) -> None:
    status, text, _ = run("fastest", example("chain"), "--no-overlap", "--json")
    assert status == 0
    assert json.loads(text)["fastest"]["rate"] == "1/4"
