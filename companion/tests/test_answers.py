"""What the companions print of the examples."""
import json
import os
import signal
import subprocess
import sys
from pathlib import Path
from typing import Dict, Tuple

import pytest

from sdf3companion import graphs, search
from sdf3companion.analyser import Analyser
from sdf3companion.search import Search
from tests.conftest import LAUNCHER, SECONDS, Example, Run

FRONTS: Dict[str, Tuple[int, Dict[int, str]]] = {
    "two_filters": (1, {}),
    "h263_encoder": (2, {299: "1/1846402", 300: "1/1232530"}),
    "h263_decoder": (69, {4753: "1/2508452", 4754: "1/1354202", 4821: "1/1328184"}),
    "rate_converter": (6, {32: "1/847", 37: "1/490"}),
    "modem": (4, {21: "1/40", 22: "1/32", 23: "1/30", 24: "1/24"}),
    "satellite_receiver": (5, {38: "1/594", 39: "1/408", 41: "1/348", 43: "1/288", 45: "1/264"}),
    "mp3_decoder": (2, {14: "1/17", 16: "1/16"}),
    "lte_receiver": (8, {100: "1/755", 102: "1/634", 104: "1/574", 106: "1/570", 110: "1/540", 112: "1/515", 114: "1/510", 118: "1/497"}),
}
"""How many points the documents tell of an example, and rates by storage of those that they name."""
CHAIN = ["6 1/7 alpha=4,beta=2", "8 1/6 alpha=5,beta=3", "9 1/5 alpha=6,beta=3", "10 1/4 alpha=7,beta=3"]


def test_tradeoff_ends_by_itself(run: Run, example: Example) -> None:
    status, text, said = run("tradeoff", example("chain"), "--no-overlap")
    assert (status, text.splitlines()) == (0, CHAIN)
    assert said == "sdf3companion tradeoff: complete up to storage 10: 4 points; no memory buys more, since b can't be faster\n"


def test_tradeoff_up_to_a_rate(run: Run, example: Example) -> None:
    status, text, said = run("tradeoff", example("chain"), "--no-overlap", "--rate", "16/s@100Hz", "--csv")
    assert (status, text) == (0, 'storage,rate,buffers\n6,1/7,"alpha=4,beta=2"\n8,1/6,"alpha=5,beta=3"\n')
    assert said.startswith("sdf3companion tradeoff: complete up to storage 8: 2 points; the wanted rate is reached")
    status, text, said = run("tradeoff", example("chain"), "--no-overlap", "--rate", "1/3")
    assert (status, text, said) == (1, "", "sdf3companion tradeoff: no memory reaches 1/3: b can't be faster than 1/4\n")


@pytest.mark.parametrize("name", FRONTS)
def test_tradeoff_of_the_examples(run: Run, example: Example, name: str) -> None:
    status, text, _ = run("tradeoff", example(name), "--no-overlap", "--json")
    found = json.loads(text)
    count, named = FRONTS[name]
    assert (status, len(found["points"])) == (0, count)
    assert named.items() <= {point["storage"]: point["rate"] for point in found["points"]}.items()
    assert found["points"][-1]["rate"] == found["fastest"]["rate"]
    assert found["complete_to"] >= found["points"][-1]["storage"]


@pytest.mark.parametrize("name", ["chain", "modem", "satellite_receiver"])
def test_limits_that_rise_find_the_same_points(analyser: Analyser, example: Example, monkeypatch: pytest.MonkeyPatch, name: str) -> None:
    graph = graphs.opened(analyser, example(name))
    at_once, rising = (Search(analyser, graph, ["--no-overlap"]) for _ in range(2))
    monkeypatch.setattr(search, "MOMENT", SECONDS)
    assert len(list(at_once.levels())) == 1
    monkeypatch.setattr(search, "MOMENT", 0)
    assert len(list(rising.levels())) > 1
    assert (rising.points, rising.complete, rising.ended) == (at_once.points, at_once.complete, at_once.ended)


def test_tradeoff_without_an_end_keeps_what_it_found(run: Run, example: Example) -> None:
    status, text, said = run("tradeoff", example("chain"), "--distributions", "20")
    assert (status, text.splitlines()[0]) == (8, "6 1/7 alpha=4,beta=2")
    assert "sdf3analysis: budget: more than 20 distributions" in said
    status, text, said = run("tradeoff", example("chain"), "--no-overlap", "--seconds", "0")
    assert (status, text) == (8, "")
    assert "limit of time" in said


def test_an_interrupt_keeps_what_was_found(analyser: Analyser, example: Example) -> None:
    words = [sys.executable, LAUNCHER, "tradeoff", example("chain"), "--csv"]
    with subprocess.Popen(words, stdout=subprocess.PIPE, stderr=subprocess.PIPE, text=True, env={**os.environ, "SDF3ANALYSIS": analyser.program}) as run:
        assert run.stdout is not None
        shown = [run.stdout.readline(), run.stdout.readline()]
        run.send_signal(signal.SIGINT)
        _, said = run.communicate(timeout=60)
    assert shown == ["storage,rate,buffers\n", '6,1/7,"alpha=4,beta=2"\n']
    assert run.returncode == 0
    assert said.startswith("sdf3companion tradeoff: complete up to storage") and said.endswith("points; interrupted\n")


def test_tradeoff_takes_no_buffers(run: Run, example: Example) -> None:
    status, text, said = run("tradeoff", example("chain"), "--buffers", "alpha=4")
    assert (status, text) == (2, "")
    assert said.startswith("sdf3companion tradeoff: unrecognized arguments: --buffers alpha=4\nsdf3companion tradeoff: `")
    assert said.endswith("sdf3companion tradeoff --help` has the words\n")


def test_fastest(run: Run, example: Example) -> None:
    assert run("fastest", example("chain")) == (0, "fastest unbounded\n", "")
    assert run("fastest", example("chain"), "--no-overlap") == (0, "fastest 1/4\npart b\nrounds 2\ncycle 2 1 b 0\nb 1 b/self\n", "")
    status, text, _ = run("fastest", example("chain"), "--no-overlap", "--buffers", "alpha=4,beta=2")
    assert (status, text.splitlines()[:2]) == (0, ["fastest 1/7", "part a, b, c"])
    status, text, said = run("fastest", example("chain"), "--buffers", "gamma=4")
    assert (status, text) == (3, "")
    assert said.startswith("sdf3companion fastest: unknown channel gamma\nsdf3companion fastest: a name is given as the file has it, or with %")


def test_what_if(run: Run, example: Example) -> None:
    status, text, _ = run("whatif", example("chain"), "--no-overlap", "--buffers", "alpha=4,beta=2")
    assert status == 0
    assert text.splitlines() == ["now 1/7",
                                 "             now then rate gain",
                                 "b            2   1    1/5 +40.0 %",
                                 "a            1   1/2  2/13 +7.7 %",
                                 "c            2   1    1/7 +0.0 %",
                                 "alpha/buffer 4   5    1/7 +0.0 %",
                                 "beta/buffer  2   3    1/7 +0.0 %"]
    assert run("whatif", example("chain"))[0] == 3
    assert run("whatif", example("ring"), "--factor", "0")[0] == 2


def test_referee(run: Run, analyser: Analyser, example: Example, tmp_path: Path) -> None:
    kept = tmp_path / "certificate"
    status, text, _ = run("referee", example("ring"), "--claim", "1/5", "--certificate", kept)
    assert (status, text) == (0, "confirmed 1/5\naccepted throughput 1/5\n")
    assert analyser.run("check", example("ring"), "--certificate", str(kept)) == "accepted throughput 1/5\n"
    assert run("referee", example("ring"), "--claim", "~0.20")[0] == 0
    assert run("referee", example("ring"), "--claim", "~0.21")[0] == 1
    status, text, _ = run("referee", example("ring"), "--claim", "1/4")
    assert (status, text.splitlines()) == (1, ["refuted 1/4", "rate 1/5", "accepted throughput 1/5",
                                               "the claim is too fast: by this need cycle no schedule runs a round in less than 5 time units",
                                               "cycle 5 1 x 0", "y 0 xy", "x 1 yx"])
    status, text, _ = run("referee", example("ring"), "--claim", "1/6")
    assert (status, text.splitlines()[3:]) == (1, ["the claim is too slow: this schedule is faster", "schedule 5 1", "x 0", "y 2"])
    status, text, said = run("referee", example("chain"), "--claim", "1/5")
    assert (status, text) == (6, "")
    assert said.startswith("sdf3analysis: connection: no way from b to a\nsdf3companion referee: try --buffers NAME=NUMBER,.. or --use-file")
    assert run("referee", example("ring"))[0] == 2
