"""The curve: which points it reads off the texts of trade-offs."""
import os
import subprocess
import sys
from fractions import Fraction
from pathlib import Path
from typing import Tuple

import pytest

from sdf3companion.analyser import ROOT
from sdf3companion.answers import pairs_of

OF_SCENARIOS = """points 2
point 1 1/3
buffers s=1
cycle 3 1 q0 s 0
q0 s 0 3
potentials 3
q0 o 0 0
q0 p 0 0
q0 s 0 0
point 2 1/2
buffers s=2
cycle 2 1 q0 p 0
q0 p 0 2
potentials 2
point s 0 0
q0 s/space 0 0
"""
OF_A_GRAPH = """points 2
point 6 1/7
buffers a=4
schedule 7 1
point 0 1 4
b 2 5
point 7 1/6
buffers a=5
schedule 6 1
point 0 1 4
b 2 5
"""


CURVE = os.path.join(ROOT, "curve")


def drawn(text: str, *words: str) -> Tuple[int, str, str]:
    """What the program says of a text."""
    done = subprocess.run([sys.executable, CURVE, *words], input=text, capture_output=True, text=True, check=False)
    return done.returncode, done.stdout, done.stderr


def test_a_state_or_an_actor_may_be_named_point() -> None:
    assert pairs_of(OF_SCENARIOS) == [(1, Fraction(1, 3)), (2, Fraction(1, 2))]
    assert pairs_of(OF_A_GRAPH) == [(6, Fraction(1, 7)), (7, Fraction(1, 6))]


def test_a_picture_of_points(tmp_path: Path) -> None:
    status, text, error = drawn(OF_A_GRAPH, "-")
    assert (status, error) == (0, "")
    assert text.startswith("<svg") and "1/7" in text and "1/6" in text
    assert drawn(OF_A_GRAPH, str(tmp_path / "curve.svg")) == (0, "", "")
    assert (tmp_path / "curve.svg").read_text(encoding="utf-8") == text


def test_no_points() -> None:
    assert drawn("points 0\n", "-") == (3, "", "curve: there is no point to draw\n")


@pytest.mark.parametrize("text", ["", "rate 1/7\n", OF_SCENARIOS.replace("points 2", "points 3"), OF_SCENARIOS[:-2].rpartition("\n")[0] + "\n",
                                  OF_A_GRAPH.replace("points 2", "points 3"), OF_SCENARIOS.replace("cycle 2 1", "cycle 2")])
def test_other_texts_are_refused(text: str) -> None:
    status, printed, error = drawn(text, "-")
    assert (status, printed) == (3, "")
    assert error.startswith("curve: standard input isn't the text of a trade-off")


def test_endings_and_words(tmp_path: Path) -> None:
    assert drawn(OF_A_GRAPH, str(tmp_path / "curve.html"))[0] == 2
    assert drawn(OF_A_GRAPH)[0] == 2
    assert drawn("", "--help")[0] == 0
