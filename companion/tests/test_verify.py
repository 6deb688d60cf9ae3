"""The second checker and the analyser's `check` say the same of each worked certificate."""
import random
import re
from pathlib import Path
from typing import Any, Iterator

import pytest

from sdf3companion import graphs, verify
from sdf3companion.analyser import Analyser
from sdf3companion.faults import Fault
from tests.conftest import GraphFile
from tests.drawn import Drawn
from tests.worked_cases import Case, cases

GRAPH, CERTIFICATE = 3, 5
WORDS = ["--algo", "check", "--graph", None, "--certificate", None]


def judged() -> Iterator[Any]:
    """The cases in which `check` has both files and comes to a verdict on the certificate, each with its line."""
    for case, shown in cases():
        same = len(case.words) == len(WORDS) and all(want in (None, word) for want, word in zip(WORDS, case.words))
        if same and not case.fails and case.files.keys() >= {case.words[GRAPH], case.words[CERTIFICATE]}:
            line = next(line for line in shown if line.startswith(("out|", "err|"))).partition("|")[2].removeprefix("sdf3analysis: ")
            if line.startswith(("accepted", "rejected", "form: certificate", "form: wrong kind", "limit: certificate")):
                yield pytest.param(case, line, id=case.name)


@pytest.mark.parametrize("case, line", judged())
def test_the_verdict_is_that_of_check(case: Case, line: str, tmp_path: Path) -> None:
    names = [case.words[GRAPH], case.words[CERTIFICATE]]
    for name in names:
        (tmp_path / name).write_text(str(case.files[name]), encoding="latin-1", newline="")
    try:
        said = verify.verdict(*(str(tmp_path / name) for name in names))
    except verify.Refused as refused:
        said = refused.args[1]
    assert said == line


def test_there_are_many() -> None:
    assert len(list(judged())) >= 250


def test_a_number_of_any_length_is_too_large(tmp_path: Path) -> None:
    certificate = tmp_path / "certificate"
    certificate.write_text(f"sdf3-certificate 2\nscenario\nrate 1/{'9' * 5000}\n", encoding="latin-1", newline="")
    with pytest.raises(verify.Refused) as refused:
        verify.verdict("no graph", str(certificate))
    assert refused.value.args == (4, "limit: certificate number too large")


def said_by_check(analyser: Analyser, path: str, certificate: str) -> str:
    """The line of `check`, without the name of the program."""
    try:
        return analyser.run("check", path, "--certificate", certificate).strip()
    except Fault as fault:
        return fault.line.removeprefix("sdf3analysis: ")


def with_one_number_changed(text: str, drawn: random.Random) -> str:
    """A certificate in which one number is another one, near to it."""
    numbers = list(re.finditer(r"(?<![\w/])\d+|(?<=/)\d+", text))
    chosen = drawn.choice(numbers[1:])
    return f"{text[:chosen.start()]}{max(0, int(chosen[0]) + drawn.choice([-2, -1, 1, 2]))}{text[chosen.end():]}"


@pytest.mark.parametrize("seed", range(8))
def test_both_checkers_say_the_same_of_drawn_certificates(analyser: Analyser, graph_file: GraphFile, tmp_path: Path, seed: int) -> None:
    """Of a trade-off's certificate as it is, and of ones in which a number was changed."""
    path, certificate, drawn = graph_file(Drawn(seed, phases=seed % 2 == 1).text()), tmp_path / "certificate", random.Random(seed)
    least = analyser.storage(graphs.opened(analyser, path), 10**9, ["--no-overlap"])[0].storage
    analyser.run("storage", path, "--no-overlap", "--limit", str(least + 3), "--certificate", str(certificate))
    text = certificate.read_text(encoding="latin-1")
    assert verify.verdict(path, str(certificate)) == said_by_check(analyser, path, str(certificate))
    for _ in range(12):
        certificate.write_text(with_one_number_changed(text, drawn), encoding="latin-1", newline="")
        status, line = verify.told(path, str(certificate))
        assert line == said_by_check(analyser, path, str(certificate)), certificate.read_text()
        assert status in (0, 3, 4, 9)
