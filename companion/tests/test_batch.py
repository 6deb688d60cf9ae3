"""Rows of many graphs: on this machine, cut off and gone on with, and by workers of whom one lies."""
import csv
import json
import os
import socket
import stat
import subprocess
import sys
import time
from dataclasses import replace
from pathlib import Path
from typing import Any, Dict, Iterator, List, Tuple

import pytest

from sdf3companion import work
from sdf3companion.analyser import ROOT, Analyser
from sdf3companion.judging import Task, judged, question_of
from tests.conftest import Example, GraphFile, Run
from tests.drawn import Drawn

COUNT = 12
LIAR = """#!{python}
import subprocess, sys
done = subprocess.run(["{program}", *sys.argv[1:]], capture_output=True, text=True)
sys.stdout.write(done.stdout.replace("rate 1/", "rate 2/"))
sys.exit(done.returncode)
"""


def rows(text: str) -> Dict[str, Dict[str, str]]:
    return {os.path.basename(row["file"]): row for row in csv.DictReader(text.splitlines())}


@pytest.fixture
def files(graph_file: GraphFile) -> List[str]:
    """Drawn graphs with every way back, so that each has a rate."""
    return [graph_file(Drawn(seed, back=1).text(), f"g{seed}.xml") for seed in range(COUNT)]


def expected(analyser: Analyser, path: str) -> Tuple[str, str, str]:
    """What the analyser itself says of a file."""
    done = subprocess.run([analyser.program, "--algo", "throughput", "--graph", path, "--no-overlap"], capture_output=True, text=True, check=False)
    return str(done.returncode), done.stdout.split("\n")[0].removeprefix("rate "), done.stderr.strip()


def test_rows_are_the_analysers(run: Run, analyser: Analyser, files: List[str], example: Example, tmp_path: Path) -> None:
    status, text, _ = run("batch", "--no-overlap", "--jobs", "2", "--", *files, example("video_modes"), tmp_path / "none.xml", tmp_path)
    assert status == 10
    found = rows(text)
    for path in files:
        row = found[os.path.basename(path)]
        assert (row["status"], row["rate"], row["line"]) == expected(analyser, path)
    assert found["video_modes.xml"]["rate"] == "3/28"
    assert found["none.xml"]["status"] == found[tmp_path.name]["status"] == "10"


def test_a_run_that_was_cut_off_goes_on(run: Run, files: List[str], tmp_path: Path) -> None:
    out = tmp_path / "rows.csv"
    assert run("batch", "--no-overlap", "--output", out, "--", *files[:4])[0] == 0
    whole = out.read_text()
    lines = whole.splitlines(keepends=True)
    mark = lines[1].replace(lines[1].split(",")[2], "0", 1)
    out.write_text("".join([lines[0], mark, *lines[2:4], lines[4][:9]]))
    with open(files[1], "a", encoding="utf-8") as file:
        file.write("<!-- changed -->\n")
    assert run("batch", "--no-overlap", "--output", out, "--", *files[:5])[0] == 0
    found = rows(out.read_text())
    assert set(found) == {f"g{seed}.xml" for seed in range(5)}
    assert len(out.read_text().splitlines()) == 6
    before = out.read_text()
    assert run("batch", "--no-overlap", "--output", out, "--", *files[:5])[0] == 0
    assert out.read_text() == before
    assert run("batch", "--output", out, "--", files[0])[0] == 0
    assert out.read_text() != before


def test_rows_that_stand_are_not_run_again(run: Run, files: List[str], tmp_path: Path) -> None:
    out = tmp_path / "rows.csv"
    assert run("batch", "--output", out, "--", files[0])[0] == 0
    changed = out.read_text().replace(",1/", ",77/")
    out.write_text(changed)
    assert run("batch", "--output", out, "--", files[0])[0] == 0
    assert out.read_text() == changed


def test_json_lines_and_other_files(run: Run, files: List[str], tmp_path: Path) -> None:
    status, text, _ = run("batch", "--json", "--no-overlap", "--", *files[:2])
    assert status == 0
    assert {os.path.basename(json.loads(line)["file"]) for line in text.splitlines()} == {"g0.xml", "g1.xml"}
    other = tmp_path / "letter.txt"
    other.write_text("Dear reader,\n")
    status, _, said = run("batch", "--output", other, "--", files[0])
    assert status == 3
    assert "stands already" in said
    assert other.read_text() == "Dear reader,\n"
    assert run("batch", "--output", tmp_path / "none" / "rows.csv", "--", files[0])[0] == 10
    assert run("batch", "--jobs", "0", "--", files[0])[0] == 2


STARTS = 120
"""How many seconds the cluster may take to start."""
QUIET = {"DASK_DISTRIBUTED__SCHEDULER__WORK_STEALING": "False"}
"""No worker takes what was given to the other, so that each has some."""


def free_port() -> int:
    with socket.socket() as probe:
        probe.bind(("127.0.0.1", 0))
        return int(probe.getsockname()[1])


@pytest.fixture
def cluster(analyser: Analyser, tmp_path: Path) -> Iterator[str]:
    """A scheduler and two workers on the loopback; the analyser of the second one lies."""
    pytest.importorskip("distributed", reason="python3-distributed isn't installed")
    liar = tmp_path / "liar"
    liar.write_text(LIAR.format(python=sys.executable, program=analyser.program))
    liar.chmod(liar.stat().st_mode | stat.S_IXUSR)
    port = free_port()
    address = f"tcp://127.0.0.1:{port}"
    dask = [sys.executable, "-m", "distributed.cli.dask_scheduler", "--host", "127.0.0.1", "--port", str(port), "--no-dashboard"]
    worker = [sys.executable, "-m", "distributed.cli.dask_worker", address, "--nthreads", "1", "--no-nanny", "--no-dashboard", "--host", "127.0.0.1"]
    started: "List[subprocess.Popen[bytes]]" = []
    try:
        for words, program in ((dask, analyser.program), ([*worker, "--name", "honest"], analyser.program), ([*worker, "--name", "liar"], str(liar))):
            own = {**os.environ, **QUIET, "SDF3ANALYSIS": program}
            started.append(subprocess.Popen(words, cwd=tmp_path, env=own, stdout=subprocess.DEVNULL, stderr=subprocess.DEVNULL))
        wait_for_workers(address)
        yield address
    finally:
        for process in reversed(started):
            process.terminate()
        for process in started:
            ended(process)


def ended(process: "subprocess.Popen[bytes]") -> None:
    """Waits until a process that was asked to end has, and doesn't ask for ever."""
    try:
        process.wait(30)
    except subprocess.TimeoutExpired:
        process.kill()
        process.wait()


def wait_for_workers(address: str) -> None:
    Client: Any = pytest.importorskip("distributed").Client
    end = time.monotonic() + STARTS
    while True:
        try:
            with Client(address, timeout="10s", set_as_default=False) as client:
                client.wait_for_workers(2, timeout=max(1, end - time.monotonic()))
                return
        except OSError:
            if time.monotonic() > end:
                pytest.skip(f"no scheduler with two workers on the loopback within {STARTS} s")


@pytest.mark.xdist_group("cluster")
def test_answers_of_a_worker_that_lies_are_refused(run: Run, analyser: Analyser, files: List[str], cluster: str, tmp_path: Path) -> None:
    out = tmp_path / "rows.csv"
    words = ["batch", "--no-overlap", "--scheduler", cluster, "--output", str(out), "--", *files]
    status, _, said = run(*words, environment={"PYTHONPATH": os.path.join(ROOT, "companion")})
    found = rows(out.read_text())
    assert status == 1, said
    refused = [row for row in found.values() if row["status"] == "9"]
    assert refused and all("the worker says 2/" in row["line"] and row["rate"] == "" for row in refused)
    counted = [path for path in files if found[os.path.basename(path)]["status"] != "9"]
    assert counted
    for path in counted:
        row = found[os.path.basename(path)]
        assert (row["status"], row["rate"], row["line"]) == expected(analyser, path)


def test_no_scheduler(run: Run, files: List[str]) -> None:
    pytest.importorskip("distributed", reason="python3-distributed isn't installed")
    status, _, said = run("batch", "--scheduler", f"tcp://127.0.0.1:{free_port()}", "--", files[0])
    assert status == 14
    assert "there is no scheduler" in said


def test_an_answer_has_to_be_about_what_was_asked(analyser: Analyser, files: List[str]) -> None:
    """A certificate that is right, but of other words, counts for nothing; nor does one that was changed, or none at all."""
    with open(files[0], "rb") as file:
        data = file.read()
    alone, free = Task(data, ["throughput", "--no-overlap"]), Task(data, ["throughput"])
    right, other = work.answer_of(analyser.program, *alone), work.answer_of(analyser.program, *free)
    rate = right.text.partition("\n")[0].removeprefix("rate ")
    assert judged(analyser, "g", alone, right) == (0, rate, "")
    assert judged(analyser, "g", free, other) == (0, other.text.partition("\n")[0].removeprefix("rate "), "")
    changed = replace(right, certificate=right.certificate.replace(b"\nend", b"\n0\nend"))
    for answer in (other, changed, replace(right, certificate=b""), None):
        status, none, line = judged(analyser, "g", alone, answer)
        assert (status, none) == (9, None)
        assert line.startswith("refused: ")
    assert judged(analyser, "g", alone, work.Answer(7, "", "sdf3analysis: deadlock: so it says", b"")) == (0, rate, "")


def test_a_question_names_buffers_by_number(example: Example) -> None:
    with open(example("chain"), "rb") as file:
        data = file.read()
    assert question_of(Task(data, ["throughput", "--buffers", "beta=2,alpha=4"])) == ["throughput", "no-overlap no", "buffers 0=4 1=2"]
    assert question_of(Task(data, ["throughput", "--no-overlap"])) == ["throughput", "no-overlap yes", "buffers -"]
    assert question_of(Task(data, ["scenario"])) == ["scenario"]
