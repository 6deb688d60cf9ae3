"""What no subcommand is made for: files that are none, interrupts, full disks, and two runs at once. Each ends with a line and a status
that isn't that of an answer, and nothing that stood is lost by half."""
import os
import random
import resource
import signal
import subprocess
import sys
import threading
import time
from concurrent.futures import ThreadPoolExecutor
from pathlib import Path
from typing import Callable, Dict, List, Optional, Set

import pytest

from sdf3companion.__main__ import COMMANDS
from sdf3companion.analyser import Analyser
from sdf3companion.writing import Row, graph_text
from tests.conftest import LAUNCHER, SECONDS, Ended, Example, own_environment

STATUSES = {0, 1, 2, 3, 4, 5, 6, 7, 8, 9, 10, 11, 12, 14, 130}
"""All but that of a companion which itself failed."""
RING = graph_text("sdf", {"x": 2, "y": 3}, [Row("xy", "x", 1, "y", 1), Row("yx", "y", 1, "x", 1, 1)])
LETTER = "\N{MUSICAL SYMBOL G CLEF}"
LARGE = 4 * 2**20


def doctype(entities: str) -> str:
    """The ring with a document type whose entities its name is made of."""
    return f"<?xml version='1.0'?>\n<!DOCTYPE sdf3 [{entities}]>\n{RING.replace('''name='g' type''', '''name='&a;' type''', 1)}"


FILES: Dict[str, str] = {
    "another tool's": "<!DOCTYPE html><html><body>no graph</body></html>",
    "no XML": "digraph g { a -> b }\n",
    "empty": "",
    "of entities that refer to each other": doctype("<!ENTITY a '&b;'><!ENTITY b '&a;'>"),
    "of entities that grow": doctype("".join(f"<!ENTITY {chr(97 + n)} '{'&' + chr(98 + n) + ';'}{'&' + chr(98 + n) + ';'}'>" for n in range(25))
                                     + "<!ENTITY z 'zz'>"),
    "large": f"{RING}<!-- {'x' * LARGE} -->\n",
    "deep": f"<sdf3>{'<a>' * 3000}{'</a>' * 3000}</sdf3>",
    "of long names": graph_text("sdf", {LETTER * 128: 2, "y": 3}, [Row("xy", LETTER * 128, 1, "y", 1), Row("yx", "y", 1, LETTER * 128, 1, 1)]),
    "of times that are no numbers": RING.replace("time='2'", "time='nan'"),
    "of an endless list": RING.replace("time='2'", "time='99999999999*1'"),
}
"""Texts by what is wrong with them."""


class Room:
    """A folder with what subcommands are given."""

    def __init__(self, analyser: Analyser, folder: Path) -> None:
        self.analyser, self.folder = analyser, folder

    def words(self, name: str, graph: str, output: str) -> List[str]:
        """The words of a subcommand on a graph, with its output where it has one."""
        more: Dict[str, List[str]] = {"referee": ["--claim", "1/5", "--certificate", output], "page": [f"{output}.html"], "gantt": [f"{output}.svg"],
                                      "draw": [f"{output}.svg"], "adapt": [f"{output}.xml"], "verify": [str(self.folder / "certificate")]}
        return ["batch", "--output", output, "--", graph] if name == "batch" else [name, graph, *more.get(name, [])]

    def run(self, words: List[str], limit: Optional[Callable[[], None]] = None, out: Optional[int] = None) -> Ended:
        done = subprocess.run([sys.executable, LAUNCHER, *words], cwd=self.folder, stdin=subprocess.DEVNULL, stdout=out or subprocess.PIPE,
                              stderr=subprocess.PIPE, text=True, timeout=SECONDS, check=False, env=own_environment(self.analyser), preexec_fn=limit)
        return done.returncode, done.stdout or "", done.stderr


@pytest.fixture
def room(analyser: Analyser, tmp_path: Path) -> Room:
    (tmp_path / "ring.xml").write_text(RING)
    (tmp_path / "certificate").write_text("sdf3-certificate 2\n")
    for number, text in enumerate(FILES.values()):
        (tmp_path / f"bad{number}.xml").write_text(text, encoding="utf-8")
    return Room(analyser, tmp_path)


def require_end(ended: Ended, words: List[str], statuses: Set[int] = STATUSES) -> None:
    """A run ended as one may: with a status that is known, and, where it isn't that of an answer, with a line; no run shows its insides."""
    status, _, error = ended
    assert status in statuses, (words, ended)
    assert "Traceback" not in error and "itself failed" not in error, (words, ended)
    assert status in (0, 1) or error.strip(), (words, ended)
    assert all(len(line) < 2000 for line in error.splitlines()), words


@pytest.mark.parametrize("name", COMMANDS)
def test_files_that_are_none(room: Room, name: str) -> None:
    """No file, a folder, and every text above: none of them is an answer, but where nothing is wrong for the subcommand."""
    missing = [str(room.folder / "none.xml"), str(room.folder)]
    graphs = missing + [str(room.folder / f"bad{number}.xml") for number in range(len(FILES))]
    with ThreadPoolExecutor(os.cpu_count()) as runs:
        words = [room.words(name, graph, str(room.folder / f"out{number}")) for number, graph in enumerate(graphs)]
        found = list(runs.map(room.run, words))
    for one, ended in zip(words, found):
        require_end(ended, one)
    assert all(ended[0] == 10 for ended in found[:2]) or name == "verify", found[:2]
    wrong = found[2:5] if name not in ("batch", "verify") else []
    assert all(ended[0] == 3 for ended in wrong), wrong


def pipe_of(path: Path, text: str) -> None:
    """A pipe from which a text can be read once."""
    os.mkfifo(path)

    def write() -> None:
        with open(path, "w", encoding="utf-8") as pipe:
            pipe.write(text)
    threading.Thread(target=write, daemon=True).start()


@pytest.mark.parametrize("name", [name for name in COMMANDS if name != "verify"])
def test_a_pipe_is_read_once(room: Room, name: str) -> None:
    pipe_of(room.folder / "pipe.xml", RING)
    words = room.words(name, "pipe.xml", "out")
    ended = room.run(words)
    require_end(ended, words, {0, 14} if name in ("draw", "page") else {0})


def no_room() -> None:
    """Lets no file grow, as on a full disk."""
    resource.setrlimit(resource.RLIMIT_FSIZE, (0, 0))


@pytest.mark.parametrize("name", [name for name in COMMANDS if name not in ("verify", "tradeoff", "fastest", "whatif")])
def test_a_full_disk_takes_nothing_that_stands(room: Room, name: str) -> None:
    words = room.words(name, "ring.xml", "out")
    output = next(Path(room.folder / word) for word in words if word.startswith("out"))
    if name == "batch":
        assert room.run(words)[0] == 0
    else:
        output.write_text("what stands")
    before = output.read_text()
    ended = room.run(words, no_room)
    require_end(ended, words, STATUSES - {0, 1})
    assert output.read_text() == before
    assert not [path.name for path in room.folder.iterdir() if path.name.startswith(".companion")]


@pytest.mark.parametrize("name", COMMANDS)
def test_a_full_device_for_what_is_printed(room: Room, name: str) -> None:
    words = room.words(name, "ring.xml", "/dev/null") if name in ("referee", "verify") else [name, "--help"]
    with open("/dev/full", "wb") as full:
        ended = room.run(words, out=full.fileno())
    require_end(ended, words, {3, 11})


@pytest.mark.parametrize("name", COMMANDS)
def test_an_interrupt_at_any_moment(room: Room, name: str) -> None:
    """It ends a run with no answer and with no traceback, or comes too late; what stood stands as it was, or whole and new."""
    drawn = random.Random(name)
    moments = [drawn.uniform(0.02, 0.6) for _ in range(4)]

    def interrupted(number: int) -> Ended:
        words = room.words(name, "ring.xml", f"out{number}")
        with subprocess.Popen([sys.executable, LAUNCHER, *words], cwd=room.folder, stdin=subprocess.DEVNULL, stdout=subprocess.PIPE,
                              stderr=subprocess.PIPE, text=True, env=own_environment(room.analyser)) as process:
            time.sleep(moments[number])
            process.send_signal(signal.SIGINT)
            out, error = process.communicate(timeout=SECONDS)
        return process.returncode, out, error

    with ThreadPoolExecutor(os.cpu_count()) as runs:
        for number, ended in enumerate(runs.map(interrupted, range(len(moments)))):
            if "Traceback" in ended[2] and "companion/sdf3companion/" not in ended[2]:
                continue  # the interpreter hadn't come to the companions
            assert ended[0] == -signal.SIGINT or ended[0] in STATUSES, ended
            assert "Traceback" not in ended[2] and "itself failed" not in ended[2], ended
    assert not [path.name for path in room.folder.iterdir() if path.name.startswith(".companion")]


@pytest.mark.parametrize("name", ["referee", "gantt", "adapt", "batch"])
def test_two_runs_that_write_the_same(room: Room, name: str) -> None:
    """Either wins, and what stands is whole; of two that keep rows one may be refused."""
    words = room.words(name, "ring.xml", "out")
    output = next(Path(room.folder / word) for word in words if word.startswith("out"))
    with ThreadPoolExecutor(4) as runs:
        found = list(runs.map(lambda _: room.run(words), range(4)))
    for ended in found:
        require_end(ended, words, {0, 10} if name == "batch" else {0})
    alone = room.words(name, "ring.xml", "alone")
    assert room.run(alone)[0] == 0
    assert output.read_bytes() == output.with_name(output.name.replace("out", "alone")).read_bytes()


@pytest.mark.parametrize("program", ["/bin/true", "/bin/false", "/bin/echo", "/bin/cat"])
def test_a_program_that_is_not_the_analyser(analyser: Analyser, example: Example, program: str) -> None:
    for words in (["fastest", example("ring")], ["referee", example("ring"), "--claim", "1/5"], ["batch", "--", example("ring")]):
        done = subprocess.run([sys.executable, LAUNCHER, *words], capture_output=True, text=True, check=False, env={**os.environ, "SDF3ANALYSIS": program})
        ended = done.returncode, done.stdout, done.stderr
        assert done.returncode == (14 if words[0] != "batch" else 0), ended
        assert "isn't the analyser" in done.stderr + done.stdout, ended
