"""One run of the analyser: the one place that starts it. It needs nothing but the standard library and the analyser, so that a worker on
another machine runs it as it is: it is sent there whole, so that its classes are ordinary ones."""
from __future__ import annotations

import os
import shutil
import subprocess
import tempfile
from dataclasses import dataclass
from typing import List, Optional, Sequence

MISSING, BUDGET = 14, 8


@dataclass(frozen=True)
class Ran:
    """How a run ended: its exit status, below 0 where a signal ended it, and what it wrote."""

    status: int
    out: str
    err: str

    @property
    def line(self) -> str:
        """The last line of what it wrote to standard error."""
        return self.err.strip().rpartition("\n")[2]


@dataclass(frozen=True)
class Answer:
    """What came of a graph that was sent: a status, the text that was printed or else the line of the refusal, and the certificate."""

    status: int
    text: str
    line: str
    certificate: bytes


def ran(program: str, words: Sequence[str], tunables: str = "", seconds: Optional[float] = None) -> Ran:
    """Runs a program, with what the C library is told before what the caller tells it."""
    told = ":".join(part for part in (tunables, os.environ.get("GLIBC_TUNABLES", "")) if part)
    environment = {**os.environ, "GLIBC_TUNABLES": told} if told else dict(os.environ)
    done = subprocess.run([program, *words], stdin=subprocess.DEVNULL, capture_output=True, encoding="utf-8", errors="replace",
                          timeout=seconds, env=environment, check=False)
    return Ran(done.returncode, done.stdout, done.stderr)


def answer_of(program: Optional[str], data: bytes, words: List[str], tunables: str = "", seconds: Optional[float] = None,
              is_certified: bool = True) -> Answer:
    """The answer to words about a graph's bytes. A worker that is told no program takes its own."""
    program = program or os.environ.get("SDF3ANALYSIS") or shutil.which("sdf3analysis")
    if program is None:
        return Answer(MISSING, "", "the analyser isn't there", b"")
    with tempfile.TemporaryDirectory() as folder:
        graph, certificate = os.path.join(folder, "graph.xml"), os.path.join(folder, "certificate")
        with open(graph, "wb") as file:
            file.write(data)
        certified = ["--certificate", certificate] if is_certified else []
        try:
            run = ran(program, ["--algo", words[0], "--graph", graph, *words[1:], *certified], tunables, seconds)
        except subprocess.TimeoutExpired:
            return Answer(BUDGET, "", "the limit of time is reached", b"")
        except OSError as fault:
            return Answer(MISSING, "", f"{program} can't be run: {fault.strerror}", b"")
        if run.status != 0:
            return Answer(run.status, "", run.line, b"")
        return Answer(0, run.out, "", certificate_of(certificate) if is_certified else b"")


def certificate_of(path: str) -> bytes:
    """What a run put as its certificate: nothing where it put none."""
    try:
        with open(path, "rb") as file:
            return file.read()
    except OSError:
        return b""
