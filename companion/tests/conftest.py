"""What the tests share: the analyser, files, and runs of the companions as a user makes them."""
import os
import subprocess
import sys
from pathlib import Path
from typing import Dict, Iterable, List, Optional, Protocol, Tuple, Union

import pytest

from sdf3companion import faults
from sdf3companion.analyser import ROOT, Analyser

LAUNCHER = os.path.join(ROOT, "sdf3companion")
EXAMPLES = os.path.join(ROOT, "examples")
SECONDS = 600
"""How long a run may take before it counts as hung."""

Ended = Tuple[int, str, str]
"""An exit status, what was printed, and the errors."""
Word = Union[str, Path, int]


class Run(Protocol):
    """Runs a companion from a directory of no importance."""

    def __call__(self, *words: Word, environment: Optional[Dict[str, str]] = None, given: Optional[str] = None) -> Ended: ...


class Example(Protocol):
    """The path of an example by its name."""

    def __call__(self, name: str) -> str: ...


class GraphFile(Protocol):
    """Puts a text as a graph file, and answers its path."""

    def __call__(self, text: Union[str, bytes], name: str = "graph.xml") -> str: ...


def own_environment(analyser: Analyser, more: Iterable[Tuple[str, str]] = ()) -> Dict[str, str]:
    """What a companion is run with."""
    return {**os.environ, "SDF3ANALYSIS": analyser.program, **dict(more)}


def pytest_collection_modifyitems(items: List[pytest.Item]) -> None:
    """Tests that stay with one worker begin first, since they take longest one after another."""
    items.sort(key=lambda item: item.get_closest_marker("xdist_group") is None)


@pytest.fixture(scope="session")
def analyser() -> Analyser:
    try:
        return Analyser()
    except faults.Fault as fault:
        pytest.fail(fault.line)


@pytest.fixture(scope="session")
def run(analyser: Analyser) -> Run:
    def runs(*words: Word, environment: Optional[Dict[str, str]] = None, given: Optional[str] = None) -> Ended:
        done = subprocess.run([sys.executable, LAUNCHER, *map(str, words)], cwd="/", input=given or "", capture_output=True, text=True, timeout=SECONDS,
                              check=False, env=own_environment(analyser, (environment or {}).items()))
        return done.returncode, done.stdout, done.stderr
    return runs


@pytest.fixture(scope="session")
def example() -> Example:
    return lambda name: os.path.join(EXAMPLES, f"{name}.xml")


@pytest.fixture
def graph_file(tmp_path: Path) -> GraphFile:
    def put(text: Union[str, bytes], name: str = "graph.xml") -> str:
        path = tmp_path / name
        path.write_bytes(text if isinstance(text, bytes) else text.encode())
        return str(path)
    return put
