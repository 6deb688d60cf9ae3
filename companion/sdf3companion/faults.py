"""Why there is no answer: an exit status and a line. The statuses are the analyser's where it has one."""
from __future__ import annotations

from typing import Sequence

NO = 1
USAGE = 2
FORM = 3
LIMIT = 4
INCONSISTENT = 5
CONNECTION = 6
DEADLOCK = 7
BUDGET = 8
REJECTED = 9
SHELF = 10
UNWRITTEN = 11
MEMORY = 12
MISSING = 14
BROKEN = 15
INTERRUPTED = 130


class Fault(Exception):
    """Why there is no answer. `status` is the exit status that a companion ends with, the analyser's where it has one; `line`
    says why; `is_analysers` that the analyser wrote the line. `more` has lines of the companion's own that stand behind it."""

    def __init__(self, status: int, line: str, is_analysers: bool = False, more: Sequence[str] = ()) -> None:
        super().__init__("; ".join([line, *more]))
        self.status = status
        self.line = line
        self.is_analysers = is_analysers
        self.more = list(more)


class OutOfTime(Fault):
    """The analyser was ended, since the time it was given is up."""

    def __init__(self) -> None:
        super().__init__(BUDGET, "the limit of time ended before there was an answer")


class Unwritten(Fault):
    """Standard output can't be written."""

    def __init__(self, reason: str) -> None:
        super().__init__(UNWRITTEN, f"standard output can't be written: {reason}")


def needed(what: str, package: str) -> Fault:
    """The fault that a program or a module isn't there, and which package of the distribution brings it."""
    return Fault(MISSING, f"{what} isn't installed; on Debian `apt-get install {package}` brings it (a module to /usr/bin/python3)")
