"""Reads files, and puts answers: under a name so that nothing that stands there is lost by half, since it is written beside and then
renamed; or to standard output, which is UTF-8."""
from __future__ import annotations

import contextlib
import io
import os
import stat
import sys
import tempfile
from typing import IO, Callable, Optional, Sequence, TextIO, Union, cast

from sdf3companion.faults import SHELF, USAGE, Fault, Unwritten

STANDARD = "-"
"""What names standard input, and standard output where a command may print a file."""


class Printed:
    """Standard output, of which each failure is a fault. Letters that a terminal can't print are written as UTF-8 all the same."""

    encoding = "utf-8"

    def __init__(self, stream: Optional[TextIO]) -> None:
        self.stream = stream
        if isinstance(stream, io.TextIOWrapper):
            stream.reconfigure(encoding="utf-8", errors="surrogateescape")

    def doing(self, action: Callable[[TextIO], int]) -> int:
        if self.stream is None:
            raise Unwritten("it is closed")
        try:
            return action(self.stream)
        except (OSError, ValueError) as fault:
            raise Unwritten(getattr(fault, "strerror", None) or str(fault)) from fault

    def write(self, text: str) -> int:
        return self.doing(lambda stream: stream.write(text))

    def write_bytes(self, data: bytes) -> int:
        """Writes bytes behind what was written before."""
        def both(stream: TextIO) -> int:
            stream.flush()
            return stream.buffer.write(data)
        return self.doing(both)

    def flush(self) -> None:
        if self.stream is not None:
            self.doing(lambda stream: stream.flush() or 0)

    def isatty(self) -> bool:
        return self.stream is not None and self.stream.isatty()

    def leave(self) -> None:
        """Takes the way to what can't be written, so that nothing tries it again at the end."""
        with contextlib.suppress(OSError, ValueError):
            os.dup2(os.open(os.devnull, os.O_WRONLY), sys.__stdout__.fileno() if sys.__stdout__ is not None else 1)


def take_standard_output() -> Printed:
    """Has everything that is printed go through `Printed`. A stream that is closed stays taken, so that no file gets its number."""
    for number in (0, 1, 2):
        try:
            os.fstat(number)
        except OSError:
            os.open(os.devnull, os.O_RDWR)
    printed = Printed(sys.__stdout__)
    sys.stdout = cast(TextIO, printed)
    return printed


def tell(line: str) -> None:
    """A line on standard error, with the name of the command; where that can't be written, nothing is lost but the line."""
    tell_as_it_is(f"{speaker.name}: {line}")


def tell_as_it_is(line: str) -> None:
    """A line on standard error that another program wrote."""
    if sys.stderr is not None:
        with contextlib.suppress(OSError, ValueError):
            print(line, file=sys.stderr, flush=True)


class Speaker:
    """By which name a command tells what it has to say."""

    name = "companion"


speaker = Speaker()


def put(path: str, data: Union[bytes, str]) -> None:
    """Puts bytes or a text under a path. What isn't an ordinary file, as a device or a pipe, is written to as it is."""
    data = data.encode("utf-8", "surrogateescape") if isinstance(data, str) else data
    try:
        if os.path.exists(path) and not stat.S_ISREG(os.stat(path).st_mode):
            with open(path, "wb") as file:
                file.write(data)
        else:
            renamed(os.path.realpath(path), data)
    except (OSError, ValueError) as fault:
        raise Fault(SHELF, f"{path} can't be written: {getattr(fault, 'strerror', None) or fault}") from fault


def renamed(path: str, data: bytes) -> None:
    handle, beside = tempfile.mkstemp(prefix=".companion-", dir=os.path.dirname(path))
    try:
        with os.fdopen(handle, "wb") as file:
            file.write(data)
        os.chmod(beside, os.stat(path).st_mode & 0o777 if os.path.exists(path) else 0o666 & ~umask())
        os.replace(beside, path)
    except BaseException:
        os.unlink(beside)
        raise


def umask() -> int:
    mask = os.umask(0)
    os.umask(mask)
    return mask


def put_or_print(path: Optional[str], text: Union[bytes, str]) -> None:
    """Puts a text under a path, or prints it where there is none, or `-`."""
    if path is not None and path != STANDARD:
        put(path, text)
    elif isinstance(text, bytes) and isinstance(sys.stdout, Printed):
        sys.stdout.write_bytes(text)
    elif isinstance(text, bytes):
        sys.stdout.buffer.write(text)
    else:
        sys.stdout.write(text)


def require_ending(path: Optional[str], endings: Sequence[str]) -> None:
    """Refuses the name of a file that says by its ending that it has another form."""
    if path is None or path == STANDARD or not is_plain(path):
        return
    if not path.lower().endswith(tuple(f".{ending}" for ending in endings)):
        listed = " or ".join([", ".join(f".{ending}" for ending in endings[:-1]), f".{endings[-1]}"]) if len(endings) > 1 else f".{endings[0]}"
        raise Fault(USAGE, f"{path}: the name of what is written here ends in {listed}")


def is_plain(path: str) -> bool:
    """Whether a path names an ordinary file, or nothing yet: no device and no pipe, whose names have no ending."""
    return not os.path.exists(path) or os.path.isfile(path) or os.path.isdir(path)


def refuse_standard(path: Optional[str], what: str) -> None:
    """Refuses `-` where a command can't take it."""
    if path == STANDARD:
        raise Fault(USAGE, f"- isn't taken as {what} here: name a file")


def read(path: str) -> bytes:
    """The bytes of a file; `-` is standard input."""
    try:
        if path == STANDARD:
            source: Optional[IO[bytes]] = sys.stdin.buffer if sys.stdin is not None else None
            if source is None:
                raise Fault(SHELF, "standard input can't be read: it is closed")
            return source.read()
        with open(path, "rb") as file:
            return file.read()
    except (OSError, ValueError) as fault:
        raise Fault(SHELF, f"{path} can't be read: {getattr(fault, 'strerror', None) or fault}") from fault


def progress(line: str) -> None:
    """Shows how far a run is, on a terminal alone; each line takes the place of the one before."""
    if sys.stderr is not None and sys.stderr.isatty():
        with contextlib.suppress(OSError, ValueError):
            print(f"\r\x1b[K{line}", end="", file=sys.stderr, flush=True)
