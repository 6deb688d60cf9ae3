#!/usr/bin/env python3
"""Proves and builds the program and the crates that it stands on, several at a time, and says on standard error how far it is.

    tools/build.py [CRATE]

Exit status 0 where the program stands at crates/CRATE/out/CRATE (sdf3analysis where none is named), else 1. The file `built`
beside it is as old as the build's beginning, and names what the program is made of, as `sdf3analysis` asks for it.

While `rt` works on a crate it locks that crate and those below it. So each worker has a copy of the sources. What one copy has built
is linked into the others, with the sum of its sources by which `rt` takes it there, and what is kept of a crate's proof goes into the
copy that works on the crate, and back. So no crate is proved twice, and none whose sources are those of an earlier build or `rt lib`.
Meanwhile the crates here are locked as `rt` does it: another build, or `rt`, waits. What an interrupted build has proved is taken up
by the next one.

How long a crate's proof took is kept in tools/out/seconds. What isn't there is taken from the first table of bench/GATE.md.
"""
import contextlib
import fcntl
import os
import re
import shlex
import shutil
import signal
import subprocess
import sys
import threading
import time
from collections.abc import Collection, Iterator
from functools import partial
from pathlib import Path

sys.dont_write_bytecode = True
sys.path.insert(0, os.path.dirname(os.path.abspath(__file__)))
import lanes  # noqa: E402

ROOT = Path(__file__).resolve().parent.parent
SOURCES = ("src", "specs", "proofs")
# What a program is made of: its code with the contracts, and the definitions that these name.
MADE_OF = ("src", "specs")
# What `rt` leaves of a crate: what is built, and what is kept of its proof.
BUILT, KEPT = "rlib", "incremental"
SECONDS = ROOT / "tools" / "out" / "seconds"
# Processor seconds a line, of a crate whose proof was never measured.
SECONDS_A_LINE = 0.06
# A crate that took less was built already.
LEAST_SECONDS = 5.0


def say(line: str) -> None:
    print(f"sdf3analysis: {line}", file=sys.stderr, flush=True)


def minutes(seconds: float) -> str:
    return f"{seconds / 60:.1f}" if seconds < 600 else f"{seconds / 60:.0f}"


def listed() -> dict[str, list[str]]:
    """The crates of this repository, and for each those of them that it names."""
    named = {}
    for line in (ROOT / "crates.txt").read_text(encoding="utf-8").splitlines():
        name, colon, libraries = line.split("#")[0].partition(":")
        if colon:
            named[name.split()[0]] = libraries.split()
    return {name: [library for library in libraries if library in named] for name, libraries in named.items()}


def crates_below(*tops: str) -> dict[str, list[str]]:
    """The crates of this repository that these stand on, with themselves, and for each those that it names itself."""
    named, waiting = listed(), list(tops)
    found: dict[str, list[str]] = {}
    while waiting:
        name = waiting.pop()
        if name not in found:
            found[name] = named[name]
            waiting += found[name]
    return found


def below(name: str, crates: dict[str, list[str]]) -> list[str]:
    """The crates that one stands on, each after those that it stands on itself."""
    found: list[str] = []
    for library in crates[name]:
        found += [it for it in [*below(library, crates), library] if it not in found]
    return found


def home(name: str, top: Path = ROOT) -> Path:
    return top / "crates" / name


def is_program(name: str) -> bool:
    return (home(name) / "src" / "main.rt").is_file()


def files_of(name: str, parts: Collection[str] = SOURCES) -> Iterator[Path]:
    """The paths of a crate's sources."""
    for part in parts:
        for at, _, files in os.walk(home(name) / part):
            yield from (Path(at, file) for file in sorted(files))


def lines_of(name: str, ending: str) -> int:
    """How many lines a crate's sources of one kind have."""
    return sum(path.read_bytes().count(b"\n") for path in files_of(name) if path.suffix == ending)


def memory_of(name: str, crates: dict[str, list[str]]) -> int:
    """What a crate's proof from nothing takes, in bytes, as seen: by its lines of code and of proofs, and the code that it stands on."""
    code_below = sum(lines_of(library, ".rt") for library in below(name, crates))
    return 1_000_000_000 + 1_000_000 * lines_of(name, ".rt") + 200_000 * lines_of(name, ".antt") + 80_000 * code_below


class Measured:
    """The processor seconds that the proofs of crates took from nothing: those of the last time, else those that are committed."""

    def __init__(self) -> None:
        committed = (ROOT / "bench" / "GATE.md").read_text(encoding="utf-8")
        self.committed: dict[str, float] = {}
        for name, seconds in re.findall(r"^\| `(\w+)` \| ([\d,]+) \|", committed, re.M):
            self.committed.setdefault(name, float(seconds.replace(",", "")))
        self.writing = threading.Lock()
        self.own = self.read()

    def read(self) -> dict[str, float]:
        if not SECONDS.exists():
            return {}
        rows = (line.split() for line in SECONDS.read_text(encoding="utf-8").splitlines())
        return {row[0]: float(row[1]) for row in rows if len(row) == 2}

    def of(self, name: str) -> float:
        guess = SECONDS_A_LINE * (lines_of(name, ".rt") + lines_of(name, ".antt"))
        return self.own.get(name, self.committed.get(name, guess))

    def note(self, name: str, seconds: float) -> None:
        with self.writing:
            self.own = {**self.read(), name: seconds}
            SECONDS.parent.mkdir(exist_ok=True)
            part = SECONDS.with_suffix(".part")
            part.write_text("".join(f"{it} {self.own[it]:.1f}\n" for it in sorted(self.own)), encoding="utf-8")
            part.replace(SECONDS)


def seconds_behind(crates: dict[str, list[str]], seconds: dict[str, float]) -> dict[str, float]:
    """For each crate the seconds of the longest chain of crates that begins at it, of which each stands on the one before."""
    found: dict[str, float] = {}

    def behind(name: str) -> float:
        if name not in found:
            found[name] = seconds.get(name, 0.0) + max((behind(above) for above in crates if name in crates[above]), default=0.0)
        return found[name]

    return {name: behind(name) for name in crates}


def copy_sources(to: Path, crates: Collection[str], top: Path = ROOT) -> None:
    """Makes a copy of what the proofs of these crates read. Its crates.txt has these alone, since `rt` wants the folder of each
    crate in it."""
    to.mkdir(parents=True)
    shutil.copy2(top / "HANDLES", to)
    lines = (top / "crates.txt").read_text(encoding="utf-8").splitlines(keepends=True)
    (to / "crates.txt").write_text("".join(line for line in lines if lists(line, crates)), encoding="utf-8")
    for name in crates:
        for part in SOURCES:
            if (home(name, top) / part).is_dir():
                shutil.copytree(home(name, top) / part, home(name, to) / part)


def lists(line: str, crates: Collection[str]) -> bool:
    """Whether a line of crates.txt is that of one of these crates."""
    words = line.split("#")[0].partition(":")[0].split()
    return bool(words) and words[0] in crates


def link(source: str, target: str) -> None:
    """A second name for a file, or a copy where it can't have one."""
    try:
        os.link(source, target)
    except OSError:
        shutil.copy2(source, target)


def hand_on(made: Path, to: Path) -> None:
    """Puts a folder or a file that is built in another place, too, whole or not at all."""
    part = to.with_name(f"{to.name}.part")
    remove(part)
    to.parent.mkdir(parents=True, exist_ok=True)
    if made.is_dir():
        shutil.copytree(made, part, copy_function=link)
        remove(to)
    else:
        link(str(made), str(part))
    part.replace(to)


def remove(path: Path) -> None:
    if path.is_dir():
        shutil.rmtree(path)
    else:
        path.unlink(missing_ok=True)


class Running:
    """The commands of the toolchain that run now. `keeps` are open files that each of them holds, too."""

    def __init__(self, keeps: Collection[int] = ()) -> None:
        self.keeps = keeps
        self.commands: set[subprocess.Popen[str]] = set()
        self.is_over = False
        self.changing = threading.Lock()

    def run(self, folder: Path, words: list[str]) -> tuple[int, str, float]:
        """Runs a command in a folder, and answers its status, what it said, and its processor seconds."""
        with self.changing:
            if self.is_over:
                return 1, "", 0.0
            command = subprocess.Popen(words, cwd=folder, stdin=subprocess.DEVNULL, stdout=subprocess.PIPE, stderr=subprocess.STDOUT,
                                       text=True, errors="replace", pass_fds=self.keeps)
            self.commands.add(command)
        text = command.stdout.read() if command.stdout else ""
        _, status, usage = os.wait4(command.pid, 0)
        with self.changing:
            self.commands.discard(command)
        command.returncode = os.waitstatus_to_exitcode(status)
        return command.returncode, text, usage.ru_utime + usage.ru_stime

    def stop(self) -> None:
        """Ends those that run, and begins no other."""
        with self.changing:
            self.is_over = True
            for command in self.commands:
                with contextlib.suppress(ProcessLookupError):
                    os.kill(command.pid, signal.SIGTERM)


@contextlib.contextmanager
def locked(crates: Collection[str]) -> Iterator[list[int]]:
    """Keeps other builds out, and each `rt` by the locks on the crates' folders that it takes itself."""
    folders = [ROOT / "crates", *(home(name) for name in sorted(crates))]
    held = [os.open(folder, os.O_RDONLY) for folder in folders]
    try:
        for lock in held:
            wait_for(lock)
        yield held
    finally:
        for lock in held:
            os.close(lock)


def wait_for(lock: int) -> None:
    try:
        fcntl.flock(lock, fcntl.LOCK_EX | fcntl.LOCK_NB)
    except BlockingIOError:
        say("waiting for another build, or `rt`, to end")
        fcntl.flock(lock, fcntl.LOCK_EX)
    except OSError:
        # Some file systems have no locks.
        return


@contextlib.contextmanager
def told_later(line: str) -> Iterator[None]:
    """Says a line unless what follows ends at once."""
    telling = threading.Timer(LEAST_SECONDS, say, [line])
    telling.start()
    try:
        yield
    finally:
        telling.cancel()


def end_early(number: int, _frame: object) -> None:
    sys.exit(128 + number)


class Build:
    """A build of crates, by workers of which each has a copy of the sources."""

    def __init__(self, crates: dict[str, list[str]], room: Path, locks: Collection[int]) -> None:
        self.crates, self.room = crates, room
        self.running, self.measured = Running(locks), Measured()
        self.begun = time.monotonic()
        self.left = {name: self.measured.of(name) for name in crates if self.is_new(name)}
        self.all = sum(self.left.values())
        self.copies: list[Path] = []

    def is_new(self, name: str) -> bool:
        """Whether a crate seems to have changed since it was built: `rt` knows it by sums, and is asked."""
        stamp = home(name) / "out" / (f"{name}.stamp" if is_program(name) else f"{BUILT}/stamp")
        if not stamp.exists():
            return True
        made = stamp.stat().st_mtime_ns
        return any(made < path.stat().st_mtime_ns for it in [*below(name, self.crates), name] for path in files_of(it))

    def run(self) -> bool:
        """Proves and builds all, those first behind which the most is to do."""
        behind, most = seconds_behind(self.crates, self.left), lanes.cores()
        clock = max(self.all / most, *behind.values())
        say(f"proving and building {len(self.left)} of {len(self.crates)} crates on {most} core{'s' * (most > 1)}: {minutes(self.all)} "
            f"minutes of work from nothing, at least {minutes(clock)} of the clock, and less where an earlier proof is kept")
        for number in range(most):
            copy_sources(self.room / str(number), self.crates)
            self.copies.append(self.room / str(number))
        tasks = [lanes.Task(name, self.crates[name], behind[name], memory_of(name, self.crates), partial(self.prove, name))
                 for name in self.crates]
        ended = lanes.run_all(tasks, lanes.Lanes(most), self.running.stop)
        return all(ended.get(name, False) for name in self.crates)

    def prove(self, name: str, jobs: int) -> bool:
        """Proves and builds a crate in a copy that is free, over what the others have built."""
        copy = self.copies.pop()
        try:
            with told_later(f"{name}: begun, {minutes(self.measured.of(name))} minutes of work from nothing"):
                return self.prove_in(copy, name, jobs)
        finally:
            self.copies.append(copy)

    def prove_in(self, copy: Path, name: str, jobs: int) -> bool:
        out, own = home(name, copy) / "out", home(name) / "out"
        for library in [*below(name, self.crates), name]:
            there = home(library, copy) / "out" / BUILT
            if (home(library) / "out" / BUILT).exists() and not there.exists():
                hand_on(home(library) / "out" / BUILT, there)
        out.mkdir(exist_ok=True)
        is_from_nothing = not move(own / KEPT, out / KEPT)
        try:
            status, text, seconds = self.running.run(home(name, copy), ["rt", "run" if is_program(name) else "lib", "--jobs", str(jobs)])
        finally:
            move(out / KEPT, own / KEPT)
        # A program is run without words, and then has a status of its own.
        well = (out / f"{name}.stamp").exists() if is_program(name) else status == 0
        for part in ((name, f"{name}.stamp") if is_program(name) else (BUILT,)) if well else ():
            if not is_same(out / part / "stamp", own / part / "stamp"):
                hand_on(out / part, own / part)
        self.tell(name, well, text, seconds, is_from_nothing)
        return well

    def tell(self, name: str, well: bool, text: str, seconds: float, is_from_nothing: bool) -> None:
        if self.running.is_over:
            return
        if not well:
            print(text, file=sys.stderr)
            say(f"{name} isn't proved")
            return
        if is_from_nothing and LEAST_SECONDS < seconds:
            self.measured.note(name, seconds)
        reckoned = self.left.pop(name, 0.0)
        if seconds < LEAST_SECONDS:
            self.all -= reckoned
            return
        say(f"{name}: done, {minutes(seconds)} minutes of work; left {minutes(sum(self.left.values()))} of {minutes(self.all)}, "
            f"after {minutes(time.monotonic() - self.begun)} of the clock")


def is_same(path: Path, other: Path) -> bool:
    """Whether two files have the same bytes."""
    return path.is_file() and other.is_file() and path.read_bytes() == other.read_bytes()


def move(path: Path, to: Path) -> bool:
    """Moves a folder to a place where there is none, and answers whether it did."""
    if not path.is_dir() or to.exists():
        return False
    to.parent.mkdir(exist_ok=True)
    path.rename(to)
    return True


def take_up(rooms: Iterator[Path]) -> None:
    """Takes up what builds that were ended early had proved, and removes their copies."""
    for room in rooms:
        for out in room.glob("*/crates/*/out"):
            own = home(out.parent.name) / "out"
            if own.parent.is_dir():
                move(out / KEPT, own / KEPT)
            if own.parent.is_dir() and (out / BUILT / "stamp").exists() and not (own / BUILT / "stamp").exists():
                hand_on(out / BUILT, own / BUILT)
        shutil.rmtree(room)


def prove(crates: dict[str, list[str]], locks: Collection[int]) -> bool:
    """Proves and builds these crates: a program with all that it stands on, or some libraries."""
    take_up((ROOT / "crates").glob("*/out/copies"))
    # Below a folder in which `rt ci` looks for no sources, and where a file may be linked to.
    room = home(next(iter(crates))) / "out" / "copies"
    try:
        return Build(crates, room, locks).run()
    finally:
        shutil.rmtree(room, ignore_errors=True)


def note_sources(crates: Collection[str], program: str, begun: int) -> None:
    """Says what the program is made of, in a file as old as the build's beginning."""
    paths = ["crates.txt", "HANDLES", *(str(path.relative_to(ROOT)) for name in crates for path in files_of(name, MADE_OF))]
    note = home(program) / "out" / "built"
    part = note.with_suffix(".part")
    part.write_text(f"are_older {' '.join(map(shlex.quote, paths))}\n", encoding="utf-8")
    os.utime(part, ns=(begun, begun))
    part.replace(note)


def is_of_sources(program: str) -> bool:
    """Whether the program was proved and built from all its sources as they stand, also from the proofs."""
    note = home(program) / "out" / "built"
    if not (home(program) / "out" / program).exists() or not note.exists():
        return False
    paths = [ROOT / "crates.txt", ROOT / "HANDLES", *(path for name in crates_below(program) for path in files_of(name))]
    return all(path.stat().st_mtime_ns < note.stat().st_mtime_ns for path in paths)


def build(program: str) -> int:
    """Proves and builds a program, where it isn't of these sources, and answers the exit status."""
    crates = crates_below(program)
    with locked(crates) as locks:
        if is_of_sources(program):
            return 0
        begun = time.time_ns()
        if not prove(crates, locks):
            # What isn't proved as it stands isn't run.
            (home(program) / "out" / program).unlink(missing_ok=True)
            return 1
        note_sources(crates, program, begun)
    return 0


def main(words: list[str]) -> int:
    for number in (signal.SIGTERM, signal.SIGHUP, signal.SIGINT):
        signal.signal(number, end_early)
    return build(words[0] if words else "sdf3analysis")


if __name__ == "__main__":
    sys.exit(main(sys.argv[1:]))
