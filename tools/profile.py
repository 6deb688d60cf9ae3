#!/usr/bin/env python3
"""Says what a run of the gate costs: the processor seconds of each crate's proof, of its tests, of what its must-fail edits begin
with, of the edits themselves, and of its programs.

    tools/profile.py [-- COMMAND]

Starts `rt ci` (or COMMAND), passes on what it prints, looks five times a second at the processes below it, and prints a table in
Markdown when it has ended. It ends with the command's own status, and changes nothing of the run. With the kit that keeps what it has
passed, the whole gate is seen by `tools/profile.py -- rt ci --anew`. A process loses at most a fifth of a second, and what ended
between two looks stands in the last row.

A crate with two edits or more is proved once more, as what they begin with: that is the column `Base`, and with it stands a last
check that the base is still proved. One kit does this in the first of its edits, and there the column `Edits, s` has it.

A second table has the twenty functions and files of lemmas whose proofs took longest, each with its dearest stage, and a third one
the stages of all, by the moments at which the compiler left each module in its folder, or among what is kept of the proof (`rt check`,
`rt lib`). Where it proves some beside each other (`--jobs`), these are less than they take alone. The stage `Lts` follows a function's
ways and what is dropped on each, `Proof` has
the tactics at goals that nothing answers, `Tie` binds them to the code; `bench/GATE.md` says what makes them dear.
"""
import os
import re
import resource
import signal
import subprocess
import sys
import tempfile
import threading
import time
from collections import defaultdict
from collections.abc import Collection, Iterable, Mapping, Sequence
from typing import NamedTuple, Optional

PAUSE = 0.2
TICKS = os.sysconf("SC_CLK_TCK")
KINDS = ("proof", "tests", "base", "edits", "programs")
MOST_OWNERS = 20
# At each of so many looks the modules are looked at that are kept with a proof: they stay there.
KEPT_LOOKS = 5
# Where a proof leaves the modules that are done, by the number of its process; and what it makes for each function.
DONE = re.compile(r"rattle-logic-built-locked-(\d+)-\d+$")
STAGES = {"Answers", "Code", "Given", "Goals", "Invariants", "Key", "Kinds", "Layout", "Lts", "Met", "Mir", "Named", "Proof", "Reads",
          "Statement", "Symbol", "TheImpl", "TheLaws", "TheLink", "TheLinks", "TheReach", "TheSendSync", "Tie", "View"}
# What stands for the stage of a file of lemmas or of definitions.
NO_STAGE = "(lemmas)"

Work = tuple[str, str]
"""A crate, and one of the kinds of what is done there."""
StageOf = tuple[str, str, str]
"""A crate, a function or a file of lemmas, and its stage."""


class Process(NamedTuple):
    """A process that runs: its parent, the moment of its start and what it has taken, both in ticks."""

    parent: int
    start: int
    ticks: int


def processes() -> dict[int, Process]:
    """Each process that runs now, by its number."""
    found: dict[int, Process] = {}
    for name in os.listdir("/proc"):
        if name.isdigit():
            try:
                with open(f"/proc/{name}/stat", encoding="utf-8", errors="replace") as file:
                    # The name before the bracket may hold anything.
                    fields = file.read().rpartition(")")[2].split()
            except OSError:
                continue
            found[int(name)] = Process(int(fields[1]), int(fields[19]), int(fields[11]) + int(fields[12]))
    return found


def below(root: int, found: Mapping[int, Process]) -> list[int]:
    """The numbers of the processes below one."""
    children: defaultdict[int, list[int]] = defaultdict(list)
    for number, process in found.items():
        children[process.parent].append(number)
    waiting = [root]
    reached: list[int] = []
    while waiting:
        reached += children[waiting[-1]]
        waiting += children[waiting.pop()]
    return reached


def work_of(number: int) -> Optional[Work]:
    """The crate that a process works on and what it does there, or None where its words don't say."""
    try:
        with open(f"/proc/{number}/cmdline", encoding="utf-8", errors="replace") as file:
            words = file.read().split("\0")
        folder = os.path.basename(os.readlink(f"/proc/{number}/cwd"))
    except OSError:
        return None
    if "--crate-name" in words[:-1]:
        crate = words[words.index("--crate-name") + 1]
        if folder.startswith("rt-edit-"):
            kept = words[words.index("--incremental") + 1] if "--incremental" in words[:-1] else ""
            return crate, "base" if os.path.basename(kept) == "seed" else "edits"
        return crate, "tests" if "--test" in words else "programs" if "--crate-checked" in words else "proof"
    # A program runs as a copy, and a crate's tests as a program of that crate.
    run = next(filter(None, (re.search(r"/rt-run-[^/]+/bin/(\w+?)(_tests)?$", word) for word in words)), None)
    return (run[1], "tests" if run[2] else "programs") if run else None


class Costs:
    """The ticks of each process that was seen, and the work that it belongs to."""

    def __init__(self) -> None:
        # A process is known by its number and its start, since numbers come again.
        self.ticks: dict[tuple[int, int], int] = {}
        self.work: dict[tuple[int, int], Work] = {}
        self.said: set[tuple[int, int]] = set()

    def look(self, root: int) -> list[int]:
        """Adds what stands now, and answers the numbers of the processes below the root."""
        found = processes()
        reached = below(root, found)
        # A parent comes before its children, whose work is that of the parent where their own words don't say it.
        for number in reached:
            parent = found[number].parent
            process, above = (number, found[number].start), (parent, found[parent].start)
            self.ticks[process] = found[number].ticks
            if process in self.said:
                continue
            # A process has its parent's words until it has become the program that it is to be.
            own = work_of(number)
            if own and own != self.work.get(above):
                self.said.add(process)
            if own or above in self.work:
                self.work[process] = own or self.work[above]
        return reached

    def seconds(self) -> defaultdict[Work, float]:
        """The seconds of each crate and kind."""
        sums: defaultdict[Work, float] = defaultdict(float)
        for process, ticks in self.ticks.items():
            if process in self.work:
                sums[self.work[process]] += ticks / TICKS
        return sums


def kept_by(number: int) -> list[os.DirEntry[str]]:
    """The folders in which a process keeps what it has proved, by its words."""
    try:
        with open(f"/proc/{number}/cmdline", encoding="utf-8", errors="replace") as file:
            words = file.read().split("\0")
        if "--incremental" not in words[:-1]:
            return []
        kept = os.path.join(os.readlink(f"/proc/{number}/cwd"), words[words.index("--incremental") + 1])
        return [folder for folder in os.scandir(kept) if folder.is_dir()]
    except OSError:
        return []


class Modules:
    """When each module of each proof was done."""

    def __init__(self) -> None:
        self.begun, self.looks = time.time(), 0
        # What the proof is of that leaves its modules in a folder, by the folder's name; None where that isn't shown.
        self.proved: dict[str, Optional[str]] = {}
        # The processes with such a folder. What they keep besides is the same.
        self.with_folder: set[int] = set()
        # The moments of its modules, by the folder's name and what the proof is of.
        self.ends: defaultdict[tuple[str, str], dict[str, float]] = defaultdict(dict)

    def look(self, numbers: Collection[int]) -> None:
        for folder in os.scandir(tempfile.gettempdir()):
            named = DONE.match(folder.name)
            if not named or int(named[1]) not in numbers:
                continue
            self.with_folder.add(int(named[1]))
            if folder.name not in self.proved:
                work = work_of(int(named[1]))
                if not work:
                    continue
                self.proved[folder.name] = proved_in(work)
            proved = self.proved[folder.name]
            if proved:
                self.look_into(folder, proved)
        self.looks += 1
        if self.looks % KEPT_LOOKS == 0:
            self.look_at_kept(numbers)

    def look_at_kept(self, numbers: Collection[int]) -> None:
        for number in set(numbers) - self.with_folder:
            work = work_of(number)
            proved = proved_in(work) if work else None
            if proved:
                for folder in kept_by(number):
                    self.look_into(folder, proved)

    def look_into(self, folder: os.DirEntry[str], proved: str) -> None:
        ends = self.ends[folder.name, proved]
        try:
            for module in os.scandir(folder.path):
                if module.name.endswith(".oantt") and module.name not in ends:
                    ends[module.name] = module.stat().st_mtime
        except OSError:
            # The proof has ended, or the module has just got its name.
            return

    def seconds(self) -> dict[StageOf, float]:
        """The seconds of each stage of each function, and of each file of lemmas, with its crate: from the module that was done before."""
        sums: defaultdict[StageOf, float] = defaultdict(float)
        for (_, proved), ends in self.ends.items():
            # What was kept of an earlier proof isn't of this one.
            done = sorted((end, name) for name, end in ends.items() if self.begun <= end)
            for (begun, _), (end, name) in zip(done, done[1:]):
                path, stage = owner(name)
                sums[proved, path, stage] += end - begun
        return sums


def proved_in(work: Work) -> Optional[str]:
    """What the proof is of in which modules are made, or None where they aren't told of."""
    crate, kind = work
    return {"proof": crate, "tests": f"{crate}, with tests"}.get(kind)


def owner(module: str) -> tuple[str, str]:
    """The function or the file of lemmas that a module belongs to, and its stage: `Rattle-CRATE-proofs.PATH.STAGE.oantt` to `PATH` and
    `STAGE`. What is written of a function, `Rattle-CRATE.proofs.PATH.Answers.oantt`, belongs to it, too."""
    path = re.sub(r"^Rattle-\w+[-.](proofs|specs)\.(contracts\.)?", "", module.removesuffix(".oantt")).split(".")
    stage = NO_STAGE
    while len(path) > 1 and path[-1] in STAGES:
        stage = path.pop()
    return "::".join(path), stage


def minutes(seconds: float) -> str:
    return f"{seconds / 60:.1f}"


def table(seconds: defaultdict[Work, float], edits: defaultdict[str, int], all_seconds: float, wall: float) -> list[str]:
    """The table of costs, the dearest crate first."""
    crates = sorted({crate for crate, _ in seconds}, key=lambda crate: -sum(seconds[crate, kind] for kind in KINDS))
    lines = ["| Crate | Proof, s | Tests, s | Edits | Base, s | Edits, s | Programs, s | All, s |", "|---|---|---|---|---|---|---|---|"]
    sums = {kind: sum(seconds[crate, kind] for crate in crates) for kind in KINDS}
    rows = [(crate, {kind: seconds[crate, kind] for kind in KINDS}, edits[crate]) for crate in crates]
    for name, row, count in [*rows, ("all crates", sums, sum(edits.values()))]:
        cells = [f"{row[kind]:.0f}" for kind in KINDS]
        lines.append(f"| {name} | {' | '.join([*cells[:2], str(count), *cells[2:]])} | {sum(row.values()):.0f} |")
    rest = all_seconds - sum(sums.values())
    lines.append(f"| the command itself, and what ended between two looks | | | | | | | {rest:.0f} |")
    shown = ", ".join(f"{kind} {minutes(sums[kind])}" for kind in KINDS)
    return [*lines, "", f"Processor minutes: {minutes(all_seconds)} ({shown}), in {minutes(wall)} minutes of the clock."]


def slowest(seconds: Mapping[StageOf, float]) -> list[str]:
    """The tables of the functions and files of lemmas that took longest, and of the stages."""
    owners: defaultdict[tuple[str, str], dict[str, float]] = defaultdict(dict)
    stages: defaultdict[str, float] = defaultdict(float)
    for (crate, path, stage), spent in seconds.items():
        owners[crate, path][stage] = spent
        stages[stage] += spent
    if not owners:
        return []
    took = sorted(((sum(parts.values()), crate, path) for (crate, path), parts in owners.items()), reverse=True)[:MOST_OWNERS]
    rows = []
    for spent, crate, path in took:
        dearest, most = max(owners[crate, path].items(), key=lambda it: it[1])
        rows.append(f"| `{crate}` | `{path}` | {spent:.1f} | {dearest} {most:.1f} |")
    shares = [f"| {stage} | {spent:.0f} |" for stage, spent in sorted(stages.items(), key=lambda it: -it[1]) if spent >= 0.5]
    return ["", "| Crate | Function or file of lemmas | Seconds of the clock | Of these its dearest stage |", "|---|---|---|---|", *rows,
            "", "| Stage | Seconds of the clock |", "|---|---|", *shares]


def pass_on(stream: Iterable[str], told: list[str]) -> None:
    for line in stream:
        told.append(line.rstrip("\n"))
        print(line, end="", flush=True)


def profile(command: Sequence[str]) -> int:
    begun, costs, modules = time.monotonic(), Costs(), Modules()
    told: list[str] = []
    child = subprocess.Popen(command, stdin=subprocess.DEVNULL, stdout=subprocess.PIPE, stderr=subprocess.STDOUT, text=True,
                             errors="replace")
    # What was seen is told where the run is ended early, too.
    signal.signal(signal.SIGTERM, lambda *_: child.terminate())
    reading = threading.Thread(target=pass_on, args=(child.stdout, told))
    reading.start()
    while child.poll() is None:
        # The command stands above what is looked at, so the processes below it are found from this one.
        modules.look(set(costs.look(os.getpid())))
        time.sleep(PAUSE)
    reading.join()
    usage = resource.getrusage(resource.RUSAGE_CHILDREN)
    edits: defaultdict[str, int] = defaultdict(int)
    for line in told:
        tried = re.search(r"\bmust-fail (\w+)/\S+\.edit: ", line)
        if tried:
            edits[tried[1]] += 1
    wall = time.monotonic() - begun
    print("\n" + "\n".join([*table(costs.seconds(), edits, usage.ru_utime + usage.ru_stime, wall), *slowest(modules.seconds())]))
    return child.returncode


if __name__ == "__main__":
    given = sys.argv[1:]
    if given and given[0] in ("-h", "--help"):
        print((__doc__ or "").strip())
        sys.exit(0)
    if given and given[0] != "--":
        sys.exit((__doc__ or "").strip())
    sys.exit(profile(given[1:] or ["rt", "ci"]))
