"""Runs tasks side by side: as many as cores and memory hold, each once those that it waits for are done."""
import os
import re
from collections.abc import Callable, Collection
from concurrent.futures import FIRST_COMPLETED, Future, ThreadPoolExecutor, wait
from dataclasses import dataclass

# What a task takes more for each further process, as a part of what it takes with one.
OF_ONE_MORE = 0.6
# The part of the free memory that tasks are given: some take more than is reckoned.
GIVEN = 0.85
# The most processes of one task: what each more of them gains grows less.
MOST_JOBS = 4


@dataclass(frozen=True)
class Task:
    """A task, the names of those that it waits for, and how soon it is to begin: of those that may, the one of the highest rank.
    `run` gets how many processes it may have, and answers whether it ended well. `memory` is in bytes, with one process."""

    name: str
    waits: Collection[str]
    rank: float
    memory: int
    run: Callable[[int], bool]


def cores() -> int:
    """How many cores there are to use."""
    return len(os.sched_getaffinity(0))


def free_memory() -> int:
    """The free memory in bytes."""
    with open("/proc/meminfo", encoding="ascii") as lines:
        found = re.search(r"MemAvailable:\s+(\d+)", lines.read())
    return 1024 * int(found[1]) if found else 0


class Lanes:
    """The tasks that run now, on so many cores."""

    def __init__(self, most: int, most_jobs: int = MOST_JOBS) -> None:
        self.most, self.most_jobs = most, most_jobs
        self.memory = GIVEN * free_memory()
        self.running: dict[Future[bool], tuple[Task, int]] = {}

    def idle(self) -> int:
        return self.most - sum(jobs for _, jobs in self.running.values())

    def room(self) -> float:
        return self.memory - sum(taken(task, jobs) for task, jobs in self.running.values())

    def jobs_for(self, task: Task, ready: int) -> int:
        """How many processes a task gets that begins now, one of so many that may: none where there is no room. One task always runs."""
        if self.idle() < 1 or (self.running and self.room() < task.memory):
            return 0
        share = min(self.idle() // ready, self.most_jobs)
        while share > 1 and self.room() < taken(task, share):
            share -= 1
        return max(share, 1)

    def wait(self) -> list[tuple[str, bool]]:
        """Waits until some task has ended, and answers the names of those that have, and whether each did well."""
        ended, _ = wait(self.running, return_when=FIRST_COMPLETED)
        return [(self.running.pop(future)[0].name, future.result()) for future in ended]


def taken(task: Task, jobs: int) -> float:
    """The memory that a task takes with so many processes, in bytes."""
    return task.memory * (1 + OF_ONE_MORE * (jobs - 1))


def run_all(tasks: list[Task], lanes: Lanes, stop: Callable[[], None], goes_on: bool = False) -> dict[str, bool]:
    """Runs the tasks, and answers of each that was run whether it ended well. After one that didn't, no other begins, or none that waits
    for it where it goes on. `stop` ends those that run where this is ended early."""
    left = sorted(tasks, key=lambda task: -task.rank)
    ended: dict[str, bool] = {}
    with ThreadPoolExecutor(lanes.most) as pool:
        try:
            while left or lanes.running:
                if goes_on or all(ended.values()):
                    begin(left, lanes, pool, {name for name, well in ended.items() if well})
                if not lanes.running:
                    break
                ended.update(lanes.wait())
        except BaseException:
            stop()
            raise
    return ended


def begin(left: list[Task], lanes: Lanes, pool: ThreadPoolExecutor, done: set[str]) -> None:
    """Begins what may, and takes it off the list."""
    ready = [task for task in left if done.issuperset(task.waits)]
    for number, task in enumerate(ready):
        jobs = lanes.jobs_for(task, len(ready) - number)
        if jobs:
            left.remove(task)
            lanes.running[pool.submit(task.run, jobs)] = task, jobs
