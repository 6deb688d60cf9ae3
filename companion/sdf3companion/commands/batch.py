"""Rates of many graphs, a row each, on this machine or over many.

A row has the file, the exit status, the rate in rounds per time unit (the worst rate of a file of scenarios), and the
analyser's line where it refuses. --output keeps the rows in a file: a run that was cut off goes on where it ended, since
rows of files that haven't changed since aren't run again, nor are those of other words. Each row is CSV, or with --json a
JSON document on a line.

With --scheduler it asks the workers of a Dask cluster, on each of which the analyser is installed. Nobody has to trust
them: each answer comes with its certificate, `check` of the analyser on this machine decides whether the row counts, and a
refusal, which has none, is asked again on this machine. A row that doesn't count has status 9 and is run again next time.

Exit status 0 where all rows count, also refusals, 1 where some don't, and 10 where a file can't be read.

  sdf3companion batch --no-overlap --output rates.csv --jobs 4 -- graphs/*.xml
  sdf3companion batch --scheduler tcp://head:8786 --output rates.csv -- graphs/*.xml
"""
from __future__ import annotations

import argparse
import os
from concurrent import futures
from typing import Any, Dict, Iterator, List, Mapping, Tuple

from sdf3companion import output, work, words
from sdf3companion.analyser import Analyser
from sdf3companion.faults import MISSING, NO, SHELF, Fault, needed
from sdf3companion.judging import Judged, Task, here, judged
from sdf3companion.rows import Table, key_of

Rows = Iterator[Tuple[str, Judged]]


def local(analyser: Analyser, tasks: Mapping[str, Task], asked: argparse.Namespace) -> Rows:
    """Rows as they come, by threads that each wait for a run of the analyser."""
    with futures.ThreadPoolExecutor(asked.jobs) as pool:
        waiting = {pool.submit(here, analyser, path, task, asked.seconds): path for path, task in tasks.items()}
        try:
            for done in futures.as_completed(waiting):
                yield waiting[done], done.result()
        except BaseException:
            pool.shutdown(cancel_futures=True)
            raise


def cluster(address: str) -> Tuple[Any, Any]:
    """The module of clusters, and a client of the scheduler at an address. Workers are sent the module `work` itself."""
    try:
        import cloudpickle
        import distributed
    except ImportError:
        raise needed("the module distributed", "python3-distributed") from None
    cloudpickle.register_pickle_by_value(work)
    try:
        return distributed, distributed.Client(address, timeout="10s")
    except (OSError, ValueError) as fault:
        raise Fault(MISSING, f"there is no scheduler at {address}: {fault}") from fault


def spread(analyser: Analyser, tasks: Mapping[str, Task], asked: argparse.Namespace) -> Rows:
    """Rows as they come from the workers of a cluster, each after this machine has judged it."""
    distributed, client = cluster(asked.scheduler)
    with client:
        waiting = {client.submit(work.answer_of, None, *task, analyser.tunables, asked.seconds, pure=False): path for path, task in tasks.items()}
        for done, answer in distributed.as_completed(waiting, with_results=True, raise_errors=False):
            path = waiting[done]
            yield path, judged(analyser, path, tasks[path], answer if done.status == "finished" else None, asked.seconds)


def task_of(path: str, passed_on: List[str]) -> Task:
    """The file's bytes and the words of its command; a file of scenarios takes no others."""
    output.refuse_standard(path, "a graph's name")
    data = output.read(path)
    is_scenario = b"fsmsadf" in data[:4096]
    return Task(data, ["scenario"] if is_scenario else ["throughput", *passed_on])


def add_words(parser: argparse.ArgumentParser) -> None:
    parser.add_argument("--jobs", type=words.count, default=os.cpu_count() or 1, metavar="N", help="how many runs at once on this machine; by "
                        "default its cores")
    parser.add_argument("--scheduler", metavar="ADDRESS", help="ask the workers of this Dask scheduler, as tcp://HOST:8786")
    parser.add_argument("--output", metavar="FILE", help="keep the rows here, and leave out those that stand in it")
    parser.add_argument("--seconds", type=words.seconds, metavar="S", help="how long a graph may take")
    parser.add_argument("files", nargs="+", metavar="FILE", help="graph files, or files of scenarios")


def sorted_out(asked: argparse.Namespace, table: Table) -> Tuple[Dict[str, Task], Dict[str, Fault]]:
    """What has to be run, each with its words, by file, and the files that can't be read, each with its fault."""
    tasks: Dict[str, Task] = {}
    faults: Dict[str, Fault] = {}
    for path in dict.fromkeys(asked.files):
        try:
            task = task_of(path, words.passed_on(asked))
        except Fault as fault:
            if fault.status != SHELF:
                raise
            faults[path] = fault
        else:
            if not table.has(path, key_of(*task)):
                tasks[path] = task
    return tasks, faults


def run(asked: argparse.Namespace) -> int:
    analyser = Analyser(asked.program)
    table = Table(asked.output, asked.json)
    tasks, faults = sorted_out(asked, table)
    table.begin({*tasks, *faults})
    for path, fault in faults.items():
        table.add(path, "", fault.status, None, fault.line)
    answers = (spread if asked.scheduler else local)(analyser, tasks, asked)
    for count, (path, (status, rate, line)) in enumerate(answers, 1):
        table.add(path, key_of(*tasks[path]), status, rate, line)
        output.progress(f"{count} of {len(tasks)} rows")
    output.progress("")
    table.end()
    if faults:
        output.tell(f"{len(faults)} of {len(set(asked.files))} files can't be read")
    if table.refused:
        output.tell(f"{table.refused} of {len(tasks)} rows don't count")
        return NO
    return SHELF if faults else 0
