"""Companions of sdf3analysis: what a designer does with the analyser's answers, beyond one run of it.

Unproved: nothing here was checked by the prover. Every number comes from the analyser, or from plain arithmetic on its
numbers. Rates, times and schedules are by the times of the file that is given.
"""
from __future__ import annotations

import argparse
import os
import shutil
import signal
import sys
from types import ModuleType
from typing import Dict, NoReturn, Sequence

from sdf3companion import analyser, draw, faults, gantt, hints, output, page, verify, words
from sdf3companion.commands import adapt, batch, fastest, referee, tradeoff, whatif
from sdf3companion.faults import Fault

COMMANDS: Dict[str, ModuleType] = {"tradeoff": tradeoff, "fastest": fastest, "whatif": whatif, "referee": referee, "adapt": adapt, "gantt": gantt,
                                   "draw": draw, "page": page, "batch": batch, "verify": verify}
"""The subcommands. The module of each has a docstring, whose first line is its summary and whose rest is its help,
`add_words(parser)`, which adds the words it alone reads, and `run(asked)`, which answers its exit status."""
BUFFERS, CONSTRAINT = "its bufferSize as --buffers", "its throughput constraint as"
FROM_FILE = {"tradeoff": f"{CONSTRAINT} --rate", "fastest": BUFFERS, "whatif": BUFFERS, "referee": f"{CONSTRAINT} --claim, and {BUFFERS}",
             "gantt": BUFFERS, "draw": BUFFERS}
"""What a subcommand takes from the file by --use-file."""
OF_GRAPHS = (*FROM_FILE, "page", "batch")
"""The subcommands that pass words on to the analyser."""
WITHOUT_BUFFERS = ("tradeoff", "page")
"""Those of them that find the buffers themselves."""
TRACE = "SDF3COMPANION_TRACE"
"""The variable with which a fault of a companion itself is shown whole."""

STATUSES = """exit status: 0 where there is an answer, 1 where the answer is no (a claim that is refuted, a rate that no memory
reaches, rows that are refused), 11 where the answer can't be written, 14 where the analyser or a package is missing, 15 where the
companion itself fails, 130 where it was interrupted before there was anything to show; else the analyser's own, with its line on
standard error."""


class Parser(argparse.ArgumentParser):
    """A reader of words, for which words that it can't read are a fault like others."""

    def error(self, message: str) -> NoReturn:
        raise Fault(faults.USAGE, message, more=[f"`{self.prog} --help` has the words"])


def called() -> str:
    """The command by which companions are run, as it runs from here."""
    given = sys.argv[0] if sys.argv and sys.argv[0] else "companion"
    name = os.path.basename(given)
    if name.startswith("__main__"):
        return "python3 -m sdf3companion"
    on_path = shutil.which(name)
    return name if on_path is not None and os.path.realpath(on_path) == os.path.realpath(given) else given


def version() -> str:
    """The version of what these companions came with: a package, an archive or a clone."""
    for path in (os.path.join(analyser.HERE, "PROVED"), os.path.join(analyser.ROOT, "PROVED"), os.path.join(analyser.ROOT, "VERSION")):
        if os.path.isfile(path):
            with open(path, encoding="utf-8") as file:
                return file.readline().split()[-1]
    return "unknown"


def parser(command: str) -> Parser:
    """The reader of the words of all subcommands."""
    raw = argparse.RawDescriptionHelpFormatter
    whole = Parser(prog=command, description=(__doc__ or "").strip(), epilog=STATUSES, formatter_class=raw, allow_abbrev=False)
    whole.add_argument("--version", action="version", version=f"sdf3companion {version()}", help="show the version and exit")
    listed = whole.add_subparsers(dest="name", metavar="NAME", title="commands", parser_class=Parser)
    for name, module in COMMANDS.items():
        first, _, rest = (module.__doc__ or "").strip().partition("\n")
        one = listed.add_parser(name, help=first, description=f"{first}\n\n{words.UNPROVED}\n{rest}", epilog=STATUSES, formatter_class=raw,
                                allow_abbrev=False)
        module.add_words(one)
        if name in OF_GRAPHS:
            words.add_common(one, buffers=name not in WITHOUT_BUFFERS)
        if name in FROM_FILE:
            words.add_use_file(one, FROM_FILE[name])
    return whole


def answered(command: str, arguments: Sequence[str]) -> int:
    """The exit status of the subcommand that words ask for."""
    whole = parser(command)
    if not arguments:
        raise Fault(faults.USAGE, "a command has to be named", more=[f"`{command} --help` has their names"])
    asked, others = whole.parse_known_args(arguments)
    if asked.name is None:
        raise Fault(faults.USAGE, "a command has to be named", more=[f"`{command} --help` has their names"])
    if others:
        raise Fault(faults.USAGE, f"unrecognized arguments: {' '.join(others)}", more=[f"`{command} {asked.name} --help` has the words"])
    status = COMMANDS[asked.name].run(asked)
    assert isinstance(status, int), "each subcommand answers its exit status"
    return status


def told(fault: Fault, command: str) -> int:
    """Tells a fault on standard error: the analyser's line as it is, and what to try."""
    if fault.is_analysers:
        output.tell_as_it_is(fault.line)
    else:
        output.tell(fault.line)
    for line in [*fault.more, *hints.advice(fault, command)]:
        output.tell(line)
    return fault.status


def broken(failure: BaseException) -> int:
    """Tells in a line that a companion itself failed."""
    if os.environ.get(TRACE):
        raise failure
    if isinstance(failure, MemoryError):
        output.tell("there is no memory")
        return faults.MEMORY
    if isinstance(failure, OSError):
        output.tell(f"{failure.filename or 'a file'} can't be read or written: {failure.strerror or failure}")
        return faults.SHELF
    said = str(failure).partition("\n")[0]
    output.tell(f"the companion itself failed ({type(failure).__name__}: {said[:200]}); {TRACE}=1 shows where")
    return faults.BROKEN


def ended(printed: output.Printed, command: str, arguments: Sequence[str]) -> int:
    """The exit status of a run; whatever ends it is told in a line."""
    try:
        try:
            return answered(command, arguments)
        except SystemExit as end:
            return end.code if isinstance(end.code, int) else faults.USAGE
        finally:
            printed.flush()
    except faults.Unwritten as fault:
        printed.leave()
        return told(fault, command)
    except Fault as fault:
        return told(fault, command)
    except Exception as failure:
        return broken(failure)


def main(arguments: Sequence[str]) -> int:
    command = called()
    name = os.path.basename(command.partition(" ")[0]) if not command.startswith("python3 -m") else "sdf3companion"
    known = next((word for word in arguments[:1] if word in COMMANDS), None)
    output.speaker.name = f"{name} {known}" if known else name
    try:
        for number in (signal.SIGINT, signal.SIGTERM):
            signal.signal(number, signal.default_int_handler)
        status = ended(output.take_standard_output(), command, arguments)
    except KeyboardInterrupt:
        pass_over_interrupts()
        output.tell("interrupted")
        return faults.INTERRUPTED
    pass_over_interrupts()
    return status


def pass_over_interrupts() -> None:
    """From here on the end is near, and an interrupt would only take its words away."""
    for number in (signal.SIGINT, signal.SIGTERM):
        signal.signal(number, signal.SIG_IGN)


def console() -> NoReturn:
    """What an installed command runs."""
    sys.exit(main(sys.argv[1:]))


if __name__ == "__main__":
    console()
