"""The command by which the packages run the proved analyser."""
import os
import sys

from sdf3companion.faults import MISSING

RUNNER = os.path.join(os.path.dirname(os.path.realpath(__file__)), "sdf3analysis")
"""The script that runs the proved program of a package, with its help and what the C library is told."""


def analyser() -> None:
    """Becomes the proved program, with the words of the command line."""
    if not os.path.exists(RUNNER):
        print("sdf3analysis: this isn't a package with the proved program", file=sys.stderr)
        sys.exit(MISSING)
    os.execv("/bin/sh", ["sh", RUNNER, *sys.argv[1:]])
