"""What to try after a refusal, in a line."""
from __future__ import annotations

from typing import List

from sdf3companion.faults import BUDGET, CONNECTION, DEADLOCK, FORM, USAGE, Fault


def advice(fault: Fault, command: str) -> List[str]:
    """What may help, for the command by which companions are called."""
    if fault.status == FORM and "unknown channel" in fault.line:
        return ["a name is given as the file has it, or with % and two hexadecimal digits for a byte: FFT%20stage%201=4"]
    if fault.status == FORM and fault.is_analysers and not fault.more:
        return [f"try `{command} adapt GRAPH NEW.xml`, if the file is one of another tool"]
    if fault.status == CONNECTION:
        return [f"try --buffers NAME=NUMBER,.. or --use-file, which bound channels, or `{command} tradeoff GRAPH --no-overlap`, which needs no bounds"]
    if fault.status == DEADLOCK:
        return [f"try greater --buffers, or more tokens in the file; `{command} tradeoff GRAPH --no-overlap` has the least buffers with which it runs"]
    if fault.status == BUDGET and "distributions" in fault.line:
        return ["try a greater --distributions, up to 1000000, or a lesser --rate"]
    if fault.status == BUDGET and "states" in fault.line:
        return ["try a greater --states, up to 200000"]
    if fault.status == USAGE and fault.is_analysers:
        return [f"`{command} --help` has the words of each command"]
    return []
