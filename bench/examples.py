"""What each example costs on the machine at hand, as a table in Markdown.

Runs the program on the files of `examples/`. For a graph a row has the least wall-clock time of five runs for its whole trade-off up
to a limit, how many distributions that finds, the most memory of a run, and the time for its rate with the buffers of the fastest
point; for scenarios the time and memory for the worst rate. The distributions that are found are the least number of
`--distributions` with which the program ends.
"""
import argparse
from typing import Optional

from programs import ANALYSER, UNKNOWN, distributions, example, measured, memory, program
from tables import list_rows

GRAPHS = [
    ("chain", 10),
    ("mp3_player", 8000),
    ("two_filters", 12),
    ("h263_decoder", 8010),
    ("h263_encoder", 310),
    ("rate_converter", 60),
    ("modem", 25),
    ("satellite_receiver", 46),
    ("mp3_decoder", 17),
    ("lte_receiver", 118),
]
"""The graphs, each with the limit of its trade-off."""
SCENARIOS = ["video_modes", "wlan_receiver"]
MOST = 1_000_000


def add_words(parser: argparse.ArgumentParser) -> None:
    list_rows(parser, [*(f"{name} up to {limit:,}" for name, limit in GRAPHS), *SCENARIOS])


def path(name: str) -> str:
    return example(f"{name}.xml")


def storage(built: str, name: str, limit: int) -> list[str]:
    """The words for a trade-off."""
    return [built, "--algo", "storage", "--graph", path(name), "--no-overlap", "--limit", str(limit)]


def fastest(text: bytes) -> tuple[int, Optional[str]]:
    """The number of points of a trade-off, and the buffers of the last one."""
    lines = text.decode().split("\n")
    buffers = [line.split(" ")[1] for line in lines if line.startswith("buffers ")]
    return int(lines[0].split(" ")[1]), buffers[-1] if buffers else None


def rate_time(built: str, name: str, buffers: Optional[str]) -> str:
    """The milliseconds for the rate with these buffers, where there are some and there is a rate."""
    if buffers is None:
        return UNKNOWN
    found = measured([built, "--algo", "throughput", "--graph", path(name), "--no-overlap", "--buffers", buffers])
    return found.milliseconds if found.status == 0 else UNKNOWN


def graph_row(built: str, name: str, limit: int) -> str:
    found = measured([*storage(built, name, limit), "--distributions", str(MOST)])
    points, buffers = fastest(found.ended.stdout)
    took = rate_time(built, name, buffers)
    shown = distributions(storage(built, name, limit), MOST)
    return f"| {name} | {limit:,} | {points} | {shown} | {found.milliseconds} | {memory(found.words):.0f} | {took} |"


def scenario_row(built: str, name: str) -> str:
    found = measured([built, "--algo", "scenario", "--graph", path(name)])
    return f"| {name} | | | | | {memory(found.words):.0f} | {found.milliseconds} |"


def run(_: argparse.Namespace) -> None:
    built = program(ANALYSER)
    print("| Example | Limit | Points | Found | Trade-off, ms | MB | Rate, ms |")
    print("|---|---|---|---|---|---|---|", flush=True)
    for name, limit in GRAPHS:
        print(graph_row(built, name, limit), flush=True)
    for name in SCENARIOS:
        print(scenario_row(built, name), flush=True)
