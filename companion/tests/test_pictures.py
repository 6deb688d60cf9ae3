"""Drawings and time lines. What a browser shows of a page is looked at in test_page."""
import json
import random
import re
import shutil
import subprocess
import xml.etree.ElementTree as ElementTree
from fractions import Fraction
from pathlib import Path
from typing import Any, Dict, Iterable, List, Optional, Set, Tuple

import pytest

from sdf3companion import curve, draw, folding, graphs, packing, page, ticks, timeline, xmltree
from sdf3companion.analyser import Analyser
from sdf3companion.answers import NeedCycle, Rate, Schedule, Step
from sdf3companion.gantt import times_of
from sdf3companion.writing import Row, graph_text
from tests import drawn, large
from tests.conftest import Example, GraphFile, Run

SVG = "{http://www.w3.org/2000/svg}"
RED = "#bb2222"
needs_graphviz = pytest.mark.skipif(shutil.which("dot") is None, reason="graphviz isn't installed")


def boxes(text: str) -> List[Tuple[Optional[str], Optional[str]]]:
    return [(box.get("class"), box.findtext(f"{SVG}title")) for box in ElementTree.fromstring(text).iter(f"{SVG}rect") if box.get("class")]


def test_time_line_of_the_ring(run: Run, example: Example, tmp_path: Path) -> None:
    out = tmp_path / "ring.svg"
    assert run("gantt", example("ring"), out) == (0, "", "")
    assert boxes(out.read_text()) == [("c", "x 0: 0 to 2"), ("c", "x 1: 5 to 7"), ("c", "y 0: 2 to 5"), ("f", "y 1: 7 to 10")]
    assert run("gantt", example("ring"))[1] == run("gantt", example("ring"), "-")[1] == out.read_text()


def test_time_line_has_ticks_and_numbers(run: Run, example: Example) -> None:
    texts = [part.text or "" for part in ElementTree.fromstring(run("gantt", example("ring"))[1]).iter(f"{SVG}text")]
    assert [text for text in texts if text not in "xy"] == ["0", "1", "2", "3", "4", "5", "6", "7", "8", "9", "10", "0", "1", "0", "1"]


def test_time_line_of_a_point(run: Run, example: Example) -> None:
    status, text, _ = run("gantt", example("chain"), "--no-overlap", "--point", "4", "--json")
    assert status == 0
    found = json.loads(text)
    assert (found["rate"], found["period"], len(found["firings"])) == ("1/4", 4, 6)
    assert run("gantt", example("chain"), "--no-overlap", "--point", "5") == (1, "", "sdf3companion gantt: there are 4 points\n")
    assert run("gantt", example("chain"), "--point", "0")[0] == 2


@pytest.mark.parametrize("words", [["gantt", "ring.png"], ["gantt", "ring.json"], ["gantt", "ring.svg", "--trace"], ["gantt", "ring", "--trace"],
                                   ["page", "ring.svg"], ["page", "-", "--json"], ["draw", "ring.doc"], ["gantt", "-", "--trace", "--json"]])
def test_endings_that_nothing_writes(run: Run, example: Example, tmp_path: Path, words: List[str]) -> None:
    name = words[1] if words[1] == "-" else str(tmp_path / words[1])
    status, text, error = run(words[0], example("ring"), name, *words[2:])
    assert (status, text) == (2, "")
    assert "Traceback" not in error
    assert not list(tmp_path.iterdir())


def answer_of(analyser: Analyser, path: str, *words: str) -> Tuple[Rate, timeline.Times]:
    graph = graphs.opened(analyser, path)
    return analyser.throughput(graph, list(words)), times_of(graph)


def test_firings_beside_each_other_stand_in_lanes(analyser: Analyser, example: Example) -> None:
    answer, times = answer_of(analyser, example("chain"), "--buffers", "alpha=40,beta=20")
    found = timeline.rows_of(answer, times, timeline.until(answer, times))
    for row in found.values():
        for lane in {box.lane for box in row}:
            ends = [(box.start, box.end) for box in row if box.lane == lane]
            assert all(end <= start for (_, end), (start, _) in zip(ends, ends[1:]))
    assert any(box.lane > 0 for row in found.values() for box in row)


def test_trace_events(run: Run, example: Example, tmp_path: Path) -> None:
    out = tmp_path / "chain.json"
    assert run("gantt", example("chain"), out, "--trace", "--buffers", "alpha=40,beta=20") == (0, "", "")
    document = json.loads(out.read_text())
    events = document["traceEvents"]
    names = {event["tid"]: event["args"]["name"] for event in events if event["name"] == "thread_name"}
    assert {"a", "b", "c", "a, beside 1"} <= set(names.values())
    slices: List[Any] = sorted((event for event in events if event["ph"] == "X"), key=lambda event: (event["tid"], event["ts"]))
    for thread in {event["tid"] for event in slices}:
        found = [event for event in slices if event["tid"] == thread]
        assert all(first["ts"] + first["dur"] <= then["ts"] for first, then in zip(found, found[1:]))
        assert {event["name"].split(" ")[0] for event in found} == {names[thread].split(",")[0]}
    assert {event["dur"] for event in slices if event["name"].startswith("b ")} == {2}
    starts, ends = ([event for event in events if event["ph"] == kind] for kind in "sf")
    assert len(starts) == len(ends) > 0
    within = {(event["tid"], event["ts"]): event for event in slices}
    assert all(within[event["tid"], event["ts"]]["cat"] == "need cycle" for event in starts)
    assert {event["name"] for event in ends} <= {"alpha", "beta", "alpha/space", "beta/space"}


def test_trace_of_the_ring(run: Run, example: Example) -> None:
    events = json.loads(run("gantt", example("ring"), "--trace")[1])["traceEvents"]
    assert [(event["name"], event["ts"], event["dur"]) for event in events if event["ph"] == "X"] == [
        ("x 0", 0, 2), ("x 1", 5, 2), ("y 0", 2, 3), ("y 1", 7, 3)]
    assert [(event["name"], event["ts"]) for event in events if event["ph"] == "f"] == [("xy", 2), ("yx", 5)]


def texts_of(svg: str) -> Any:
    return [part.text for part in ElementTree.fromstring(svg).iter(f"{SVG}text")]


def red_parts(svg: str) -> Any:
    """The names of the parts that are red."""
    groups = [group for group in ElementTree.fromstring(svg).iter(f"{SVG}g") if group.get("class") in ("node", "edge")]
    return {group.get("id") for group in groups if any(path.get("stroke") == RED for path in group.iter(f"{SVG}path"))}


@needs_graphviz
def test_drawing(run: Run, example: Example, tmp_path: Path) -> None:
    out = tmp_path / "chain.svg"
    status, text, _ = run("draw", example("chain"), out, "--no-overlap", "--buffers", "alpha=4,beta=2", "--json")
    assert status == 0
    assert json.loads(text)["cycle"]["time"] == 7
    assert {"a", "b", "c", "alpha", "[4]", "[2]", "space"} <= set(texts_of(out.read_text()))
    assert {"actor/a", "actor/b", "channel/alpha", "space/alpha"} <= red_parts(out.read_text())
    for form, begin in (("png", b"\x89PNG"), ("pdf", b"%PDF")):
        assert run("draw", example("chain"), tmp_path / f"chain.{form}", "--no-overlap") == (0, "", "")
        assert (tmp_path / f"chain.{form}").read_bytes().startswith(begin)


@needs_graphviz
def test_drawing_of_an_unbalanced_walk(run: Run, graph_file: GraphFile, tmp_path: Path) -> None:
    rows = [Row("ab", "a", 2, "b", 1), Row("bc", "b", 1, "c", 1), Row("ac", "a", 1, "c", 1), Row("cd", "c", 1, "d", 1)]
    path = graph_file(graph_text("sdf", {"a": 1, "b": 2, "c": 3, "d": 1}, rows))
    out = tmp_path / "walk.svg"
    status, _, error = run("draw", path, out)
    assert (status, error.startswith("sdf3analysis: inconsistent: walk ")) == (5, True)
    assert red_parts(out.read_text()) == {"channel/ab", "channel/bc", "channel/ac"}
    assert "inconsistent: walk" in " ".join(texts_of(out.read_text()))


@needs_graphviz
def test_drawing_of_blocked_actors(run: Run, graph_file: GraphFile, tmp_path: Path) -> None:
    rows = [Row("left", "in", 2, "FFT stage 1", 1), Row("right", "FFT stage 1", 1, "out", 2), Row("back & forth", "out", 1, "in", 1)]
    path = graph_file(graph_text("sdf", {"in": 1, "FFT stage 1": 2, "out": 1}, rows))
    out = tmp_path / "blocked.svg"
    status, _, error = run("draw", path, out, "--no-overlap")
    assert (status, error.startswith("sdf3analysis: deadlock: in 0 of 1 lacks back%20%26%20forth")) == (7, True)
    assert {"actor/in", "actor/FFT%20stage%201", "actor/out", "channel/back%20%26%20forth"} <= red_parts(out.read_text())
    assert {"FFT stage 1", "0 of 2 firings", "back & forth"} <= set(texts_of(out.read_text()))


@needs_graphviz
def test_drawing_of_a_missing_way(run: Run, example: Example, graph_file: GraphFile, tmp_path: Path) -> None:
    out = tmp_path / "way.svg"
    status, _, error = run("draw", example("chain"), out)
    assert (status, error.splitlines()[0]) == (6, "sdf3analysis: connection: no way from b to a")
    assert {"actor/a", "actor/b"} <= red_parts(out.read_text())
    assert {"no way", "sdf3analysis: connection: no way from b to a"} <= set(texts_of(out.read_text()))
    apart = graph_file(graph_text("sdf", {"a": 1, "b": 2, "c": 3}, [Row("ab", "a", 1, "b", 1, 0), Row("ba", "b", 1, "a", 1, 1), Row("cc", "c", 1, "c", 1, 1)]))
    assert run("draw", apart, out)[0] == 6
    assert {"actor/a", "actor/c"} <= red_parts(out.read_text())


@needs_graphviz
def test_what_can_not_be_drawn_leaves_what_stands(run: Run, graph_file: GraphFile, tmp_path: Path) -> None:
    out = tmp_path / "out.svg"
    out.write_text("old")
    assert run("draw", graph_file("<sdf3/>", "no.xml"), out)[0] == 3
    assert out.read_text() == "old"


@pytest.mark.parametrize("line, actors, channels, missing", [
    ("sdf3analysis: limit: ratio above 100000 along +x -y%2C", set(), {"x", "y,"}, None),
    ("sdf3analysis: deadlock: a 1 of 3 lacks x/space, b 0 of 2 lacks b/self", {"a", "b"}, set(), None),
    ("sdf3analysis: connection: a has no input", {"a"}, set(), None),
    ("sdf3analysis: connection: a and b are apart", {"a", "b"}, set(), ("a", "b")),
    ("sdf3analysis: budget: 1 states without a repeat", set(), set(), None),
])
def test_what_a_refusal_says(line: str, actors: Set[str], channels: Set[str], missing: Optional[Tuple[str, str]]) -> None:
    marks = draw.of_refusal(line)
    assert marks is not None
    assert (marks.actors, marks.channels, marks.missing, marks.refusal) == (actors, channels, missing, line)


def test_what_a_refusal_says_not() -> None:
    assert draw.of_refusal("sdf3analysis: form: wrong kind") is None
    assert draw.of_refusal("sdf3analysis: limit: actors above 128") is None


def laid_out(text: str, between: float = 0.5) -> Any:
    graph = graphs.Graph(xmltree.parsed(text.encode(), "graph").root)
    source = draw.dot(graph, draw.Marks(), {}, between=between)
    done = subprocess.run(["dot", "-Tjson0"], input=source, capture_output=True, text=True, check=True)
    return graph, folding.Drawing(done.stdout)


def box_places(folded: Any) -> Any:
    """By actor the corners of its box in the folded drawing."""
    places: Dict[str, Tuple[float, ...]] = {}
    for name, x, y in (re.findall(r'"([^"]+)" \[.*pos="([-\d.]+),([-\d.]+)"\];', line)[0] for line in folded.boxes()):
        box = next(box for box in folded.drawing.boxes if box.name == name)
        places[name] = (float(x) - box.width / 2, float(y) - box.height / 2, float(x) + box.width / 2, float(y) + box.height / 2)
    return places


def apart(one: Tuple[float, ...], other: Tuple[float, ...]) -> bool:
    return one[2] <= other[0] or other[2] <= one[0] or one[3] <= other[1] or other[3] <= one[1]


def check_folding(drawing: folding.Drawing, room: float) -> Any:
    """Boxes stay apart and in the room; the parts of a line follow each other, from the tail to the head, in rows beside each other at the
    same height."""
    folded = folding.Folded(drawing, room)
    places = list(box_places(folded).values())
    assert all(apart(one, other) for at, one in enumerate(places) for other in places[:at])
    assert max(place[2] for place in places) <= max(room, 1.05 * max(box.width + 120 for box in drawing.boxes))
    for line, parts in folded.parts:
        assert parts[0].curve[0] == line.curve[0] and parts[0].is_first
        assert parts[-1].curve[-1] == line.curve[-1] and parts[-1].is_last
        for part, then in zip(parts, parts[1:]):
            assert part.curve[-1] == then.curve[0]
            assert abs(part.row - then.row) == 1
            assert min(abs(part.curve[-1][0] - cut) for cut in folded.cuts) < 0.1
    return len(folded.cuts) + 1


@needs_graphviz
def test_folded_drawings_of_drawn_graphs() -> None:
    rows = []
    for seed in range(12):
        _, drawing = laid_out(drawn.Drawn(seed, back=0.5).text())
        rows.append(check_folding(drawing, 180))
    assert max(rows) > 1


@needs_graphviz
@pytest.mark.parametrize("window, most", [("wide", 20), ("medium", 34), ("narrow", 60)])
def test_a_hundred_actors_fold_into_rows(window: str, most: float) -> None:
    room, between = page.ROOMS[window]
    graph, drawing = laid_out(large.hundred_actors(), between)
    assert len(graph.actors) == 100
    assert 100 * 80 < drawing.width()
    assert 5 < check_folding(drawing, room) < most


def test_lists_and_names_have_room() -> None:
    assert [draw.listed(values) for values in ([3], [1, 2], [1, 1], [4] * 9 + [2])] == ["3", "1,2", "1,1", "9*4,2"]
    assert draw.listed(list(range(10, 60))).endswith(",\N{HORIZONTAL ELLIPSIS} of 50")
    assert len(draw.shortened("\N{GRINNING FACE}" * 128)) <= draw.LETTERS


def unpacked(items: Iterable[Any]) -> Any:
    return [one for item in items for one in (item[1:] * item[0] if isinstance(item, list) else [item])]


def test_packed_lists_are_what_they_were() -> None:
    draws = random.Random(1)
    for _ in range(300):
        items = [draws.choice([1, 1, 2, 3]) for _ in range(draws.randint(0, 40))] * draws.randint(1, 3)
        assert unpacked(packing.packed(items)) == items
    assert packing.packed([0] + [559] * 2375) == [0, [2375, 559]]
    assert packing.packed([1, 2] * 500) == [[500, 1, 2]]


def test_schedules_are_packed_as_they_are(analyser: Analyser, example: Example) -> None:
    answer, times = answer_of(analyser, example("chain"), "--no-overlap", "--buffers", "alpha=7,beta=3")
    assert packing.unit_of(times.values(), [answer]) == 1
    found = packing.Packer(list(times), 1, 1000).document(answer)
    assert [sums(unpacked(line)) for line in found["starts"]] == list(answer.schedule.starts.values())
    cut = packing.Packer(list(times), 1, 1).document(answer)
    assert len(cut["cycle"]["steps"]) <= 1 and cut["upto"] >= 0
    assert all(sums(unpacked(line)) == whole[:len(unpacked(line))] for line, whole in zip(cut["starts"], answer.schedule.starts.values()))


def sums(items: List[Any]) -> Any:
    return [sum(items[:at + 1]) for at in range(len(items))]


def test_fractions_of_time_become_whole() -> None:
    schedule = Schedule(Fraction(7, 2), 1, {"a": [0, Fraction(2, 3)]})
    answer = Rate(Fraction(2, 7), schedule, NeedCycle(Fraction(7, 2), 1, [Step("a", 0), Step("a", 2, "a/self")]))
    assert packing.unit_of([[Fraction(1, 4)]], [answer]) == 12
    found = packing.Packer(["a"], 12, 100).document(answer)
    assert (found["period"], found["starts"], found["cycle"]["time"]) == (42, [[0, 8]], 42)


@pytest.mark.parametrize("low, high, most, found", [(0, 10, 5, [0, 2, 4, 6, 8, 10]), (0, 0.25, 5, [0, 0.05, 0.1, 0.15, 0.2, 0.25]), (6, 6, 1, [6]),
                                                    (4753, 4821, 7, list(range(4760, 4821, 10)))])
def test_ticks(low: float, high: float, most: int, found: List[float]) -> None:
    assert ticks.ticks(low, high, most) == pytest.approx(found)


def test_curve_has_its_points() -> None:
    svg = ElementTree.fromstring(curve.svg([(6, Fraction(1, 7)), (10, Fraction(1, 4))]))
    assert [title.text for title in svg.iter(f"{SVG}title")] == ["storage 6, rate 1/7 (0.142857)", "storage 10, rate 1/4 (0.25)"]
    assert {"6", "10", "0.1", "storage"} <= {text.text for text in svg.iter(f"{SVG}text")}
