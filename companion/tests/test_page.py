"""The page, which a browser without a screen opens: what is chosen and zoomed, by mouse and by keys, and how it looks in windows of all
kinds. The pictures of the documents are made here, where they show what stands no longer."""
import csv
import io
import json
import os
import re
import shutil
import subprocess
import sys
import threading
from fractions import Fraction
from pathlib import Path
from typing import Any, Dict, Iterator, List, Optional, Protocol

import pytest

from sdf3companion import page as pages
from sdf3companion.analyser import ROOT, Analyser
from sdf3companion.writing import Row, graph_text
from tests import large, looking
from tests.conftest import LAUNCHER, Example, Run
from tests.looking import Window

PICTURES = os.path.join(ROOT, "docs", "pictures")
RIGHT, LEFT, UP, HOME, END, PAGE_UP, PAGE_DOWN = "\ue014", "\ue012", "\ue013", "\ue011", "\ue010", "\ue00e", "\ue00f"
needs_graphviz = pytest.mark.skipif(shutil.which("dot") is None, reason="graphviz isn't installed")
pytestmark = [needs_graphviz, pytest.mark.xdist_group("browser")]

READABLE = """
const sizes = [...document.querySelectorAll(".drawing svg")].filter((svg) => svg.clientWidth > 0).flatMap((svg) => {
  const scale = svg.getBoundingClientRect().width / svg.viewBox.baseVal.width;
  return [...svg.querySelectorAll("text")].map((text) => Number(text.getAttribute("font-size")) * scale);
});
const rest = [...document.querySelectorAll("p, td, th, dt, dd, button, pre, #curve text")].map((part) => parseFloat(getComputedStyle(part).fontSize));
return Math.min(...sizes, ...rest);
"""
"""The least height of a font, in pixels."""
CONTRAST = """
const light = (colour) => {
  const shares = colour.match(/\\w\\w/g).map((part) => parseInt(part, 16) / 255);
  const [red, green, blue] = shares.map((part) => (part <= 0.04045 ? part / 12.92 : ((part + 0.055) / 1.055) ** 2.4));
  return 0.2126 * red + 0.7152 * green + 0.0722 * blue;
};
const whole = (name) => colour(name).replace(/^#(\\w)(\\w)(\\w)$/, "#$1$1$2$2$3$3");
const between = (one, other) => {
  const [low, high] = [light(whole(one)), light(whole(other))].sort((a, b) => a - b);
  return (high + 0.05) / (low + 0.05);
};
return Math.min(between("ink", "ground"), between("dim", "ground"), between("hot", "ground"), between("line", "ground"), between("ink", "panel"),
  between("ink", "hotfill"), between("ink", "firing"));
"""
"""The least contrast of a text, or of what else has to be seen, with its ground."""
OVERFLOW = "return document.documentElement.scrollWidth - document.documentElement.clientWidth;"


@pytest.fixture(scope="module")
def browser() -> Iterator[Any]:
    """A browser without a screen."""
    yield from looking.opened()


class Made(Protocol):
    """The page of a text, or of an example."""

    def __call__(self, name: str, text: Optional[str] = None) -> Path: ...


@pytest.fixture(scope="module")
def made(analyser: Analyser, tmp_path_factory: pytest.TempPathFactory) -> Made:
    """Makes the page of a text, or of an example, once; the graph is named as who runs it in its own folder would."""
    folder = tmp_path_factory.mktemp("pages")
    found: Dict[str, Path] = {}
    os.symlink(os.path.join(ROOT, "examples"), folder / "examples")

    def make(name: str, text: Optional[str] = None) -> Path:
        if name not in found:
            graph = f"{name}.xml" if text else f"examples/{name}.xml"
            if text:
                (folder / graph).write_text(text)
            page = folder / f"{name}.html"
            done = subprocess.run([sys.executable, LAUNCHER, "page", graph, str(page), "--no-overlap"], cwd=folder, capture_output=True, text=True,
                                  timeout=300, check=False, env={**os.environ, "SDF3ANALYSIS": analyser.program})
            assert done.returncode == 0, done.stderr
            found[name] = page
        return found[name]
    return make


def data_of(page: Path) -> Any:
    found = re.search(r'<script type="application/json" id="data">(.*?)</script>', page.read_text(), re.DOTALL)
    return json.loads(found[1] if found else "")


def text_of(browser: Any, name: str) -> str:
    return str(browser.find_element("id", name).text)


def chosen(browser: Any) -> str:
    return text_of(browser, "chosen")


def part(browser: Any) -> List[float]:
    """The part of the time that is shown."""
    found: List[float] = browser.execute_script("return [view.from, view.to];")
    return found


def at_ease(browser: Any, page: Path) -> None:
    """What a reader of any page sees: texts that can be read, and nothing that sticks out."""
    assert browser.execute_script(OVERFLOW) <= 0
    assert browser.execute_script(READABLE) >= 11
    assert browser.execute_script(CONTRAST) >= 4.5
    assert browser.get_log("browser") == []


def test_points_are_chosen_by_keys(browser: Any, made: Made) -> None:
    Window().show(browser, made("chain"))
    slider = browser.find_element("id", "curve")
    assert chosen(browser) == "Storage 10: rate 1/4 (0.25)"
    for keys, found in [(HOME, "Storage 6: rate 1/7 (0.142857)"), (RIGHT, "Storage 8: rate 1/6 (0.166667)"), (UP, "Storage 9: rate 1/5 (0.2)"),
                        (LEFT, "Storage 8: rate 1/6 (0.166667)"), (PAGE_UP, "Storage 10: rate 1/4 (0.25)"), (PAGE_DOWN, "Storage 6: rate 1/7 (0.142857)"),
                        (END, "Storage 10: rate 1/4 (0.25)")]:
        slider.send_keys(keys)
        assert chosen(browser) == found
    assert browser.get_log("browser") == []


def test_points_are_chosen_by_mouse(browser: Any, made: Made) -> None:
    Window().show(browser, made("chain"))
    rows = browser.find_elements("css selector", "#points tbody tr")
    assert [row.text for row in rows] == ["6 1/7 0.142857", "8 1/6 0.166667", "9 1/5 0.2", "10 1/4 0.25"]
    rows[1].click()
    assert chosen(browser) == "Storage 8: rate 1/6 (0.166667)"
    assert [row.get_attribute("aria-current") for row in rows] == [None, "true", None, None]
    browser.find_elements("css selector", "#curve .point")[0].click()
    assert chosen(browser) == "Storage 6: rate 1/7 (0.142857)"
    assert browser.switch_to.active_element.get_attribute("id") == "curve"
    assert text_of(browser, "buffers").split() == ["alpha", "4", "beta", "2"]
    assert text_of(browser, "cycle").splitlines()[0].startswith("cycle 7 1 ")
    commands = text_of(browser, "commands").splitlines()
    assert "sdf3analysis --algo throughput --graph examples/chain.xml --no-overlap --buffers alpha=4,beta=2" in commands
    assert commands[0].startswith("sdf3analysis --algo storage --graph examples/chain.xml --limit 6 ")


def test_readers_of_screens_are_told(browser: Any, made: Made) -> None:
    Window().show(browser, made("chain"))
    slider = browser.find_element("id", "curve")
    assert (slider.aria_role, slider.accessible_name) == ("slider", "point of the trade-off")
    assert slider.get_attribute("aria-valuetext") == "storage 10, rate 1/4, point 4 of 4"
    assert (slider.get_attribute("aria-valuemin"), slider.get_attribute("aria-valuenow"), slider.get_attribute("aria-valuemax")) == ("1", "4", "4")
    drawing = next(one for one in browser.find_elements("css selector", ".drawing") if one.is_displayed())
    assert drawing.accessible_name == "the graph: 3 actors and 2 channels"
    assert browser.find_element("id", "points").accessible_name == "points of the trade-off"
    assert [button.accessible_name for button in browser.find_elements("tag name", "button")] == [
        "Copy as CSV", "zoom in", "zoom out", "earlier", "later", "all"]
    headings = [heading.text for heading in browser.find_elements("css selector", "h1, h2")]
    assert headings == ["chain.xml", "The graph", "Storage and rate", "Storage 10: rate 1/4 (0.25)", "Time line", "Need cycle", "Commands"]


def test_points_are_copied_as_csv(browser: Any, made: Made) -> None:
    Window().show(browser, made("chain"))
    browser.execute_cdp_cmd("Browser.grantPermissions", {"permissions": ["clipboardReadWrite", "clipboardSanitizedWrite"]})
    browser.find_element("id", "copy").click()
    browser.execute_async_script("const done = arguments[0], wait = () => (at('copied').textContent ? done() : setTimeout(wait, 20)); wait();")
    assert text_of(browser, "copied") == "4 points copied."
    rows = list(csv.reader(io.StringIO(browser.execute_async_script("navigator.clipboard.readText().then(arguments[0]);"))))
    assert rows[0] == ["storage", "rate", "decimal", "alpha", "beta"]
    assert rows[1] == ["6", "1/7", "0.142857", "4", "2"] and rows[4] == ["10", "1/4", "0.25", "7", "3"]
    assert len(rows) == 5


def test_the_time_line_is_zoomed(browser: Any, made: Made) -> None:
    Window().show(browser, made("chain"))
    whole = part(browser)
    lines = browser.find_element("id", "lines")
    browser.execute_script("arguments[0].scrollIntoView();", lines)
    box = browser.execute_script("const box = arguments[0].getBoundingClientRect(); return [box.left + box.width / 2, box.top + 60];", lines)
    before = browser.execute_script("return canvas.toDataURL();")
    wheel = {"type": "mouseWheel", "x": box[0], "y": box[1], "deltaX": 0}
    browser.execute_cdp_cmd("Input.dispatchMouseEvent", {**wheel, "deltaY": -120})
    Window.settle(browser)
    nearer = part(browser)
    assert whole[0] < nearer[0] < nearer[1] < whole[1]
    assert browser.execute_script("return canvas.toDataURL();") != before
    browser.execute_cdp_cmd("Input.dispatchMouseEvent", {**wheel, "deltaY": 120})
    Window.settle(browser)
    assert part(browser) == pytest.approx(whole)
    lines.send_keys("+")
    assert part(browser) == pytest.approx([whole[1] / 4, whole[1] * 3 / 4])
    lines.send_keys(RIGHT)
    assert part(browser) == pytest.approx([whole[1] * 0.35, whole[1] * 0.85])
    assert text_of(browser, "part").startswith("from ")
    lines.send_keys("-")
    lines.send_keys(HOME)
    assert part(browser) == whole
    for button in browser.find_elements("css selector", "[data-key]"):
        button.click()
    assert part(browser) == whole
    assert browser.get_log("browser") == []


def test_the_time_line_tells_its_firings(browser: Any, made: Made) -> None:
    page = made("chain")
    Window().show(browser, page)
    point = data_of(page)["points"][-1]
    assert browser.execute_script("return view.schedule.starts.map((line) => [...line]);") == [[0, 1, 2], [2, 4], [6]]
    assert browser.execute_script("return view.schedule.period;") == point["period"] == 4
    where = "toldAt(toX(arguments[0]), HEAD + 4 + 28 * arguments[1] + 6)"
    assert browser.execute_script(f"return {where};", 2.5, 1).startswith("b, firing 0: 2 to 4")
    assert browser.execute_script(f"return {where};", 6.5, 2) == "c, firing 0: 6 to 8"
    assert browser.execute_script(f"return {where};", 0.5, 2) == "c"


def test_names_and_fractions_as_they_are(browser: Any, made: Made) -> None:
    name = "FFT \N{GREEK SMALL LETTER OMEGA}"
    Window().show(browser, made("names", graph_text("sdf", {name: Fraction(3, 2), "a, b": 2}, [Row("x=y", name, 1, "a, b", 1, 0)])))
    assert text_of(browser, "buffers").split("\n")[0] == "x=y"
    assert browser.execute_script("return data.actors;") == [name, "a, b"]
    assert "x%3Dy=" in text_of(browser, "commands")
    assert text_of(browser, "commands").startswith("sdf3companion adapt names.xml adapted.xml\n")
    assert browser.execute_script("return csv();").startswith("storage,rate,decimal,x=y\n")
    assert browser.execute_script("return toldAt(toX(0.5), HEAD + 10);").startswith(f"{name}, firing 0: 0 to 3/2")


def test_the_decoder(browser: Any, made: Made) -> None:
    page, window = made("h263_decoder"), Window(1160, 1500)
    window.show(browser, page)
    at_ease(browser, page)
    assert page.stat().st_size < 400_000
    assert browser.execute_script("return view.schedule.rows.map((row) => row.starts.length);") > [2]
    seen = looking.colours(browser)
    assert (seen["width"], seen["height"]) == (1160, 1500)
    assert seen["light"] > 0.7 and 0.001 < seen["red"] < 0.2
    looking.keep(browser, page, window, os.path.join(PICTURES, "decoder_page.png"))


def test_a_dark_window(browser: Any, made: Made) -> None:
    page, window = made("modem"), Window(1160, 1500, "dark")
    window.show(browser, page)
    at_ease(browser, page)
    seen = looking.colours(browser)
    assert seen["dark"] > 0.7 and seen["light"] < 0.1 and seen["red"] > 0.001
    looking.keep(browser, page, window, os.path.join(PICTURES, "modem_dark.png"))


def test_a_narrow_window(browser: Any, made: Made) -> None:
    page, window = made("modem"), Window(400, 1900)
    window.show(browser, page)
    at_ease(browser, page)
    assert [one.is_displayed() for one in browser.find_elements("css selector", ".drawing")] == [False, False, True]
    assert browser.execute_script("return document.querySelector('.narrow svg').getBoundingClientRect().right;") <= 400
    looking.keep(browser, page, window, os.path.join(PICTURES, "modem_narrow.png"))


def test_a_window_that_changes(browser: Any, made: Made) -> None:
    page = made("modem")
    Window(1160).show(browser, page)
    wide = browser.execute_script("return [canvas.clientWidth, at('curve').querySelector('.axis').getBBox().width];")
    Window(700).resize(browser)
    Window.settle(browser)
    narrow = browser.execute_script("return [canvas.clientWidth, at('curve').querySelector('.axis').getBBox().width];")
    assert all(one < other for one, other in zip(narrow, wide))
    at_ease(browser, page)


def test_a_hundred_actors(browser: Any, made: Made) -> None:
    page, window = made("hundred_actors", large.hundred_actors()), Window(1160, 1500)
    window.show(browser, page)
    at_ease(browser, page)
    assert page.stat().st_size < 1_000_000
    drawing = browser.execute_script("const box = document.querySelector('.wide svg').getBoundingClientRect(); return [box.width, box.height];")
    assert drawing[0] <= 1100 and drawing[1] > 800
    assert len(browser.find_elements("css selector", ".wide .node[id*='actor/']")) == 100
    assert len(browser.find_elements("css selector", "#buffers div")) == 99
    columns = browser.execute_script("return new Set([...document.querySelectorAll('#buffers div')].map((row) => row.offsetLeft)).size;")
    assert columns >= 3
    assert looking.colours(browser)["red"] > 0
    looking.keep(browser, page, window, os.path.join(PICTURES, "hundred_actors.png"))
    whole = part(browser)
    browser.find_element("id", "lines").send_keys("+++")
    near = part(browser)
    assert near[1] - near[0] <= (whole[1] - whole[0]) / 4


def test_a_thousand_points(browser: Any, made: Made) -> None:
    page, window = made("thousand_points", large.thousand_points()), Window(1160, 1500)
    assert len(data_of(page)["points"]) == 1001
    assert page.stat().st_size < 2_000_000
    window.show(browser, page)
    at_ease(browser, page)
    slider = browser.find_element("id", "curve")
    slider.send_keys(HOME)
    assert chosen(browser).startswith("Storage 1000: rate 1/2000 ")
    slider.send_keys(PAGE_UP)
    assert chosen(browser).startswith("Storage 1010: rate 1/1990 ")
    took = browser.execute_script("const begin = performance.now(); for (let n = 0; n < 50; n += 1) { choose(n * 20); draw(); } "
                                  "return performance.now() - begin;")
    assert took < 50 * 200
    slider.send_keys(END)
    slider.send_keys(PAGE_DOWN * 30)
    row = browser.find_element("css selector", "[aria-current]")
    assert browser.execute_script("const box = document.querySelector('.scroll').getBoundingClientRect(), row = arguments[0].getBoundingClientRect(); "
                                  "return row.top >= box.top && row.bottom <= box.bottom + 1;", row)
    Window.settle(browser)
    looking.keep(browser, page, window, os.path.join(PICTURES, "thousand_points.png"))


def test_pictures_know_what_they_show(browser: Any, made: Made, tmp_path: Path) -> None:
    page, window, picture = made("chain"), Window(600, 400), str(tmp_path / "chain.png")
    window.show(browser, page)
    looking.keep(browser, page, window, picture)
    first = os.stat(picture).st_mtime_ns
    looking.keep(browser, page, window, picture)
    assert os.stat(picture).st_mtime_ns == first
    looking.keep(browser, page, Window(601, 400), picture)
    assert os.stat(picture).st_mtime_ns != first
    with open(picture, "rb") as file:
        data = file.read()
    assert looking.source_of(data) == looking.digest_of(page.read_text(), Window(601, 400))


def test_page_needs_no_network(made: Made) -> None:
    text = made("chain").read_text().replace("http://www.w3.org/", "")
    assert "http:" not in text and "https:" not in text and "{{" not in text
    assert '<meta name="viewport"' in text


def test_page_without_a_point(run: Run, example: Example, tmp_path: Path) -> None:
    status, _, said = run("page", example("chain"), tmp_path / "page.html", "--no-overlap", "--seconds", "0")
    assert status == 8
    assert "limit of time" in said
    assert not (tmp_path / "page.html").exists()


def test_page_on_standard_output(run: Run, example: Example) -> None:
    status, text, error = run("page", example("ring"), "-")
    assert (status, error) == (0, "")
    assert text.startswith("<!DOCTYPE html>")


class Slow:
    """An analyser whose answers come only where two are asked for at once."""

    def __init__(self) -> None:
        self.both = threading.Barrier(2, timeout=20)

    def throughput(self, graph: Any, asked: List[str]) -> str:
        self.both.wait()
        return asked[-1]


class Named:
    def __init__(self, number: int) -> None:
        self.number = number

    def words(self) -> List[str]:
        return ["--buffers", f"a={self.number}"]


@pytest.mark.skipif((os.cpu_count() or 1) < 2, reason="there is one core")
def test_schedules_are_asked_for_side_by_side() -> None:
    class Asked:
        no_overlap, states = True, None

    asked: Any = (Slow(), None, Asked(), [Named(number) for number in range(4)])
    found: Any = pages.schedules(*asked)
    assert found == ["a=0", "a=1", "a=2", "a=3"]
