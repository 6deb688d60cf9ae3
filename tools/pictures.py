#!/usr/bin/env python3
"""Draws the pictures of the documents anew: docs/pictures/*.svg. It needs nothing but Python.

    tools/pictures.py
"""
from __future__ import annotations

import os
import sys
from collections.abc import Sequence

sys.dont_write_bytecode = True
sys.path.insert(0, os.path.dirname(os.path.abspath(__file__)))
import sources  # noqa: E402

ROOT = os.path.dirname(os.path.dirname(os.path.abspath(__file__)))
FONT = "font-family='sans-serif' font-size='13'"
Place = tuple[float, float]


class Picture:
    """Boxes, lines and texts on a white ground."""

    def __init__(self, width: float, height: float) -> None:
        self.width, self.height = width, height
        self.parts: list[str] = []

    def box(self, x: float, y: float, width: float, height: float, text: str, fill: str = "#eef3fa") -> None:
        self.parts.append(f"<rect x='{x}' y='{y}' width='{width}' height='{height}' rx='4' fill='{fill}' stroke='#456'/>")
        self.text(x + width / 2, y + height / 2 + 4.5, text)

    def text(self, x: float, y: float, text: str, anchor: str = "middle", colour: str = "#222") -> None:
        shown = text.replace("&", "&amp;").replace("<", "&lt;")
        self.parts.append(f"<text x='{x}' y='{y}' text-anchor='{anchor}' fill='{colour}' {FONT}>{shown}</text>")

    def line(self, x: float, y: float, to_x: float, to_y: float, colour: str = "#789", arrow: bool = False, width: float = 1.2) -> None:
        end = " marker-end='url(#tip)'" if arrow else ""
        self.parts.append(f"<line x1='{x}' y1='{y}' x2='{to_x}' y2='{to_y}' stroke='{colour}' stroke-width='{width}'{end}/>")

    def bend(self, places: Sequence[Place], colour: str = "#789") -> None:
        """A line through places, with an arrow at its end."""
        shown = " ".join(f"{x},{y}" for x, y in places)
        self.parts.append(f"<polyline points='{shown}' fill='none' stroke='{colour}' stroke-width='1.8' marker-end='url(#tip)'/>")

    def save(self, name: str) -> None:
        folder = os.path.join(ROOT, "docs", "pictures")
        os.makedirs(folder, exist_ok=True)
        tip = ("<defs><marker id='tip' viewBox='0 0 8 8' refX='8' refY='4' markerWidth='8' markerHeight='8' orient='auto'>"
               "<path d='M0 0L8 4L0 8z' fill='#b33'/></marker></defs>")
        with open(os.path.join(folder, name), "w", encoding="utf-8") as file:
            file.write(f"<svg xmlns='http://www.w3.org/2000/svg' viewBox='0 0 {self.width} {self.height}' width='{self.width}' "
                       f"height='{self.height}'><rect width='100%' height='100%' fill='white'/>{tip}\n")
            file.write("\n".join(self.parts) + "\n</svg>\n")


def ring() -> None:
    """The ring of x, of time 2, and y, of time 3: two periods of its schedule, and the need cycle through them."""
    picture, unit, left = Picture(560, 190), 44, 70
    rows = {"x": 40, "y": 100}
    for moment in range(11):
        picture.line(left + moment * unit, 30, left + moment * unit, 150, "#dde")
        picture.text(left + moment * unit, 168, str(moment))
    for actor, number, start, time in [("x", 0, 0, 2), ("y", 0, 2, 3), ("x", 1, 5, 2), ("y", 1, 7, 3)]:
        picture.box(left + start * unit, rows[actor], time * unit, 34, f"{actor} {number}")
    for actor, top in rows.items():
        picture.text(left - 20, top + 22, actor)
    for from_x, from_y, to_x, to_y, link in [(2, 74, 2, 100, "xy"), (5, 100, 5, 74, "yx")]:
        picture.line(left + from_x * unit, from_y, left + to_x * unit, to_y, "#b33", True, 2)
        picture.text(left + to_x * unit + 8, 91, link, "start", "#b33")
    picture.text(left, 20, "a period of 5 for 1 round", "start")
    picture.line(left, 26, left + 5 * unit, 26, "#456", width=2)
    picture.save("ring.svg")


def chain() -> None:
    """The chain of three actors, with the times of the actors and the rates of the channels."""
    picture = Picture(520, 90)
    for i, (name, time) in enumerate([("a", 1), ("b", 2), ("c", 2)]):
        picture.box(20 + i * 190, 25, 100, 44, f"{name}, time {time}")
    for i, (made, name, taken) in enumerate([("2", "alpha", "3"), ("1", "beta", "2")]):
        x = 120 + i * 190
        picture.bend([(x, 47), (x + 90, 47)])
        picture.text(x + 12, 38, made, colour="#567")
        picture.text(x + 45, 66, name)
        picture.text(x + 74, 38, taken, colour="#567")
    picture.save("chain.svg")


def listed_layers() -> list[tuple[str, dict[str, set[str]]]]:
    """The layers of crates.txt but those for tests and benchmarks: a title each, and by crate the crates that it stands on."""
    layers = [layer for layer in sources.layers() if layer.title not in ("Tests", "Benchmarks")]
    listed = {name for layer in layers for name in layer.crates}
    return [(layer.title, {name: set(on) & listed for name, on in layer.crates.items()}) for layer in layers]


def crates() -> None:
    """The crates by layer: each stands on crates of its own layer, to its left, and on those of the layers below."""
    layers = listed_layers()
    step, margin, tall = 122, 104, 46
    width = margin + step * max(len(layer) for _, layer in layers) + 6
    picture = Picture(width, tall * len(layers) + 4)
    for i, (title, layer) in enumerate(reversed(layers)):
        if i % 2 == 0:
            picture.parts.append(f"<rect x='0' y='{i * tall}' width='{width}' height='{tall}' fill='#f4f6f8'/>")
        picture.text(10, i * tall + tall / 2 + 4.5, title, "start", "#567")
        for k, name in enumerate(layer):
            picture.box(margin + k * step, i * tall + 8, 114, 30, name)
    picture.save("crates.svg")


def run() -> None:
    """What the clause of the top call says of one run, as a tree."""
    picture = Picture(900, 330)
    picture.box(330, 10, 240, 34, "one run of analyse")
    cases = [
        ("Done", ["no refusal is due", "out has the whole text", "that answers the files"]),
        ("a refusal", ["it is due: its cause is in", "words and files, no earlier", "step has one; err has its line"]),
        ("a spent budget", ["none is due; what may end", "the command later did;", "err has its line"]),
        ("a fault", ["a count of faults rose;", "out or err has a first part", "of what was due to it"]),
        ("Memory", ["no claim on words or files;", "err has a first part of", "the constant line"]),
    ]
    for i, (status, lines) in enumerate(cases):
        x = 10 + i * 178
        picture.line(450, 44, x + 84, 90)
        picture.box(x, 90, 168, 30, status)
        for j, line in enumerate(lines):
            picture.text(x + 84, 144 + j * 20, line)
    facts = [("files stay, but for the one", "that the command puts"), ("after a refusal", "out has gained nothing"),
             ("executions are counted", "as the answer has them")]
    picture.text(450, 238, "and in every case")
    for i, (first, second) in enumerate(facts):
        picture.box(10 + i * 297, 255, 287, 52, "", "#f4f1e6")
        picture.text(10 + i * 297 + 143, 276, first)
        picture.text(10 + i * 297 + 143, 297, second)
    picture.save("run.svg")


def automaton(name: str, height: float, states: dict[str, tuple[float, float, str, bool]], others: Sequence[Sequence[Place]],
              critical: Sequence[Sequence[Place]], below: str) -> None:
    """States with the times of a scenario's actors, the ways between them, and the cycle of the worst-case rate in red."""
    picture = Picture(640, height)
    for colour, ways in [("#789", others), ("#b33", critical)]:
        for way in ways:
            picture.bend(way, colour)
    for state, (x, y, times, on_cycle) in states.items():
        picture.box(x, y, 100, 60, "", "#fdf0ee" if on_cycle else "#eef3fa")
        picture.text(x + 50, y + 24, state)
        picture.text(x + 50, y + 44, times)
    picture.text(320, height - 15, below, colour="#567")
    picture.save(name)


def packets() -> None:
    """The automaton of the receiver of packets."""
    automaton(
        "wlan_receiver.svg", 250,
        {"sync": (30, 110, "4, 3, 1", True), "head": (210, 110, "4, 3, 6", True), "data": (350, 20, "4, 3, 3", False),
         "last": (490, 110, "4, 3, 6", True)},
        [[(290, 110), (350, 70)], [(450, 70), (520, 110)], [(60, 110), (60, 85), (100, 85), (100, 110)],
         [(450, 35), (475, 35), (475, 55), (450, 55)]],
        [[(130, 140), (210, 140)], [(310, 140), (490, 140)], [(540, 170), (540, 205), (80, 205), (80, 170)]],
        "by state the times of antenna, vector core and scalar core; red: 1 + 6 + 6 = 13 for 3 symbols")


def frames() -> None:
    """The automaton of frames of two kinds."""
    automaton(
        "video_modes.svg", 190,
        {"i": (60, 45, "12 and 8", True), "p1": (270, 45, "3 + 4 and 8", True), "p2": (480, 45, "3 + 4 and 8", True)},
        [[(510, 45), (510, 20), (550, 20), (550, 45)]],
        [[(160, 75), (270, 75)], [(370, 75), (480, 75)], [(530, 105), (530, 140), (110, 140), (110, 105)]],
        "by state the times of the core and of the screen; red: the worst order, 28 ms for 3 frames")


def player() -> None:
    """The playback of an audio file: its actors, and its buffers with what fits."""
    picture = Picture(700, 150)
    actors = [("reader", "6"), ("decoder", "7, 5"), ("converter", "3"), ("player", "10")]
    buffers = [("1", "1,0", "2 frames"), ("576", "480", "1536 samples"), ("441", "441", "882 samples")]
    for i, (name, times) in enumerate(actors):
        picture.box(20 + i * 185, 40, 100, 60, "", "#fdf0ee" if name == "player" else "#eef3fa")
        picture.text(70 + i * 185, 64, name)
        picture.text(70 + i * 185, 84, times + " ms")
    for i, (made, taken, room) in enumerate(buffers):
        x = 120 + i * 185
        picture.bend([(x, 60), (x + 85, 60)])
        picture.bend([(x + 85, 82), (x, 82)])
        picture.text(x + 16, 53, made, colour="#567")
        picture.text(x + 66, 53, taken, colour="#567")
        picture.text(x + 42, 100, room, colour="#567")
    picture.bend([(605, 40), (605, 18), (645, 18), (645, 40)], "#b33")
    picture.text(350, 135, "red: the clock of the player, the need cycle of the rate: 12 blocks in 120 ms", colour="#567")
    picture.save("mp3_player.svg")


if __name__ == "__main__":
    ring()
    chain()
    packets()
    frames()
    player()
    crates()
    run()
