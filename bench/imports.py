#!/usr/bin/env python3
"""Imports random layouts, and compares what was written with KLayout's own flattening. No part of the gate.

    bench/imports.py [--layouts N] [--defs N] [--first SEED] [--processes N]

Half of the layouts are GDSII and half OASIS: cells of boxes, paths (round, with longer ends, crossing themselves, closed
to rings), polygons (overlapping themselves, slanted) and labels on several layers, with instances turned, mirrored,
arrayed and magnified. Besides there are DEF files with LEF, of 1,000 to 20,000 units a micron, whose metal is known
without KLayout. The text is read by tools/cif.py, and both sides are filled and compared strip by strip, shapes of a
layout by their winding number and figures of the text by even and odd. A layer with slanted sides is read by KLayout, and
may differ by what is thinner than two units. Ends with 1 where one differs. Many are imported in one run of KLayout, with the
check of tools/import.
"""

from __future__ import annotations

import argparse
import json
import os
import random
import sys
import tempfile
from concurrent.futures import ThreadPoolExecutor
from fractions import Fraction
from typing import Any, Iterable, List, NamedTuple, Tuple

TOP = os.path.dirname(os.path.dirname(os.path.abspath(__file__)))
TOOLS = os.path.join(TOP, "tools")
SCRIPT = "import sys\nsys.path += [bench, tools]\nimport imports\nimports.batch(kind, int(first), int(count), folder, said)\n"
BATCH = 100
UNITS = (1_000, 2_000, 4_000, 10_000, 20_000)

Figure = List[Tuple[Any, Any]]


# ---- what is filled


def strips(figures: list[Figure]) -> list[Fraction]:
    return sorted({y for points in figures for _, y in points})


class Sides(NamedTuple):
    """The level sides of a figure, each an x, a lower and an upper y, and 1 upwards or -1 downwards."""

    low: Any
    high: Any
    sides: List[Tuple[Any, Any, Any, int]]


def sides_of(points: Figure) -> Sides:
    found = []
    for (x1, y1), (x2, y2) in zip(points, [*points[1:], points[0]]):
        if y1 != y2:
            found.append((x1, min(y1, y2), max(y1, y2), 1 if y2 > y1 else -1))
    found.sort()
    return Sides(min((side[1] for side in found), default=0), max((side[2] for side in found), default=0), found)


def stretches(figures: list[Sides], low: Any, high: Any, is_even_odd: bool) -> list[tuple[Any, Any]]:
    """What figures fill of a strip, as stretches along it."""
    found = []
    for figure in figures:
        winding, start = 0, None
        for x, bottom, top, turn in figure.sides:
            if bottom <= low and high <= top:
                winding += turn
                inside = winding % 2 == 1 if is_even_odd else winding != 0
                if inside and start is None:
                    start = x
                elif not inside and start is not None:
                    found.append((start, x))
                    start = None
    return united(found)


def united(found: list[tuple[Any, Any]]) -> list[tuple[Any, Any]]:
    joined: list[list[Any]] = []
    for start, end in sorted(pair for pair in found if pair[0] < pair[1]):
        if joined and start <= joined[-1][1]:
            joined[-1][1] = max(joined[-1][1], end)
        else:
            joined.append([start, end])
    return [(start, end) for start, end in joined]


def difference(layout: list[Figure], text: list[Figure]) -> str:
    """Where level figures of a layout, filled whole, and those of a text differ, in words; empty where they do not."""
    heights = strips(layout + text)
    left, right = [sides_of(points) for points in layout], [sides_of(points) for points in text]
    for low, high in zip(heights, heights[1:]):
        mine = stretches([f for f in left if f.low <= low and high <= f.high], low, high, False)
        theirs = stretches([f for f in right if f.low <= low and high <= f.high], low, high, True)
        if mine != theirs:
            return f"between {low} and {high}: {mine} and {theirs}"
    return ""


# ---- random layouts


class Maker:
    """A random layout in KLayout."""

    def __init__(self, seed: int, pya: Any) -> None:
        self.chance, self.pya = random.Random(seed), pya
        # OASIS has half the width of a path
        self.is_oasis = seed % 2 == 0
        self.layout = pya.Layout(False)
        self.layout.dbu = self.chance.choice([0.001, 0.005, 0.01, 0.0005, 0.0025])
        self.step = self.chance.choice([1, 2, 16])
        self.is_slanted = self.chance.random() < 0.25
        numbers = self.chance.sample([(1, 0), (15, 0), (15, 3), (255, 1), (7, 0)], self.chance.randrange(1, 4))
        self.layers = [self.layout.layer(number, kind) for number, kind in numbers]
        self.cells = [self.layout.create_cell(f"C{i}") for i in range(self.chance.randrange(2, 6))]
        for number, cell in enumerate(self.cells):
            self.fill(cell)
            self.call(cell, self.cells[:number])
        tops = [cell for cell in self.cells if cell.is_top()]
        self.top = self.layout.create_cell("TOP")
        for cell in tops:
            self.top.insert(pya.CellInstArray(cell.cell_index(), pya.Trans(0, 0)))
        self.fill(self.top)

    def at(self, most: int = 400) -> int:
        return self.chance.randrange(-most, most) * self.step

    def point(self) -> Any:
        return self.pya.Point(self.at(), self.at())

    def fill(self, cell: Any) -> None:
        for _ in range(self.chance.randrange(0, 7)):
            kind = self.chance.choice([self.box, self.path, self.path, self.ring, self.polygon, self.eight, self.stairs, self.label])
            if self.is_slanted and self.chance.random() < 0.3:
                kind = self.chance.choice([self.slanted, self.round])
            cell.shapes(self.chance.choice(self.layers)).insert(kind())

    def box(self) -> Any:
        p = self.point()
        wide, high = (self.chance.randrange(0, 200) * self.step for _ in range(2))
        return self.pya.Box(p.x, p.y, p.x + wide, p.y + high)

    def width(self) -> int:
        odd = [] if self.is_oasis else [1, 7]
        return self.chance.choice([0, *odd, *[self.chance.randrange(1, 60) * 2] * 9]) * self.step

    def path(self) -> Any:
        points = [self.point()]
        level = self.chance.random() < 0.5
        for _ in range(self.chance.randrange(1, 9)):
            x, y = points[-1].x, points[-1].y
            points.append(self.pya.Point(self.at(), y) if level else self.pya.Point(x, self.at()))
            level = not level
        wide = self.width()
        ends = [self.chance.choice([0, wide // 2, wide, 10 * self.step]) for _ in range(2)]
        return self.pya.Path(points, wide, *ends)

    def ring(self) -> Any:
        a, b = self.point(), self.point()
        points = [a, self.pya.Point(a.x, b.y), b, self.pya.Point(b.x, a.y), a]
        wide = self.chance.randrange(1, 40) * 2 * self.step
        end = self.chance.choice([0, wide // 2])
        return self.pya.Path(points, wide, end, end)

    def polygon(self) -> Any:
        """A closed line of level sides that crosses itself as it likes."""
        first = self.point()
        points, x, y = [], first.x, first.y
        for _ in range(self.chance.randrange(1, 6)):
            points.append(self.pya.Point(x, y))
            x = self.at()
            points.append(self.pya.Point(x, y))
            y = self.at()
        points += [self.pya.Point(x, y), self.pya.Point(first.x, y)]
        return self.pya.Polygon(points, True)

    def eight(self) -> Any:
        """Two equal squares that meet at a corner, gone round in opposite directions."""
        x, y, side = self.at(), self.at(), self.chance.randrange(1, 90) * self.step
        steps = [(0, 0), (0, 1), (2, 1), (2, 2), (1, 2), (1, 0)]
        return self.pya.Polygon([self.pya.Point(x + a * side, y + b * side) for a, b in steps], True)

    def stairs(self) -> Any:
        x, y = self.at(), self.at()
        corner, points = self.pya.Point(x, y), []
        for _ in range(self.chance.randrange(1, 5)):
            y += self.chance.randrange(1, 60) * self.step
            points.append(self.pya.Point(x, y))
            x += self.chance.randrange(1, 60) * self.step
            points.append(self.pya.Point(x, y))
        return self.pya.Polygon([corner, *points, self.pya.Point(x, corner.y)], True)

    def slanted(self) -> Any:
        return self.pya.Polygon([self.point() for _ in range(self.chance.randrange(3, 7))], True)

    def round(self) -> Any:
        path = self.chance.choice([self.path, self.ring])()
        wide = self.chance.randrange(1, 30) * 2 * self.step
        return self.pya.Path(list(path.each_point()), wide, wide // 2, wide // 2, True)

    def label(self) -> Any:
        return self.pya.Text("label", self.pya.Trans(self.at(), self.at()))

    def call(self, cell: Any, below: list[Any]) -> None:
        for other in below:
            if self.chance.random() < 0.5:
                angle = self.chance.choice([0, 90, 180, 270] * 5 + ([45, 30] if self.is_slanted else []))
                large = self.chance.choice([1, 1, 1, 1, 2, 3, 0.5, 1.5, 0.7])
                shift = [self.at(800) for _ in range(2)]
                placed = self.pya.ICplxTrans(large, angle, self.chance.random() < 0.4, *shift)
                if self.chance.random() < 0.3:
                    steps = self.pya.Vector(self.at(900), self.at(9)), self.pya.Vector(self.at(9), self.at(900))
                    counts = [self.chance.randrange(1, 4) for _ in range(2)]
                    cell.insert(self.pya.CellInstArray(other.cell_index(), placed, *steps, *counts))
                else:
                    cell.insert(self.pya.CellInstArray(other.cell_index(), placed))


class Case(NamedTuple):
    path: str
    words: dict[str, Any]
    # the layers of the layout that come together, by the name that they get
    layers: dict[str, list[tuple[int, int]]]


def random_case(seed: int, folder: str, pya: Any) -> Case:
    made = Maker(seed, pya)
    path = os.path.join(folder, f"{seed}.{'oas' if made.is_oasis else 'gds'}")
    made.layout.write(path)
    # a layer without a shape is not written
    layout = pya.Layout(False)
    layout.read(path)
    pairs = sorted((info.layer, info.datatype) for info in layout.layer_infos())
    names = {f"{a}/{b}": made.chance.choice(["M1", "M2"]) for a, b in pairs if made.chance.random() < 0.4}
    only = [f"{a}/{b}" for a, b in made.chance.sample(pairs, min(1, len(pairs)))] if made.chance.random() < 0.2 else []
    layers: dict[str, list[tuple[int, int]]] = {}
    for a, b in pairs:
        if not only or f"{a}/{b}" in only:
            layers.setdefault(names.get(f"{a}/{b}", f"L{a}D{b}"), []).append((a, b))
    words = asked(path, made.chance.choice([1, 2, 10]), names, only, "TOP" if made.chance.random() < 0.3 else None)
    return Case(path, words, layers)


def asked(path: str, times: int, names: dict[str, str], only: list[str], cell: str | None, lef: tuple[str, ...] = ()) -> dict[str, Any]:
    return {"layout": path, "lef": list(lef), "times": times, "names": names, "layers": only, "cell": cell, "unchecked": False}


# ---- DEF and LEF


class Routed:
    """A random design, and its metal in micrometres as it is due."""

    def __init__(self, seed: int, folder: str) -> None:
        self.chance = random.Random(seed)
        self.units, self.of_lef = self.chance.choice(UNITS), self.chance.choice(UNITS)
        self.due: dict[str, list[Figure]] = {}
        self.wide, self.via = self.lef_length(40, 400), [self.lef_length(40, 300) for _ in range(2)]
        self.size = [self.lef_length(2_000, 4_000) for _ in range(2)]
        self.pin = [self.lef_length(0, 900) for _ in range(2)] + [self.lef_length(1_000, 1_900) for _ in range(2)]
        self.path, self.lef = (os.path.join(folder, f"{seed}.{end}") for end in ("def", "lef"))
        self.write(self.lef, self.lef_lines())
        self.write(self.path, self.def_lines())

    def lef_length(self, low: int, high: int) -> Fraction:
        """A length in LEF: so many thousandths of a micron, and some of its own units."""
        return Fraction(self.chance.randrange(low, high), 1000) + Fraction(self.chance.randrange(0, 20), self.of_lef)

    def def_length(self) -> int:
        return self.chance.randrange(-9_000, 9_000) * self.units // 1000 + self.chance.randrange(0, 20)

    def write(self, path: str, lines: Iterable[str]) -> None:
        with open(path, "w", encoding="utf-8") as file:
            file.write("\n".join([*lines, ""]))

    def put(self, layer: str, x1: Fraction, y1: Fraction, x2: Fraction, y2: Fraction) -> None:
        self.due.setdefault(layer, []).append([(x1, y1), (x2, y1), (x2, y2), (x1, y2)])

    def lef_lines(self) -> list[str]:
        across, up = self.via
        lines = ["VERSION 5.8 ;", f"UNITS DATABASE MICRONS {self.of_lef} ; END UNITS"]
        for name in ("met1", "met2"):
            lines += [f"LAYER {name}", "TYPE ROUTING ;", "DIRECTION HORIZONTAL ;", f"WIDTH {said(self.wide)} ;", f"END {name}"]
        lines += ["LAYER cut", "TYPE CUT ;", "END cut", "VIA through DEFAULT"]
        for name in ("met1", "cut", "met2"):
            lines += [f"LAYER {name} ;", f"RECT {said(-across)} {said(-up)} {said(across)} {said(up)} ;"]
        lines += ["END through", "MACRO CELL", "CLASS CORE ;", "ORIGIN 0 0 ;", f"SIZE {said(self.size[0])} BY {said(self.size[1])} ;"]
        lines += ["PIN A", "PORT", "LAYER met1 ;", f"RECT {' '.join(map(said, self.pin))} ;", "END", "END A", "END CELL", "END LIBRARY"]
        return lines

    def def_lines(self) -> list[str]:
        lines = ["VERSION 5.8 ;", "DESIGN TOP ;", f"UNITS DISTANCE MICRONS {self.units} ;", "COMPONENTS 4 ;"]
        lines += [self.component(number) for number in range(4)]
        lines += ["END COMPONENTS", "SPECIALNETS 1 ;", "- power", *self.strap(), ";", "END SPECIALNETS", "NETS 1 ;", "- net"]
        for number in range(self.chance.randrange(1, 6)):
            lines.append(self.wire("ROUTED" if number == 0 else "NEW"))
        return [*lines, ";", "END NETS", "END DESIGN"]

    def component(self, number: int) -> str:
        turn = self.chance.choice(["N", "S", "FN", "FS"])
        x, y = self.def_length(), self.def_length()
        left, bottom = Fraction(x, self.units), Fraction(y, self.units)
        x1, y1, x2, y2 = self.pin
        if turn in ("S", "FN"):
            x1, x2 = self.size[0] - x2, self.size[0] - x1
        if turn in ("S", "FS"):
            y1, y2 = self.size[1] - y2, self.size[1] - y1
        self.put("MET1", left + x1, bottom + y1, left + x2, bottom + y2)
        return f"- c{number} CELL + PLACED ( {x} {y} ) {turn} ;"

    def strap(self) -> list[str]:
        x, y, end, wide = (self.def_length() for _ in range(4))
        wide = abs(wide) + 1
        low, high = Fraction(min(x, end), self.units), Fraction(max(x, end), self.units)
        half = Fraction(wide, 2 * self.units)
        self.put("MET1", low, Fraction(y, self.units) - half, high, Fraction(y, self.units) + half)
        return [f"+ ROUTED met1 {wide} + SHAPE STRIPE ( {x} {y} ) ( {end} {y} )"]

    def wire(self, word: str) -> str:
        layer = self.chance.choice(["met1", "met2"])
        x, y = self.def_length(), self.def_length()
        words, half = [f"{'+ ' if word == 'ROUTED' else ''}{word} {layer} ( {x} {y} )"], self.wide / 2
        for step in range(self.chance.randrange(1, 5)):
            to = self.def_length()
            after = (to, y) if step % 2 == 0 else (x, to)
            (x1, x2), (y1, y2) = (sorted(Fraction(at, self.units) for at in ends) for ends in zip((x, y), after))
            self.put(layer.upper(), x1 - half, y1 - half, x2 + half, y2 + half)
            words.append(f"( {to} * )" if step % 2 == 0 else f"( * {to} )")
            x, y = after
        if self.chance.random() < 0.5:
            words.append("through")
            middle = Fraction(x, self.units), Fraction(y, self.units)
            for name in ("MET1", "CUT", "MET2"):
                self.put(name, *(at - by for at, by in zip(middle, self.via)), *(at + by for at, by in zip(middle, self.via)))
        return " ".join(words)


def said(length: Fraction) -> str:
    """A length in LEF, with as many digits as it has."""
    sign, whole = "-" if length < 0 else "", abs(length) * 10**6
    assert whole.denominator == 1
    return f"{sign}{whole.numerator // 10**6}.{whole.numerator % 10**6:06}".rstrip("0").rstrip(".")


# ---- comparing, in KLayout


def batch(kind: str, first: int, count: int, folder: str, said: str) -> None:
    """Imports and compares some layouts, and writes what differs."""
    found = {}
    for seed in range(first, first + count):
        wrong = wrong_in_def(seed, folder) if kind == "def" else wrong_in_layout(seed, folder)
        if wrong:
            found[seed] = wrong
    with open(said, "w", encoding="utf-8") as file:
        json.dump(found, file)


def text_of(words: dict[str, Any], folder: str) -> bytes:
    """What the import wrote; nothing where it refused for want of figures."""
    import importing

    target, told = os.path.join(folder, "text.cif"), os.path.join(folder, "told")
    importing.run(json.dumps(words), target, told)
    with open(told, encoding="utf-8") as file:
        answer = json.load(file)
    if "refused" in answer:
        if "figure" in answer["refused"]:
            return b"E"
        raise ValueError(answer["refused"])
    with open(target, "rb") as file:
        return file.read()


def wrong_in_layout(seed: int, folder: str) -> str:
    import pya  # type: ignore[import]
    from cif import Layout

    case = random_case(seed, folder, pya)
    try:
        text = text_of(case.words, folder)
    except ValueError as error:
        return f"refused: {error}"
    layout = pya.Layout(False)
    layout.read(case.path)
    read, grid = Layout(text), Fraction(repr(layout.dbu)).limit_denominator(10**9) * 200 * case.words["times"]
    for name, pairs in case.layers.items():
        shapes = flat(layout, pairs, pya)
        if any(edge.dx() and edge.dy() for shape in shapes for edge in shape.each_edge()):
            wrong = sliver(shapes, os.path.join(folder, "text.cif"), name, case.words["times"], layout.dbu, pya)
        else:
            points = [[(point.x, point.y) for point in shape.each_point_hull()] for shape in shapes]
            wrong = difference(points, [[(x / grid, y / grid) for x, y in figure] for figure in read.figures(name)])
        if wrong:
            return f"{case.path} layer {name}: {wrong}"
    more = set(read.counts()) - set(case.layers)
    return f"{case.path} has layers {more} besides" if more else ""


def flat(layout: Any, pairs: list[tuple[int, int]], pya: Any) -> list[Any]:
    """The shapes of layers by all instances, as polygons that are not merged."""
    found = []
    for pair in pairs:
        index = layout.find_layer(*pair)
        if index is not None:
            for shape in layout.cell("TOP").begin_shapes_rec(index).each():
                if not shape.shape().is_text() and shape.shape().polygon is not None:
                    polygon = shape.shape().polygon
                    found.append(pya.Polygon([shape.trans() * point for point in polygon.each_point_hull()], True))
    return found


def sliver(shapes: list[Any], path: str, name: str, times: int, dbu: float, pya: Any) -> str:
    """Where slanted shapes and a text differ by more than what is thinner than two units, in words."""
    import reading

    layout = reading.read(path)
    halves = pya.ICplxTrans(2 * layout.dbu / (dbu * times))
    # KLayout reads the name L7D0 as the numbers that it stands for
    infos = {index: layout.get_info(index) for index in layout.layer_indexes()}
    index = next((i for i, info in infos.items() if name in (info.name, f"L{info.layer}D{info.datatype}")), None)
    text = pya.Region(layout.top_cell().begin_shapes_rec(index)) if index is not None else pya.Region()
    source = pya.Region()
    for shape in shapes:
        source.insert(shape)
    differ = (source.merged().transformed(pya.ICplxTrans(2.0)) ^ text.transformed(halves).merged()).sized(-2)
    return "" if differ.is_empty() else f"slanted: {differ}"


def wrong_in_def(seed: int, folder: str) -> str:
    from cif import Layout

    made = Routed(seed, folder)
    words = asked(made.path, 10, {"met1.PIN": "MET1"}, ["MET1", "MET2", "CUT"][: 3 if "CUT" in made.due else 0], "TOP", (made.lef,))
    words["layers"] = sorted(made.due)
    try:
        read = Layout(text_of(words, folder))
    except ValueError as error:
        return f"refused: {error}"
    for name, due in made.due.items():
        figures = [[(Fraction(x) / 2000, Fraction(y) / 2000) for x, y in figure] for figure in read.figures(name)]
        wrong = difference(due, figures)
        if wrong:
            return f"{made.path} with {made.units} and {made.of_lef} units, layer {name}: {wrong}"
    return ""


# ---- running


def run(kind: str, first: int, count: int) -> dict[str, str]:
    import klayout

    with tempfile.TemporaryDirectory() as folder:
        answer = os.path.join(folder, "answer")
        named = {"kind": kind, "first": str(first), "count": str(count), "folder": folder, "said": answer}
        klayout.run(SCRIPT, bench=os.path.join(TOP, "bench"), tools=TOOLS, **named)
        with open(answer, encoding="utf-8") as file:
            found: dict[str, str] = json.load(file)
    return found


def main() -> None:
    parser = argparse.ArgumentParser(usage="bench/imports.py [--layouts N] [--defs N] [--first SEED] [--processes N]")
    for name, value in (("layouts", 2_000), ("defs", 300), ("first", 0), ("processes", 2)):
        parser.add_argument(f"--{name}", type=int, default=value)
    words = parser.parse_args()
    work = [("layout", at, min(BATCH, words.layouts - at)) for at in range(0, words.layouts, BATCH)]
    work += [("def", at, min(BATCH, words.defs - at)) for at in range(0, words.defs, BATCH)]
    with ThreadPoolExecutor(words.processes) as pool:
        found = list(pool.map(lambda job: run(job[0], words.first + job[1], job[2]), work))
    wrong = [f"seed {seed}: {what}" for answer in found for seed, what in answer.items()]
    print("\n".join([*wrong, f"{words.layouts} layouts, {words.defs} of DEF, {len(wrong)} differ"]))
    sys.exit(1 if wrong else 0)


if __name__ == "__main__":
    sys.path.append(TOOLS)
    main()
