"""Writes layers of a layout as CIF that `dpl` reads, by KLayout.

A cell becomes a definition, and an instance a call. CIF has no magnified and no slanted calls, so cells that lie under such
an instance, or have one below, are drawn flat in the definition of the cell that is written, as KLayout rounds them. A unit
of the text is half a unit of the layout, since CIF gives a box by its middle.
"""

from __future__ import annotations

import re
from collections.abc import Iterator
from typing import NamedTuple

import pya  # type: ignore[import]

import scale
from metal import DRAWN, OTHERS, raw, rectangles_of, shapes_of
from reading import microns_of, name_of

# turns of a call by KLayout's numbers: a quarter each, and behind a mirror at the level axis from 4 on
TURNS = ["", "R 0 1 ", "R -1 0 ", "R 0 -1 ", "M Y ", "M Y R 0 1 ", "M Y R -1 0 ", "M Y R 0 -1 "]


class Chosen(NamedTuple):
    """What is written of a layout: a cell with all below it, and layers by the names that they get, each with its indexes."""

    layout: pya.Layout
    cell: pya.Cell
    layers: dict[str, list[int]]


class Figures:
    """The figures of one definition on one layer: rectangles as they are drawn, and the others."""

    def __init__(self) -> None:
        self.drawn, self.others = pya.Region(), pya.Region()

    def lines(self) -> Iterator[str]:
        drawn = raw(self.drawn)
        others = raw(self.others + drawn.non_rectangles())
        for boxes in (drawn.rectangles(), rectangles_of(raw(others.rectilinear()))):
            for shape in raw(boxes).each():
                box = shape.bbox()
                if box.area():
                    yield f"B {2 * box.width()} {2 * box.height()} {box.left + box.right} {box.bottom + box.top};"
        for shape in raw(others.non_rectilinear()).each():
            for polygon in pya.Region(shape).merged().each():
                yield polygon_line(polygon)


class Definition:
    """What a definition has: figures by the names of their layers, and calls, each a cell and how it is placed."""

    def __init__(self) -> None:
        self.figures: dict[str, Figures] = {}
        self.calls: list[tuple[int, pya.Trans]] = []

    def lines(self) -> Iterator[str]:
        for name, found in self.figures.items():
            own = list(found.lines())
            if own:
                yield f"L {name};"
                yield from own


def polygon_line(polygon: pya.Polygon) -> str:
    """A polygon in one line. A way to each hole and back again takes nothing from what is filled by even and odd."""
    points = list(polygon.each_point_hull())
    first = points[0]
    for hole in range(polygon.holes()):
        around = list(polygon.each_point_hole(hole))
        points += [first, *around, around[0]]
    return "P " + " ".join(f"{2 * point.x} {2 * point.y}" for point in points) + ";"


class Tree:
    """The cells from one on downwards, by their numbers."""

    def __init__(self, chosen: Chosen) -> None:
        self.chosen = chosen
        under = {chosen.cell.cell_index(), *chosen.cell.called_cells()}
        self.upwards = [number for number in chosen.layout.each_cell_bottom_up() if number in under]
        # those with something to write in them or below, those without a magnified or a slanted instance below, and those
        # that lie somewhere under such an instance
        self.held: set[int] = set()
        self.level: set[int] = set()
        self.flat: set[int] = set()
        for number in self.upwards:
            self.sort(chosen.layout.cell(number))

    def sort(self, cell: pya.Cell) -> None:
        indexes = [index for group in self.chosen.layers.values() for index in group]
        below = list(cell.each_inst())
        if any(not cell.shapes(index).is_empty() for index in indexes) or any(i.cell_index in self.held for i in below):
            self.held.add(cell.cell_index())
        if all(not i.is_complex() and i.cell_index in self.level for i in below):
            self.level.add(cell.cell_index())
        for instance in below:
            if instance.is_complex():
                self.flat |= {instance.cell_index, *instance.cell.called_cells()}

    def definitions(self) -> dict[int, Definition]:
        """The definition of the cell that is written and of all that are called, each behind those that it calls."""
        found: dict[int, Definition] = {}
        waiting = [self.chosen.cell.cell_index()]
        while waiting:
            number = waiting.pop()
            if number not in found:
                found[number] = self.definition(number)
                waiting += {called for called, _ in found[number].calls}
        return {number: found[number] for number in self.upwards if number in found}

    def definition(self, number: int) -> Definition:
        """A cell with its own shapes and its calls, or with all shapes that lie in no call."""
        made = Definition()
        is_level = number in self.level
        depth, called = (0, []) if is_level else (None, sorted(self.level - self.flat))
        cell = self.chosen.layout.cell(number)
        for name, indexes in self.chosen.layers.items():
            for index in indexes:
                if not is_level or not cell.shapes(index).is_empty():
                    figures = made.figures.setdefault(name, Figures())
                    figures.drawn += shapes_of(self.chosen.layout, number, index, DRAWN, depth, called)
                    figures.others += shapes_of(self.chosen.layout, number, index, OTHERS, depth, called)
        made.calls += self.calls(number, self.held if is_level else self.held - self.flat)
        return made

    def calls(self, number: int, wanted: set[int]) -> Iterator[tuple[int, pya.Trans]]:
        """The calls of cells that are wanted and level, in a cell and in those below that are wanted and not level."""
        waiting = [(number, pya.Trans())]
        while waiting:
            number, placed = waiting.pop()
            for instance in self.chosen.layout.cell(number).each_inst():
                if instance.cell_index in wanted:
                    steps = [(instance.cell_index, placed * step) for step in instance.cell_inst.each_trans()]
                    if instance.cell_index in self.level:
                        yield from steps
                    else:
                        waiting += steps


def lines(chosen: Chosen, times: int) -> Iterator[str]:
    """The lines of the text, with all lengths multiplied."""
    ratio = microns_of(chosen.layout) * 50 * times
    definitions = Tree(chosen).definitions()
    numbers = {cell: number for number, cell in enumerate(definitions, 1)}
    yield scale.line(times)
    for cell, made in definitions.items():
        yield f"DS {numbers[cell]} {ratio.numerator} {ratio.denominator};"
        yield f"9 {re.sub('[^!-:<-~]', '_', name_of(chosen.layout.cell(cell)))};"
        yield from made.lines()
        for called, placed in made.calls:
            yield f"C {numbers[called]} {TURNS[placed.rot]}T {2 * placed.disp.x} {2 * placed.disp.y};"
        yield "DF;"
    yield f"C {numbers[chosen.cell.cell_index()]};"
    yield "E"
