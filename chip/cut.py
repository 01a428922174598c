"""Cuts a band of a layer into parts that no spacing joins. KLayout runs it: see `Snakefile`.

A cluster is a connected part of the layer made larger by half the spacing on all sides, its hull. The layer is taken
window by window. A cluster whose hull lies within one window is complete there, and such clusters make the part of the
window. Of the others each window notes where the hull crosses its sides, and what of the layer they have in it; `pack`
joins them over the windows.
"""

import os
import sys
from collections.abc import Iterable
from typing import Any

sys.path.insert(0, os.path.dirname(os.path.abspath(__file__)))

import numpy

from bound import Run
from boxes import NOT_BOXES, bounds_of, boxes_of, lines_of, meeting
from clusters import clusters, groups
from files import clear, sum_of, write_json
from fragments import Array
from keep import Keep
from leaving import notes_of
from parts import Content, store
from refused import Refused, guard
from source import Source
from windows import Windows

# What KLayout is run with.
folder: str = globals()["folder"]
band: str = globals()["band"]

# A window takes this many times the size of a part, since a share of it crosses its sides, and a part at most so many.
ROOM, MOST = 1.1, 1.5
SHOWN = 5


class Cut:
    """The cut of one band of windows into a folder.

    A row of an array of boxes has four corners, and a fifth number: 1 for a box of the keep layer, which has no part in
    clusters but those that it lies on.
    """

    def __init__(self, source: Source, keep: Keep, folder: str) -> None:
        self.source, self.keep, self.folder = source, keep, folder
        self.parts: list[dict[str, Any]] = []
        self.crossing: list[dict[str, Any]] = []

    def window(self, place: tuple[int, int], window: Any) -> None:
        half = self.source.half
        boxes = self.reaching(window)
        hulls = larger(boxes[:, :4], half)
        numbers = clusters(boxes[:, :4], 2 * half)
        leaves = numpy.zeros(len(boxes), bool)
        leaves[numbers[outside(hulls, window)]] = True
        leaves = leaves[numbers]
        self.whole(f"x{place[0]:04}y{place[1]:04}", boxes[~leaves], numbers[~leaves])
        self.crossing += notes_of(self.source, boxes[leaves], numbers[leaves], place, window)

    def reaching(self, window: Any) -> Array:
        """The boxes whose hulls share some area with a window, from left to right, and those of the keep layer on them."""
        half = self.source.half
        reach = window.enlarged(half, half)
        refuse_slanted(self.source, reach)
        boxes = meeting(boxes_of(self.source, reach, self.folder), reach)
        kept = self.kept(reach)
        refuse_off_grid(self.source, numpy.concatenate((boxes, kept)))
        boxes = boxes[numpy.lexsort(boxes.T[::-1])]
        which = numpy.repeat((0, 1), (len(boxes), len(kept)))
        return numpy.column_stack((numpy.concatenate((boxes, kept)), which))

    def kept(self, reach: Any) -> Array:
        """The boxes of the keep layer within a box, on the layer."""
        found = self.keep.shapes(reach)
        if found.non_rectilinear().count():
            raise Refused(f"the keep layer {self.source.settings.keep} has a slanted side")
        boxes = [[b.left, b.bottom, b.right, b.top] for b in (shape.bbox() for shape in found.merged().decompose_trapezoids_to_region().each())]
        return numpy.array(boxes, numpy.int64).reshape(-1, 4)

    def whole(self, label: str, boxes: Array, numbers: Array) -> None:
        """Writes clusters as a part, or as some where they have too many boxes for one."""
        size = self.source.settings.size
        if len(boxes) <= MOST * size:
            self.write(label, boxes, numbers)
            return
        for number, which in enumerate(groups(numbers, size)):
            self.write(f"{label}-{number}", boxes[which], numbers[which])

    def write(self, label: str, boxes: Array, numbers: Array) -> None:
        if len(boxes):
            count = len(numpy.unique(numbers))
            self.parts.append(store(self.source.settings, self.folder, label, content_of(self.source, boxes), count))


def content_of(source: Source, rows: Array) -> Content:
    """What a part has, or a piece of one, of its boxes and those of the keep layer."""
    boxes, kept = rows[rows[:, 4] == 0, :4], rows[rows[:, 4] == 1, :4]
    return Content(len(boxes), bounds_of(source, boxes), lines_of(source, boxes), lines_of(source, kept))


def larger(boxes: Array, by: int) -> Array:
    found: Array = boxes + numpy.array([-by, -by, by, by])
    return found


def outside(boxes: Array, window: Any) -> Array:
    """Which boxes do not lie within a window."""
    left, bottom, right, top = boxes.T
    found: Array = (left < window.left) | (bottom < window.bottom) | (right > window.right) | (top > window.top)
    return found


def refuse_slanted(source: Source, reach: Any) -> None:
    slanted = source.shapes(reach, NOT_BOXES).non_rectilinear()
    if slanted.count():
        edges = [edge for shape in slanted.each() for edge in shape.each_edge() if edge.dx() and edge.dy()]
        refuse("a slanted side", [(edge.p1.x, edge.p1.y) for edge in edges], source)


def refuse_off_grid(source: Source, boxes: Array) -> None:
    corners = boxes[:, [0, 1, 2, 1, 0, 3, 2, 3]].reshape(-1, 2)
    off = corners[(corners % source.ratio.denominator).any(axis=1)]
    if len(off):
        refuse(f"a corner off the grid of {float(source.settings.grid):g} nm", off.tolist(), source)


def refuse(what: str, points: Iterable[Iterable[int]], source: Source) -> None:
    unit = source.layout.dbu
    found = sorted((y, x) for x, y in points)
    places = ", ".join(f"({x * unit:.9g}, {y * unit:.9g})" for y, x in found[:SHOWN])
    raise Refused(f"{what} at {places} micrometres, {len(found)} in this window")


def cut_band(run: Run, band: int) -> None:
    settings = run.chosen
    source = Source(settings)
    keep = Keep(source, settings)
    run.see_layout()
    windows = Windows(source, ROOM * settings.size)
    target = run.path("cut", str(band))
    clear(target)
    cut = Cut(source, keep, target)
    for i, j in windows.of_band(band, settings.bands):
        cut.window((i, j), windows.box(i, j))
    bounds, crossing = source.bounds, os.path.join(target, "crossing.json")
    write_json(crossing, cut.crossing, None)
    index = {
        "inputs": run.cut_inputs(),
        "windows": [windows.columns, windows.rows],
        "shapes": source.count(),
        "bounds": bounds_of(source, numpy.array([[bounds.left, bounds.bottom, bounds.right, bounds.top]])),
        "dbu": source.layout.dbu,
        "cell": source.name,
        "parts": cut.parts,
        "crossing": sum_of(crossing),
    }
    write_json(os.path.join(target, "index.json"), index)


guard("cut", lambda: cut_band(Run(folder), int(band)))
