"""The joined masks, tile by tile: whether they are the layer, overlap in zones alone, and keep the spacing but for conflicts."""

import math
from functools import lru_cache
from typing import Any

import numpy
import pya  # type: ignore[import]

from bound import Run
from found import Found, Place
from fragments import Array
from grid import Grid
from joined import Joined
from keep import Keep
from listed import Listed, Lists, text_boxes
from source import Source
from told import Told
from windows import Windows

# Shapes of a tile, about.
TILE = 20000


class Tiles:
    """Lengths are counted in the greatest unit that both the layout and the grid are whole numbers of."""

    def __init__(self, run: Run, masks: Joined, listed: Listed) -> None:
        self.run, self.masks, self.listed = run, masks, listed
        self.source = Source(run.chosen)
        self.keep = Keep(self.source, run.chosen)
        run.see_layout()
        self.own: int
        self.finer: int
        self.own, self.finer = self.source.ratio.numerator, self.source.ratio.denominator
        self.space: int = 2 * run.chosen.space * self.finer
        self.unit = float(run.chosen.grid / 1000 / self.finer)
        self.windows = Windows(self.source, TILE)
        self.parts = masks.manifest.parts
        self.around = Grid([part["bounds"] for part in self.parts])
        self.boxes = lru_cache(maxsize=16)(lambda number: text_boxes(run.path("cut", self.parts[number]["name"] + ".cif")))

    def count(self) -> int:
        return self.windows.columns * self.windows.rows

    def outside(self) -> list[Found]:
        """Masks that reach beyond the layer, where no tile is."""
        layer, masks = self.source.bounds * self.own, self.masks.bounds() * self.finer
        return [] if masks.empty() or masks.inside(layer) else [self.found("the masks reach beyond the layer", masks)]

    def faults_of(self, number: int) -> list[Found]:
        box = self.windows.box(number % self.windows.columns, number // self.windows.columns)
        window = box * self.own
        tile = pya.Region(window)
        layer = self.source.shapes(box.enlarged(*[self.reach(self.own)] * 2)).transformed(pya.ICplxTrans(self.own))
        grid = pya.Box(*(v * self.own // self.finer for v in (box.left, box.bottom, box.right, box.top))).enlarged(*[self.reach(self.finer)] * 2)
        near = self.around.meeting([grid.left, grid.bottom, grid.right, grid.top])
        a, b = (self.merged(self.masks.shapes(letter, grid, self.finer)) for letter in "AB")
        lists = self.lists(near).values()
        refused, zones = self.region([it.refused for it in lists], grid), self.region([it.zones for it in lists], grid)
        unlike = (layer ^ (a + b + refused)) & tile
        overlaps = ((a & b) ^ zones) & tile
        faults = [self.found("the masks together are not the layer", shape.bbox(), near) for shape in unlike.each()]
        faults += [self.found("an overlap is not a listed zone, or a zone no overlap", shape.bbox(), near) for shape in overlaps.each()]
        faults += [self.found("a stitch lies on the keep layer", shape.bbox(), near) for shape in (zones & self.kept(box, layer) & tile).each()]
        return faults + self.spacing("A", a, window, near) + self.spacing("B", b, window, near)

    def reach(self, unit: int) -> int:
        """How far around a tile its shapes are looked at, in units of which so many are the length of one."""
        return math.ceil((self.space + 2) / unit) + 1

    def merged(self, mask: Any) -> Any:
        """A mask with its shapes whole; those that meet at a corner are two."""
        found = mask.merged(True, 0)
        found.merged_semantics = False
        return found

    def lists(self, near: list[int]) -> dict[int, Lists]:
        """What parts list, of those whose reports could be read."""
        return {number: lists for number in near if (lists := self.listed.of(number)) is not None}

    def region(self, boxes: list[Array], where: Any) -> Any:
        """The boxes of some parts that meet a box, all in grid units."""
        found = pya.Region()
        for some in boxes:
            for corners in touching(some, [where.left, where.bottom, where.right, where.top]).tolist():
                found.insert(pya.Box(*corners))
        return found.transformed(pya.ICplxTrans(self.finer))

    def kept(self, box: Any, layer: Any) -> Any:
        """What the keep layer has on the layer in a tile."""
        if self.run.chosen.keep and self.keep.other is None:
            return layer
        return self.keep.shapes(box).transformed(pya.ICplxTrans(self.own))

    def spacing(self, letter: str, mask: Any, window: Any, near: list[int]) -> list[Found]:
        """The shapes of a mask that are closer than the spacing, and neither of one shape nor told by a conflict."""
        pairs = [pair for pair in mask.isolated_check(self.space).each() if pair.bbox().touches(window)]
        if not pairs:
            return []
        nets = {number: lists.net for number, lists in self.lists(near).items()}
        edges, others = (array_of([edge.bbox() for edge in found]) for found in zip(*((pair.first, pair.second) for pair in pairs)))
        told = Told(nets, self.space, self.finer).tells(letter, edges, others)
        what = f"two shapes on mask {letter} are too close, and no conflict is listed"
        return [self.found(what, pair.bbox(), near) for pair, tells in zip(pairs, told) if not tells]

    def found(self, what: str, box: Any, near: list[int] | None = None) -> Found:
        place: Place = (box.left * self.unit, box.bottom * self.unit)
        return Found(what, self.part_at(box, near or []), (place,))

    def part_at(self, box: Any, near: list[int]) -> str:
        """The parts that have something at a place, or else those that lie around it."""
        corners = [v / self.finer for v in (box.left, box.bottom, box.right, box.top)]
        around = sorted(set(near).intersection(self.around.meeting(corners)))
        having = [number for number in around if len(touching(self.boxes(number), corners))]
        return " or ".join(self.parts[number]["name"] for number in having or around)


def array_of(boxes: list[Any]) -> Array:
    return numpy.array([[box.left, box.bottom, box.right, box.top] for box in boxes], numpy.int64).reshape(-1, 4)


def touching(boxes: Array, corners: list[Any]) -> Array:
    """The boxes that share a point with a box."""
    left, bottom, right, top = corners
    found: Array = boxes[(boxes[:, 0] <= right) & (boxes[:, 2] >= left) & (boxes[:, 1] <= top) & (boxes[:, 3] >= bottom)]
    return found
