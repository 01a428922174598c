"""The layer that is split: its text for `dpl`, and its lengths.

`dpl` counts in grid units. A unit of the database is one of them where spacing and overlap come out as whole numbers of
pairs, so that each cut lies on the database's own grid, and two of them elsewhere.
"""

from __future__ import annotations

from fractions import Fraction
from typing import Dict, Iterator, List, NamedTuple, Optional, Sequence

import pya  # type: ignore[import]

LAYER, KEEP = "M", "K"
MOST = 100_000


class Refused(Exception):
    """Why nothing is split, in words for the user."""


class Asked(NamedTuple):
    """Lengths in microns, weights, and the index of the layer in which nothing is cut, or None."""

    space: float
    overlap: float
    stitch: int
    conflict: int
    corner: int
    keep: Optional[int]


class Layer:
    """A layer of a cell with all that lies below it."""

    def __init__(self, cellview: pya.CellView, index: int) -> None:
        self.cellview, self.layout, self.cell, self.index = cellview, cellview.layout(), cellview.cell, index
        self.info = self.layout.get_info(index)

    @classmethod
    def current(cls, view: Optional[pya.LayoutView]) -> Layer:
        """The layer that is chosen in the layer list."""
        if view is None or not view.active_cellview().is_valid() or view.active_cellview().cell is None:
            raise Refused("Open a layout first.")
        chosen = view.current_layer
        if chosen is None or chosen.is_null() or chosen.current().layer_index() < 0:
            raise Refused("Choose a layer in the layer list first.")
        return cls(view.active_cellview(), chosen.current().layer_index())

    def others(self) -> Dict[str, int]:
        """The other layers of the layout, by what they are called."""
        found = ((str(self.layout.get_info(index)), index) for index in self.layout.layer_indexes() if index != self.index)
        return dict(sorted(found))

    # ---- lengths

    def units(self, length: float, what: str) -> int:
        """A length in units of the database."""
        count = Fraction(repr(length)) / Fraction(repr(self.layout.dbu))
        if count.denominator != 1 or count < 1:
            raise Refused(f"The {what} is {float(count):g} units of the database, which are {self.layout.dbu:g} microns each, and has to be a whole number of them.")
        return int(count)

    def grid(self, asked: Asked) -> int:
        """How many grid units a unit of the database is."""
        lengths = self.units(asked.space, "spacing"), self.units(asked.overlap, "overlap")
        return 1 if all(length % 2 == 0 for length in lengths) else 2

    def hundredths(self, length: float, what: str, asked: Asked) -> int:
        count = self.units(length, what) * self.grid(asked) // 2
        if count > MOST:
            raise Refused(f"The {what} is more than {MOST * 2 // self.grid(asked):,} units of the database.")
        return count

    def divide(self, asked: Asked) -> float:
        """How many times as large the text is as the layout, for what is told in microns."""
        return float(self.grid(asked) / (200 * self.layout.dbu))

    # ---- for the program

    def words(self, asked: Asked) -> List[str]:
        """The command and its options."""
        space, overlap = self.hundredths(asked.space, "spacing", asked), self.hundredths(asked.overlap, "overlap", asked)
        numbers = {"space": space, "overlap": overlap, "stitch": asked.stitch, "conflict": asked.conflict, "corner": asked.corner}
        words = ["split", f"--layer={LAYER}", *(f"--{name}={number}" for name, number in numbers.items())]
        return [*words, f"--keep={KEEP}"] if asked.keep is not None else words

    def text(self, asked: Asked) -> bytes:
        """The layer, and the one in which nothing is cut, as CIF of boxes."""
        grid = self.grid(asked)
        lines = ["DS 1 1 4;", f"L {LAYER};", *self.boxes(self.index, grid)]
        if asked.keep is not None:
            lines += [f"L {KEEP};", *self.boxes(asked.keep, grid)]
        return "\n".join([*lines, "DF;", "C 1;", "E", ""]).encode()

    def boxes(self, index: int, grid: int) -> Iterator[str]:
        """What lies on a layer in this cell and below, merged and cut into boxes."""
        merged = pya.Region(self.cell.begin_shapes_rec(index)).merged()
        slanted = merged.non_rectilinear()
        if not slanted.is_empty():
            at = slanted[0].bbox().to_dtype(self.layout.dbu)
            raise Refused(f"The layer {self.layout.get_info(index)} has slanted sides, first at {at} microns, and dpl takes level and upright ones alone.")
        for polygon in merged.decompose_trapezoids_to_region().each():
            box = polygon.bbox()
            yield f"B {2 * grid * box.width()} {2 * grid * box.height()} {grid * (box.left + box.right)} {grid * (box.bottom + box.top)};"

    def box(self, corners: Sequence[int], grid: int) -> pya.Box:
        """A box of the report as one of the layout."""
        if any(at % grid for at in corners):
            raise Refused("A stitch lies between the units of the database: choose a spacing and an overlap that are even numbers of them.")
        return pya.Box(*(at // grid for at in corners))
