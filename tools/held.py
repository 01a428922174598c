"""Holds a CIF text against the layout that it was made of, by KLayout: layer by layer, the XOR of both.

The text is read by `cif.py`, as `dpl` reads it and not as KLayout does: a polygon is filled by even and odd, and a
definition is scaled exactly.
"""

from __future__ import annotations

from fractions import Fraction

import pya  # type: ignore[import]

from cif import Call, Layout, Number, Point, Polygon, Unreadable
from metal import DRAWN, OTHERS, filled, raw, shapes_of
from reading import microns_of
from writing import Chosen

MOST = (1 << 31) - 1
SHOWN = 3
# the rule of KLayout's edge processor
EVEN_ODD = 0
# the turns of KLayout by what they make of x and of y: quarters, and whether a mirror at the level axis is before them
TURNS: dict[tuple[Number, ...], tuple[int, bool]] = {
    (1, 0, 0, 1): (0, False),
    (0, -1, 1, 0): (1, False),
    (-1, 0, 0, -1): (2, False),
    (0, 1, -1, 0): (3, False),
    (1, 0, 0, -1): (0, True),
    (0, 1, 1, 0): (1, True),
    (-1, 0, 0, 1): (2, True),
    (0, -1, -1, 0): (3, True),
}


class Read:
    """A text as a layout in the unit of another one, definition by definition."""

    def __init__(self, text: bytes, unit: Fraction) -> None:
        """`unit` is how many grid units of the text a unit of the layout is."""
        self.unit = unit
        self.layout = pya.Layout(False)
        self.layers: dict[str, int] = {}
        bodies = Layout(text).bodies
        # else KLayout looks at all cells anew for each that is filled
        self.layout.start_changes()
        self.cells = {owner: self.layout.create_cell(f"D{owner}") for owner in bodies}
        for owner, items in bodies.items():
            figures: dict[str, pya.Region] = {}
            for name, what in items:
                if isinstance(what, Call):
                    self.call(self.cells[owner], what)
                else:
                    self.figure(figures.setdefault(name or "", pya.Region()), what)
            for name, shapes in figures.items():
                self.cells[owner].shapes(self.layer(name)).insert(shapes)
        self.layout.end_changes()

    def layer(self, name: str) -> int:
        if name not in self.layers:
            self.layers[name] = self.layout.layer(pya.LayerInfo(name))
        return self.layers[name]

    def call(self, cell: pya.Cell, call: Call) -> None:
        if call.number not in self.cells:
            raise Unreadable(f"the text calls a definition {call.number} that it does not have")
        *turn, x, y = call.placed
        placed = pya.Trans(*TURNS[tuple(turn)], self.whole(x), self.whole(y))
        cell.insert(pya.CellInstArray(self.cells[call.number].cell_index(), placed))

    def figure(self, shapes: pya.Region, corners: list[Point]) -> None:
        if isinstance(corners, Polygon):
            polygon = pya.Polygon([pya.Point(self.whole(x), self.whole(y)) for x, y in corners], True)
            for part in pya.EdgeProcessor().simple_merge_p2p([polygon], False, False, EVEN_ODD):
                shapes.insert(part)
        else:
            (left, bottom), _, (right, top), _ = corners
            shapes.insert(pya.Box(self.whole(left), self.whole(bottom), self.whole(right), self.whole(top)))

    def whole(self, length: Number) -> int:
        """A length of the text in units of the layout."""
        found, rest = divmod(length * self.unit.denominator, self.unit.numerator)
        if rest or abs(found) > MOST:
            raise Unreadable(f"the text has a corner at {float(length / self.unit):.9g} units of the layout, where the layout has none")
        return int(found)

    def metal(self, name: str) -> pya.Region:
        if name not in self.layers:
            return pya.Region()
        return pya.Region(pya.RecursiveShapeIterator(self.layout, self.cells[None], self.layers[name]))


def hold(text: bytes, chosen: Chosen, times: int) -> None:
    """Refuses a text that is not the layout, layer by layer."""
    read = Read(text, microns_of(chosen.layout) * 200 * times)
    wrong = sorted(set(read.layers) - set(chosen.layers))
    if wrong:
        raise Unreadable(f"the text has a layer {wrong[0]} that the layout has not")
    for name in chosen.layers:
        differ = differences(metal(chosen, name), read.metal(name))
        if differ:
            raise Unreadable(said(name, differ, chosen.layout.dbu))


def metal(chosen: Chosen, name: str) -> pya.Region:
    """A layer of the layout as KLayout has it, by all instances: rectangles, and what the others fill together."""
    found = pya.Region()
    for index in chosen.layers[name]:
        found += shapes_of(chosen.layout, chosen.cell.cell_index(), index, DRAWN)
        found += filled(shapes_of(chosen.layout, chosen.cell.cell_index(), index, OTHERS)).merged()
    return raw(found)


def differences(layout: pya.Region, text: pya.Region) -> list[pya.Box]:
    """Where two layers differ. Slanted sides cross each other between the points of the grid, where KLayout rounds; so of a
    layer that has such sides, which `dpl` refuses, what is thinner than two units of the layout says nothing."""
    differ = layout ^ text
    if not layout.non_rectilinear().is_empty():
        differ = differ.sized(-1)
    # a line without area may be among them where one side has nothing
    return [polygon.bbox() for polygon in differ.each() if polygon.area()]


def said(name: str, differ: list[pya.Box], dbu: float) -> str:
    corners = ((box.left, box.bottom, box.right, box.top) for box in differ[:SHOWN])
    places = ", ".join("({:.9g}, {:.9g}) to ({:.9g}, {:.9g})".format(*(at * dbu for at in box)) for box in corners)
    more = f" and {len(differ) - SHOWN} more places" if len(differ) > SHOWN else ""
    return f"layer {name} of the text is not that of the layout at {places}{more}, in micrometres; nothing is written"
