"""How far out the layers of a layout reach, in whole numbers that KLayout's 32 bits do not bound."""

from __future__ import annotations

import pya  # type: ignore[import]

from cif import Unreadable
from metal import shapes_of
from reading import microns_of
from writing import Chosen

# how many grid units from the origin a corner of `dpl` lies at most, and how many units of a layout, since KLayout counts
# by 32 bits, and makes a path wider than its points
MOST, MOST_OF_LAYOUT = 1_073_741_824, 2_000_000_000


def refuse_far(chosen: Chosen, times: int) -> None:
    """Refuses a layer that KLayout would wrap around, or that is too far out for `dpl`."""
    refuse_beyond(chosen, min(float(MOST / (microns_of(chosen.layout) * 200 * times)), MOST_OF_LAYOUT))


def refuse_beyond(chosen: Chosen, most: float) -> None:
    """Refuses a layer that reaches farther out than so many units of the layout."""
    dbu: float = chosen.layout.dbu
    for name, box in bounds_of(chosen).items():
        x, y = (max(ends, key=abs) for ends in ((box.left, box.right), (box.bottom, box.top)))
        if max(abs(x), abs(y)) > most:
            where = f"({x * dbu:.9g}, {y * dbu:.9g})"
            raise Unreadable(f"layer {name} reaches to {where} micrometres, and at most {most * dbu:.9g} can be taken")


def bounds_of(chosen: Chosen) -> dict[str, pya.DBox]:
    """The least box around each layer in units of the layout, by all instances; a layer without shapes has none."""
    known: dict[int, dict[str, pya.DBox]] = {}
    for number in chosen.layout.each_cell_bottom_up():
        boxes = known[number] = own_bounds(chosen, number)
        for instance in chosen.layout.cell(number).each_inst():
            below = known[instance.cell_index]
            for placed in ends_of(instance) if below else []:
                for name, box in below.items():
                    boxes[name] = boxes.get(name, pya.DBox()) + placed * box
    return known[chosen.cell.cell_index()]


def own_bounds(chosen: Chosen, number: int) -> dict[str, pya.DBox]:
    cell = chosen.layout.cell(number)
    boxes: dict[str, pya.DBox] = {}
    for name, indexes in chosen.layers.items():
        for index in indexes:
            if not cell.shapes(index).is_empty():
                box = pya.DBox(shapes_of(chosen.layout, number, index, depth=0).bbox())
                if not box.empty():
                    boxes[name] = boxes.get(name, pya.DBox()) + box
    return boxes


def ends_of(instance: pya.Instance) -> list[pya.DCplxTrans]:
    """How an instance is placed, of an array those at its corners."""
    placed = pya.DCplxTrans(instance.cplx_trans)
    along = [pya.DVector(instance.a) * step for step in {0, max(1, instance.na) - 1}]
    up = [pya.DVector(instance.b) * step for step in {0, max(1, instance.nb) - 1}]
    return [pya.DCplxTrans(a + b) * placed for a in along for b in up]
