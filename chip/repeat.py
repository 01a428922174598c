"""Lays a layer of a layout out as an array, in GDSII, to measure with. KLayout runs it:

    chip/klayout repeat.py settings=ONE.json times=10 gap=600 target=array.gds [mixed=yes]

`times` is how many blocks stand in a row and how many rows there are, `gap` how far apart they are, in nanometres. With
`mixed` the blocks are turned and mirrored, some touch and some overlap, and a wire and a frame lie over all.
"""

import os
import sys

sys.path.insert(0, os.path.dirname(os.path.abspath(__file__)))

from typing import Any

import pya  # type: ignore[import]

from asked import runs_of
from refused import guard
from settings import Settings
from source import Source

# What KLayout is run with.
settings: str = globals()["settings"]
times: str = globals()["times"]
gap: str = globals()["gap"]
target: str = globals()["target"]

TURNS = (pya.Trans.R0, pya.Trans.M0, pya.Trans.R180, pya.Trans.M90)
# How far apart blocks are in turn, by the gap; a negative share lays one over the other.
SHARES = (1.0, 0.0, -0.1, 1.3)
WIDE, AROUND = 1.0, 5.0


def steps(length: int, gap: int, many: int, is_mixed: bool) -> list[int]:
    """Where blocks of a length begin, one behind the other."""
    shares = SHARES if is_mixed else (1.0,)
    gaps = [round(gap * shares[k % len(shares)]) for k in range(many - 1)]
    return [k * length + sum(gaps[:k]) for k in range(many)]


def place(top: Any, block: Any, bounds: Any, gap: int, many: int, is_mixed: bool) -> None:
    for row, y in enumerate(steps(bounds.height(), gap, many, is_mixed)):
        for column, x in enumerate(steps(bounds.width(), gap, many, is_mixed)):
            turned = pya.Trans(TURNS[(column + 3 * row) % 4 if is_mixed else 0], 0, 0)
            # The block begins where it would begin if it were not turned.
            shift = bounds.p1 - (turned * bounds).p1 + pya.Vector(x, y)
            top.insert(pya.CellInstArray(block.cell_index(), pya.Trans(shift) * turned))


def over_all(top: Any, layer: int, dbu: float) -> None:
    """A wire through the middle, and a frame around all."""
    wide, around, box = round(WIDE / dbu), round(AROUND / dbu), top.bbox()
    middle = box.bottom + box.height() // wide // 2 * wide
    top.shapes(layer).insert(pya.Box(box.left, middle, box.right, middle + wide))
    outer, inner = box.enlarged(around + wide, around + wide), box.enlarged(around, around)
    for left, bottom, right, up in (
        (outer.left, outer.bottom, outer.right, inner.bottom),
        (outer.left, inner.top, outer.right, outer.top),
        (outer.left, inner.bottom, inner.left, inner.top),
        (inner.right, inner.bottom, outer.right, inner.top),
    ):
        top.shapes(layer).insert(pya.Box(left, bottom, right, up))


def main() -> None:
    source = Source(Settings(runs_of(settings)[0], "/"))
    layout = pya.Layout()
    layout.dbu = source.layout.dbu
    layer = layout.layer(pya.LayerInfo(10, 0))
    block, top = layout.create_cell("BLOCK"), layout.create_cell("ARRAY")
    for shape in source.shapes(source.bounds).each():
        block.shapes(layer).insert(shape)
    is_mixed = "mixed" in globals()
    place(top, block, source.bounds, round(float(gap) / 1000 / layout.dbu), int(times), is_mixed)
    if is_mixed:
        over_all(top, layer, layout.dbu)
    layout.write(target)


guard("repeat", main)
