"""The metal of a layer as rectangles, by KLayout: one code for `tools/import` and for `chip/`.

Rectangles stay as they are drawn. Polygons and paths with level sides are merged first, so that one which crosses or
overlaps itself is filled whole, as GDSII has it, and then cut along rows.
"""

from __future__ import annotations

from collections.abc import Sequence

import pya  # type: ignore[import]

DRAWN = pya.Shapes.SBoxes
OTHERS = pya.Shapes.SPolygons | pya.Shapes.SPaths


def rectangles_of(others: pya.Region) -> pya.Region:
    """The rectangles that shapes with level sides fill together."""
    return filled(others).merged().decompose_trapezoids_to_region()


def filled(shapes: pya.Region) -> pya.Region:
    """Shapes without lines that go there and back: those have four points, and KLayout may take them for a box."""
    found = raw(raw(shapes).with_area(0, True))
    for shape in raw(shapes.with_area(0, False)).each():
        if shape.num_points() > 4:
            found.insert(shape)
    return found


def has_no_area(shape: pya.Shape) -> bool:
    return not shape.area() and (shape.polygon is None or filled(pya.Region(shape.polygon)).merged().is_empty())


def shapes_of(
    layout: pya.Layout, number: int, index: int, kinds: int = DRAWN | OTHERS, depth: int | None = None, without: Sequence[int] = ()
) -> pya.Region:
    """The shapes of a cell on a layer with those of the cells below, down to a depth and without some cells, each as it is
    drawn."""
    found = pya.RecursiveShapeIterator(layout, layout.cell(number), index)
    found.shape_flags = kinds
    if depth is not None:
        found.max_depth = depth
    if without:
        found.unselect_cells(list(without))
    return raw(pya.Region(found))


def raw(shapes: pya.Region) -> pya.Region:
    """Shapes as they are drawn, each for itself."""
    shapes.merged_semantics = False
    return shapes
