"""Makes the chip of `test` with a unit of 1 nm: KLayout runs it with `target`, a path, with `rows` where the array has fewer
rows, and with `array_name` where it has another.

A cell with what double patterning meets is set out as an array, some copies mirrored: an odd triangle, a wire that is cut
at a stitch, a ring, a corner that touches another, a comb. A wire runs along each row of the array, and a polygon along
two sides of it, so that clusters cross the windows of a cut. One crowd of contacts has more close pairs than `dpl` takes,
and layers besides have faults.
"""

from typing import Any

import pya  # type: ignore[import]

# What KLayout is run with.
target: str = globals()["target"]

Corners = tuple[int, int, int, int]

PITCH = 4000
ROWS, COLUMNS = 4, 6
CROWD = 36


def boxes_of_block() -> list[Corners]:
    """Corners in nanometres, for a spacing of 100 and an overlap of 20."""
    triangle = [(0, 0, 100, 100), (150, 0, 250, 100), (75, 150, 175, 250)]
    stitch = [(0, 0, 1000, 100), (0, 150, 100, 250), (900, 150, 1000, 250), (0, 300, 450, 400), (500, 300, 1000, 400)]
    ring = [(0, 0, 500, 150), (0, 350, 500, 500), (0, 150, 150, 350), (350, 150, 500, 350), (175, 175, 325, 325)]
    corner = [(0, 0, 100, 100), (100, 100, 200, 200)]
    comb = [(100 * k, 0, 100 * k + 50, 900) for k in range(8)] + [(0, 940, 750, 1000)]
    return (
        moved(triangle, 0, 0)
        + moved(stitch, 600, 0)
        + moved(ring, 0, 800)
        + moved(corner, 800, 800)
        + moved(comb, 1900, 600)
    )


def moved(boxes: list[Corners], x: int, y: int) -> list[Corners]:
    return [(a + x, b + y, c + x, d + y) for a, b, c, d in boxes]


def block(layout: Any, layer: int) -> Any:
    cell = layout.create_cell("BLOCK")
    for corners in boxes_of_block():
        cell.shapes(layer).insert(pya.Box(*corners))
    points = [pya.Point(*p) for p in ((100, 1500), (900, 1500), (900, 1900), (850, 1900), (850, 1550), (100, 1550))]
    cell.shapes(layer).insert(pya.Polygon(points))
    cell.shapes(layer).insert(pya.Path([pya.Point(200, 2200), pya.Point(1000, 2200), pya.Point(1000, 3000)], 60))
    return cell


def crowd(layout: Any, layer: int) -> Any:
    """Contacts of one unit so near to one another that they have more close pairs than `dpl` takes."""
    cell = layout.create_cell("CROWD")
    for k in range(CROWD * CROWD):
        x, y = k % CROWD * 2, k // CROWD * 2
        cell.shapes(layer).insert(pya.Box(x, y, x + 1, y + 1))
    return cell


def faults(layout: Any, top: Any) -> None:
    slanted = layout.layer(pya.LayerInfo(20, 0))
    top.shapes(slanted).insert(pya.Polygon([pya.Point(0, 0), pya.Point(100, 0), pya.Point(50, 80)]))
    fine = layout.layer(pya.LayerInfo(21, 0))
    top.shapes(fine).insert(pya.Box(0, 0, 100, 102))
    layout.layer(pya.LayerInfo(22, 0))
    names = layout.layer(pya.LayerInfo(23, 0))
    top.shapes(names).insert(pya.Text("NAME", pya.Trans()))
    lines = layout.layer(pya.LayerInfo(26, 0))
    top.shapes(lines).insert(pya.Path([pya.Point(0, 0), pya.Point(1000, 0)], 0))
    caller, ghost = layout.create_cell("CALLER"), layout.create_cell("GHOST")
    caller.shapes(layout.layer(pya.LayerInfo(28, 0))).insert(pya.Box(0, 0, 100, 100))
    caller.insert(pya.CellInstArray(ghost.cell_index(), pya.Trans()))
    ghost.ghost_cell = True
    far = layout.layer(pya.LayerInfo(27, 0))
    top.shapes(far).insert(pya.Box(1499999000, 0, 1500000000, 1000))


def array(layout: Any, layer: int, rows: int) -> Any:
    """The blocks, the upper half of them mirrored, a wire along each row, and a polygon along two sides of all.

    A keep layer lies over all of it.
    """
    cell = layout.create_cell(str(globals().get("array_name", "ARRAY")))
    one = block(layout, layer)
    up, along = pya.Vector(0, PITCH), pya.Vector(PITCH, 0)
    half = rows // 2
    cell.insert(pya.CellInstArray(one.cell_index(), pya.Trans(0, 0), along, up, COLUMNS, half))
    mirrored = pya.Trans(0, True, 0, half * PITCH + 3100)
    cell.insert(pya.CellInstArray(one.cell_index(), mirrored, along, up, COLUMNS, rows - half))
    width, height = COLUMNS * PITCH, rows * PITCH
    corner = [(-600, -600), (width, -600), (width, -500), (-500, -500), (-500, height), (-600, height)]
    cell.shapes(layer).insert(pya.Polygon([pya.Point(*p) for p in corner]))
    for row in range(rows):
        cell.shapes(layer).insert(pya.Box(0, row * PITCH + 3300, COLUMNS * PITCH, row * PITCH + 3400))
    cell.shapes(layout.layer(pya.LayerInfo(25, 0))).insert(pya.Box(-1000, -1000, width + 1000, height + 1000))
    return cell


def main() -> None:
    layout = pya.Layout()
    layout.dbu = 0.001
    layer = layout.layer(pya.LayerInfo(10, 0))
    top = layout.create_cell("CHIP")
    rows = int(globals().get("rows", ROWS))
    for cell, y in ((array(layout, layer, rows), 0), (crowd(layout, layer), ROWS * PITCH + 1000)):
        top.insert(pya.CellInstArray(cell.cell_index(), pya.Trans(0, y)))
    faults(layout, top)
    top.shapes(layout.layer(pya.LayerInfo(24, 0))).insert(pya.Box(0, 0, 1000, 100))
    top.shapes(layout.layer(pya.LayerInfo(24, 0))).insert(pya.Box(0, 250, 1000, 350))
    layout.write(target)


main()
