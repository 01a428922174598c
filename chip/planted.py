"""Plants a fault in the file of all masks, for `test`. KLayout runs it with `path`, `kind` and `cell`, a part's cell."""

from typing import Any

import pya  # type: ignore[import]

# What KLayout is run with.
path: str = globals()["path"]
kind: str = globals()["kind"]
cell: str = globals()["cell"]


def swap(layout: Any, part: Any) -> None:
    """The part's masks change places."""
    part.swap(layout.layer(1, 0), layout.layer(2, 0))


def move(layout: Any, part: Any) -> None:
    """One box goes to the other mask."""
    box = next(shape.box for shape in part.shapes(layout.layer(1, 0)).each())
    part.shapes(layout.layer(1, 0)).erase(next(part.shapes(layout.layer(1, 0)).each()))
    part.shapes(layout.layer(2, 0)).insert(box)


def drop(layout: Any, part: Any) -> None:
    """The part is left out."""
    part.delete()


def shift(layout: Any, part: Any) -> None:
    """The part stands beside its place."""
    for inst in layout.top_cell().each_inst():
        if inst.cell_index == part.cell_index():
            inst.transform(pya.Trans(2, 0))


def clear(layout: Any, part: Any) -> None:
    """Nothing is left."""
    layout.clear()


def main() -> None:
    layout = pya.Layout(True)
    layout.read(path)
    globals()[kind](layout, layout.cell(cell))
    layout.write(path)


main()
