"""In which cell of the hierarchy a place lies: the deepest one that holds both shapes, where one change mends all copies.

It runs in KLayout's Python, on the layout that was split.
"""

from __future__ import annotations

import json
import os
import sys
import tempfile
from typing import Any, Dict, Iterator, List, Sequence, Tuple

from cif import Unreadable
from net import Box

SCRIPT = "import sys\nsys.path.append(tools)\nimport cells\ncells.answer(path, top, layer, pairs, found)\n"
GRID_UNITS_OF_A_MICRON = 200


def of_file(path: str, top: str, layer: str, pairs: Sequence[Tuple[Box, Box]]) -> List[str]:
    """The names of the cells of pairs of boxes in a file of CIF, in grid units, by KLayout without a window."""
    import klayout

    with tempfile.TemporaryDirectory() as folder:
        asked, found = os.path.join(folder, "pairs"), os.path.join(folder, "found")
        with open(asked, "w", encoding="ascii") as file:
            json.dump(pairs, file)
        tools = os.path.dirname(os.path.realpath(__file__))
        klayout.run(SCRIPT, path=os.path.abspath(path), top=top, layer=layer, pairs=asked, found=found, tools=tools)
        with open(found, encoding="utf-8") as file:
            told = json.load(file)
    if "refused" in told:
        raise Unreadable(told["refused"])
    names: List[str] = told["names"]
    return names


# ---- in KLayout


def answer(path: str, top: str, layer: str, pairs: str, found: str) -> None:
    """Writes the names to a file, or why there are none."""
    with open(pairs, encoding="ascii") as file:
        asked = json.load(file)
    try:
        told: Dict[str, Any] = {"names": names(path, top, layer, asked)}
    except (Unreadable, RuntimeError) as error:
        told = {"refused": " ".join(str(error).split())}
    with open(found, "w", encoding="utf-8") as file:
        json.dump(told, file)


def names(path: str, top: str, layer: str, pairs: Sequence[Sequence[Sequence[int]]]) -> List[str]:
    import pya  # type: ignore[import]

    import reading

    layout = pya.Layout(False)
    reading.read_cif(layout, path, pya.LoadLayoutOptions())
    index = next((index for index in layout.layer_indexes() if layout.get_info(index).name == layer), None)
    cell = layout.cell(top)
    if index is None or cell is None:
        raise Unreadable(f"KLayout finds no cell {top} with a layer {layer}")
    unit = round(1 / (GRID_UNITS_OF_A_MICRON * layout.dbu))
    return [name_of(layout, cell, index, *([at * unit for at in box] for box in pair)) for pair in pairs]


def name_of(layout: Any, cell: Any, layer: int, first: Sequence[int], second: Sequence[int]) -> str:
    """The name of the deepest cell that holds shapes at both boxes, whose lengths are those of the layout."""
    best: Sequence[Tuple[str, int]] = []
    others = list(ways(cell, layer, second))
    for one in ways(cell, layer, first):
        for other in others:
            shared = os.path.commonprefix([one, other])
            best = max(best, shared, key=len)
    return str(layout.cell(best[-1][1]).name if best else cell.name)


def ways(cell: Any, layer: int, box: Sequence[int]) -> Iterator[List[Tuple[str, int]]]:
    """The calls that lead to each shape at a box, each with its cell."""
    pya = sys.modules["pya"]
    found = cell.begin_shapes_rec_overlapping(layer, pya.Box(*box))
    while not found.at_end():
        yield [(call.specific_cplx_trans().to_s(), call.cell_inst().cell_index) for call in found.path()]
        found.next()
