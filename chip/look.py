"""Looks at the layers of a run before its first step: whether they are whole, have metal, and lie where all steps can count.

KLayout runs it.
"""

import os
import sys

HERE = os.path.dirname(os.path.abspath(__file__))
sys.path.insert(0, HERE)
sys.path.append(os.path.join(HERE, "..", "tools"))

from bound import Run
from cif import Unreadable
from keep import Keep
from metal import has_no_area
from reach import refuse_beyond
from reading import name_of
from refused import Refused, guard
from source import Source
from writing import Chosen

# What KLayout is run with.
folder: str = globals()["folder"]

# KLayout counts by 32 bits, reads a report in halves of a grid unit, and takes the width of a layer.
MOST = 1_000_000_000
SHOWN = 5


def see(source: Source) -> None:
    """Refuses a layer without metal, of cells that are not there, and one that lies farther out than the steps can count."""
    name, layout = source.settings.layer, source.settings.layout
    try:
        refuse_beyond(Chosen(source.layout, source.cell, {name: [source.layer]}), MOST / source.ratio.numerator)
    except Unreadable as error:
        raise Refused(f"{layout}: {error}") from error
    cells = [source.cell, *map(source.layout.cell, source.cell.called_cells())]
    ghosts = sorted(name_of(cell) for cell in cells if cell.is_ghost_cell())
    if ghosts:
        raise Refused(f"{layout} calls cells that it does not have: {', '.join(ghosts[:SHOWN])}{', ..' * (len(ghosts) > SHOWN)}")
    if all(has_no_area(shape) for cell in cells for shape in cell.shapes(source.layer).each()):
        raise Refused(f"layer {name} of {layout} is empty: no figure has an area")


def look(run: Run) -> None:
    source = Source(run.chosen)
    keep = Keep(source, run.chosen)
    for layer in (source, keep.other):
        if layer is not None:
            see(layer)
    run.see_layout()


guard("settings", lambda: look(Run(folder)))
