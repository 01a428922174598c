"""The boxes of a report as shapes of KLayout, and the file of all masks."""

import os
from collections.abc import Iterable
from typing import Any

import pya  # type: ignore[import]

from refused import Refused
from reports import Report

# Boxes of a report have their corners in half hundredths of a micron and their middles in quarters.
QUARTER, HALF = 0.0025, 0.5


class Reader:
    """Reads the masks of reports by KLayout, by way of a file without the lines in front."""

    def __init__(self, folder: str, name: str) -> None:
        self.path = os.path.join(folder, "masks.cif")
        self.layers = [pya.LayerInfo(name + letter) for letter in "AB"]
        self.options = pya.LoadLayoutOptions()
        self.options.cif_dbu = QUARTER

    def into(self, report: Report, cell: Any, layers: Iterable[int]) -> None:
        """Puts both masks of a report into layers of a cell, in grid units."""
        layout, trans = self.read(report), pya.ICplxTrans(HALF)
        for info, layer in zip(self.layers, layers):
            found = layout.find_layer(info)
            if found is not None:
                for source in layout.each_cell():
                    cell.shapes(layer).insert(source.shapes(found), trans)

    def read(self, report: Report) -> Any:
        with open(self.path, "wb") as file:
            file.write(report.body)
        layout = pya.Layout(False)
        layout.read(self.path, self.options)
        return layout


def cell_of(part: str) -> str:
    """The cell of a part in the file of all masks."""
    return "PART_" + part.replace("/", "_")


def write_masks(layout: Any, path: str) -> None:
    """Writes the masks. KLayout does not always notice that a disk is full, so the end of the file is looked at."""
    new = os.path.join(os.path.dirname(path), "new-" + os.path.basename(path))
    layout.write(new)
    with open(new, "rb") as file:
        file.seek(-min(256, os.path.getsize(new)), os.SEEK_END)
        end = file.read()
    # The last record of OASIS has number 2 and 256 bytes; that of GDSII is ENDLIB, and zeros may follow.
    whole = end.rstrip(b"\0").endswith(b"\0\4\4") if path.endswith(".gds") else len(end) == 256 and end[0] == 2
    if not whole:
        raise Refused(f"{path} is not written to its end: is the disk full?")
    os.replace(new, path)
