"""Sees whether the rest of the layer keeps the spacing from a part.

What a part has is taken from its report, and the rest from the layout itself, so nothing of the cut is believed.
"""

import math
from typing import Any

import pya  # type: ignore[import]

from bound import Run
from cover import cover
from masks import Reader
from reports import Report, boxes_of
from source import Source


class Apart:
    """Lengths are counted in the greatest unit that both the layout and the grid are whole numbers of."""

    def __init__(self, run: Run, reader: Reader) -> None:
        self.reader = reader
        self.source = Source(run.chosen)
        run.see_layout()
        ratio = self.source.ratio
        self.of_layout, self.of_grid = ratio.numerator, ratio.denominator
        self.space = 2 * run.chosen.space * self.of_grid
        self.unit = float(run.chosen.grid / 1000 / self.of_grid)

    def near(self, report: Report) -> list[list[float]]:
        """Where the rest of the layer is nearer to a part than the spacing, or touches it, in micrometres.

        What the part has and the layer has not counts as rest, and touches the part. No edges within the part are taken
        out before the rest is looked at: one of them that is too near means that the part is.
        """
        own = self.own(report)
        rest = own ^ self.around(report)
        own.merged_semantics = rest.merged_semantics = False
        found = [pair.first.bbox() for pair in rest.separation_check(own, self.space).each()]
        found += [shape.bbox() for shape in rest.interacting(own).each()]
        return [[box.left * self.unit, box.bottom * self.unit] for box in found]

    def own(self, report: Report) -> Any:
        """Both masks of a part together."""
        # The layout has to live as long as its regions.
        self.masks = layout = pya.Layout(False)
        cell = layout.create_cell("PART")
        layer = layout.layer(1, 0)
        self.reader.into(report, cell, [layer, layer])
        return pya.Region(cell.begin_shapes_rec(layer), pya.ICplxTrans(self.of_grid))

    def around(self, report: Report) -> Any:
        """The shapes of the layer that are within the spacing of a part, and others."""
        found = pya.Region()
        for corners in cover(boxes_of(report.body), self.space // self.of_grid + 1).tolist():
            box = pya.Box(*(math.floor(v / self.source.ratio) for v in corners)).enlarged(1, 1)
            found.insert(self.source.iterator(box))
        return found.transformed(pya.ICplxTrans(self.of_layout))
