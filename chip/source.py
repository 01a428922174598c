"""One layer of a GDSII, OASIS or CIF file, read by KLayout: its cell, its extent and its units."""

import math
import os
import sys
from typing import Any

sys.path.append(os.path.join(os.path.dirname(os.path.abspath(__file__)), "..", "tools"))

import pya  # type: ignore[import]

import reading
from cif import Unreadable
from settings import Refused, Settings, ratio_of


class Source:
    def __init__(self, settings: Settings) -> None:
        self.settings = settings
        self.layout, self.layer = read_layer(settings)
        self.cell = top_of(self.layout, self.layer, settings)
        self.name = reading.name_of(self.cell)
        self.ratio = ratio_of(self.layout.dbu, settings.grid)
        grid = self.ratio.denominator
        self.half = math.ceil(settings.space / self.ratio / grid) * grid
        self.bounds = self.cell.bbox_per_layer(self.layer)
        if self.bounds.empty():
            raise Refused(f"layer {settings.layer} of {settings.layout} is empty")

    def shapes(self, where: Any, flags: Any = pya.Shapes.SAll, over: bool = False) -> Any:
        """The shapes of the layer that meet a box or a region, or share some area with it, as they are drawn."""
        found = pya.Region(self.iterator(where, flags, over))
        found.merged_semantics = False
        return found

    def iterator(self, where: Any, flags: Any = pya.Shapes.SAll, over: bool = False) -> Any:
        found = pya.RecursiveShapeIterator(self.layout, self.cell, self.layer, where, over)
        found.shape_flags = flags
        return found

    def count(self) -> int:
        """How many shapes the layer has after all instances."""
        known: dict[int, int] = {}
        for index in self.layout.each_cell_bottom_up():
            cell = self.layout.cell(index)
            below = sum(known[i.cell_index] * max(1, i.na) * max(1, i.nb) for i in cell.each_inst())
            known[index] = cell.shapes(self.layer).size() + below
        return known[self.cell.cell_index()]


def read_layer(settings: Settings) -> tuple[Any, int]:
    info = pya.LayerInfo.from_string(str(settings.layer))
    options = pya.LoadLayoutOptions()
    chosen = pya.LayerMap()
    chosen.map(info, 0, info)
    options.set_layer_map(chosen, False)
    options.text_enabled = options.properties_enabled = False
    layout = read(settings.layout, options)
    layer = layout.find_layer(info)
    if layer is None or all(cell.shapes(layer).is_empty() for cell in layout.each_cell()):
        there = sorted(i.to_s() for i in read(settings.layout, pya.LoadLayoutOptions()).layer_infos())
        if info.to_s() in there:
            raise Refused(f"layer {settings.layer} of {settings.layout} is empty")
        raise Refused(f"layer {settings.layer} is not in {settings.layout}, which has: {', '.join(there)}")
    return layout, layer


def read(path: str, options: Any) -> Any:
    """A layout that is one file, since a run is bound to the content of that."""
    try:
        if reading.form_of(path) == reading.LEF_OR_DEF:
            raise Refused(f"{path} is DEF or LEF, which rests on other files besides: tools/import makes CIF of it")
        return reading.read(path, options)
    except Unreadable as error:
        raise Refused(f"{path}: {error}") from error


def top_of(layout: Any, layer: int, settings: Settings) -> Any:
    if settings.top:
        if not layout.has_cell(settings.top):
            raise Refused(f"cell {settings.top} is not in {settings.layout}")
        return layout.cell(settings.top)
    tops = [cell for cell in layout.top_cells() if not cell.bbox_per_layer(layer).empty()]
    if len(tops) > 1:
        raise Refused(f"{settings.layout} has several top cells: set one of {', '.join(map(reading.name_of, tops))}")
    return tops[0] if tops else layout.top_cells()[0]
