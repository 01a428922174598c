"""Shows a report in the open layout: both masks as two layers in two colours, and all marks in the marker browser."""

from __future__ import annotations

import os
import tempfile
from typing import Iterator

import cells
import colours
import pya  # type: ignore[import]
from cif import Unreadable
from marks import KINDS, Mark, database, marks, summed
from net import Report
from notches import notches_of

from .layer import Asked, Layer, Refused

COLOURS = {"A": colours.MASK_A, "B": colours.MASK_B}
FIRST_TYPE = 101
NAME = "double patterning"


def show(view: pya.LayoutView, layer: Layer, asked: Asked, text: bytes) -> None:
    """Puts the masks of a report into the layout, and opens the marker browser."""
    try:
        report = Report(text)
    except Unreadable as error:
        raise Refused(f"The report cannot be read: {error}") from error
    grid = layer.grid(asked)
    regions = {letter: region_of(layer, report, letter, grid) for letter in "AB"}
    # what changes outside of a transaction cannot be undone, nor what was before it
    view.transaction("Double patterning")
    try:
        hide(view, layer)
        for letter in "BA":
            paint(view, layer, put(layer, letter, regions[letter]), letter)
    finally:
        view.commit()
    browse(view, layer, report, asked)


def region_of(layer: Layer, report: Report, letter: str, grid: int) -> pya.Region:
    region = pya.Region()
    for corners in report.boxes(letter):
        region.insert(layer.box(corners, grid))
    return region.merged()


# ---- layers


def put(layer: Layer, letter: str, region: pya.Region) -> int:
    """Writes a mask over what an earlier run left on its layer; the index of the layer."""
    index = index_of(layer, f"{layer.info.name or f'L{layer.info.layer}D{layer.info.datatype}'} mask {letter}")
    shapes = layer.cell.shapes(index)
    shapes.clear()
    shapes.insert(region)
    return index


def index_of(layer: Layer, name: str) -> int:
    """The layer of a mask: the one of its name, or a new one beside the layer that was split."""
    layout, number = layer.layout, layer.info.layer
    infos = {layout.get_info(index).name: index for index in layout.layer_indexes()}
    if name in infos:
        return int(infos[name])
    if number < 0:
        return int(layout.layer(pya.LayerInfo(name)))
    kind = FIRST_TYPE
    while layout.find_layer(number, kind) is not None:
        kind += 1
    return int(layout.layer(pya.LayerInfo(number, kind, name)))


def nodes(view: pya.LayoutView, cellview: pya.CellView) -> Iterator[pya.LayerPropertiesNodeRef]:
    """The entries of the layer list that show a layer of this layout."""
    found = view.begin_layers()
    while not found.at_end():
        node = found.current()
        if node.source_cellview == cellview.index():
            yield node
        found.next()


def hide(view: pya.LayoutView, layer: Layer) -> None:
    for node in nodes(view, layer.cellview):
        if node.layer_index() == layer.index:
            node.visible = False


def paint(view: pya.LayoutView, layer: Layer, index: int, letter: str) -> None:
    """Shows the layer of a mask in its colour, as the first of the list."""
    colour = int(COLOURS[letter][1:], 16)
    for node in nodes(view, layer.cellview):
        if node.layer_index() == index:
            node.visible = True
            return
    node = pya.LayerPropertiesNode()
    node.source_layer_index, node.source_cellview = index, layer.cellview.index()
    node.fill_color = node.frame_color = colour
    node.dither_pattern, node.name = 0, f"mask {letter} of {layer.info}"
    view.insert_layer(view.begin_layers(), node)


# ---- markers


def browse(view: pya.LayoutView, layer: Layer, report: Report, asked: Asked) -> None:
    """Opens the marker browser on all marks, in place of those of an earlier run."""
    divide, grid = layer.divide(asked), layer.grid(asked)
    found = [in_cell(mark, layer, grid) for mark in marks(report, KINDS, divide)]
    said = summed(report, len(notches_of(report)), divide)
    name = f"{NAME} of {layer.info}".replace("/", "-")
    for index in reversed(range(view.num_rdbs())):
        if view.rdb(index).name == name:
            view.remove_rdb(index)
    held = pya.ReportDatabase(name)
    with tempfile.TemporaryDirectory() as folder:
        path = os.path.join(folder, f"{name}.lyrdb")
        with open(path, "w", encoding="utf-8") as file:
            file.writelines(line + "\n" for line in database(found, layer.cell.name, said, divide))
        held.load(path)
    held.name = name
    view.show_rdb(view.add_rdb(held), layer.cellview.index())


def in_cell(mark: Mark, layer: Layer, grid: int) -> Mark:
    """A mark that tells the deepest cell that holds both of its shapes."""
    if not mark.between:
        return mark
    first, second = ([at // grid for at in box] for box in mark.between)
    cell = cells.name_of(layer.layout, layer.cell, layer.index, first, second)
    return mark._replace(title=f"in cell {cell}: {mark.title}")
