"""What `tools/import` has KLayout do: read a layout, write layers of it as CIF, and hold the text against the layout."""

from __future__ import annotations

import json
import re
from collections.abc import Iterator
from typing import Any

import pya  # type: ignore[import]

from cif import Unreadable
from held import hold
from metal import DRAWN, OTHERS, has_no_area
from reach import refuse_far
from reading import name_of, read
from writing import Chosen, lines

FIGURES = DRAWN | OTHERS
MOST_NAME = 31
MOST_BYTES = 67_108_864


def run(words: str, target: str, said: str) -> None:
    """Does what the words ask for, and says in a file what was refused, or else what was left out."""
    answer = {}
    try:
        answer["told"] = made(json.loads(words), target)
    except (Unreadable, OSError, RuntimeError) as error:
        answer["refused"] = " ".join(str(error).split())
    with open(said, "w", encoding="utf-8") as file:
        json.dump(answer, file)


def made(asked: dict[str, Any], target: str) -> str:
    """Writes the text, and gives what is to be told of it."""
    layout = read(asked["layout"], lefs=asked["lef"])
    layers = Layers(layout, asked["names"], asked["layers"])
    cell = layers.cell(asked["cell"])
    chosen = Chosen(layout, cell, layers.drawn_in(cell))
    refuse_far(chosen, asked["times"])
    text = "\n".join([*lines(chosen, asked["times"]), ""]).encode("ascii")
    if not asked["unchecked"]:
        hold(text, chosen, asked["times"])
    with open(target, "wb") as file:
        file.write(text)
    return told(layers, chosen, len(text))


class Layers:
    """The layers of a layout, each with its index and the name that it gets, and which of them are wanted."""

    def __init__(self, layout: pya.Layout, names: dict[str, str], only: list[str]) -> None:
        self.layout, self.names, self.only = layout, names, only
        self.infos = {index: layout.get_info(index) for index in layout.layer_indexes()}
        for word in names:
            self.refuse_missing("--name", word, any(is_called(info, word) for info in self.infos.values()))
        self.called = {index: self.given(index) or own_name(info) for index, info in self.infos.items()}
        for word in only:
            self.refuse_missing("--layer", word, any(self.means(word, index) for index in self.infos))
        self.wanted = [index for index in self.infos if not only or any(self.means(word, index) for word in only)]
        self.refuse_clash()

    def refuse_missing(self, option: str, word: str, is_there: bool) -> None:
        if not is_there:
            there = ", ".join(sorted(str(info) for info in self.infos.values())) or "none"
            raise Unreadable(f"{option} names a layer {word} that is not there; the layers are: {there}")

    def given(self, index: int) -> str | None:
        """The name that --name gives a layer."""
        return next((new for word, new in self.names.items() if is_called(self.infos[index], word)), None)

    def means(self, word: str, index: int) -> bool:
        """Whether --layer takes a layer: by its number and data type, its own name or the name that it gets."""
        return is_called(self.infos[index], word) or self.called[index] == word

    def refuse_clash(self) -> None:
        """Layers come together where a name says so, and not because CIF has no other letters for them."""
        first: dict[str, int] = {}
        for index in self.wanted:
            other = first.setdefault(self.called[index], index)
            if other != index and not self.given(index) and not self.given(other):
                both = f"{self.infos[other]} and {self.infos[index]} would both be {self.called[index]}"
                raise Unreadable(f"{both}: --name OLD=NEW gives one of them another name, or joins them")

    def cell(self, word: str | None) -> pya.Cell:
        """The cell that is written: the one that is named, or else the one top cell with figures."""
        tops = [cell for cell in self.layout.top_cells() if any(self.is_drawn(cell, index) for index in self.wanted)]
        names = ", ".join(sorted(map(name_of, tops)))
        if word is not None:
            if not self.layout.has_cell(word):
                raise Unreadable(f"--cell names a cell {word} that is not there; the top cells are: {names or 'none'}")
            return self.layout.cell(word)
        if len(tops) > 1:
            raise Unreadable(f"there are several top cells: --cell takes one of {names}")
        if not tops:
            raise Unreadable(f"layer {self.only[0]} has no figure" if self.only else "no layer has a figure")
        return tops[0]

    def is_drawn(self, cell: pya.Cell, index: int) -> bool:
        """Whether a layer has figures in a cell or below it."""
        found = pya.RecursiveShapeIterator(self.layout, cell, index)
        found.shape_flags = FIGURES
        return not found.at_end()

    def drawn_in(self, cell: pya.Cell) -> dict[str, list[int]]:
        """The layers that are written, with their indexes."""
        found: dict[str, list[int]] = {}
        for index in self.wanted:
            if self.is_drawn(cell, index):
                found.setdefault(self.called[index], []).append(index)
        for word in self.only:
            if not any(self.means(word, index) for group in found.values() for index in group):
                raise Unreadable(f"layer {word} has no figure in cell {name_of(cell)}")
        if not found:
            raise Unreadable(f"no layer has a figure in cell {name_of(cell)}")
        return found


def is_called(info: pya.LayerInfo, word: str) -> bool:
    """Whether a layer is meant by its number and data type, as 15/0 or 15, or by its name."""
    names = (f"{info.layer}/{info.datatype}", info.name, str(info.layer) if info.datatype == 0 else "")
    return word != "" and word in names


def own_name(info: pya.LayerInfo) -> str:
    """The name of a layer in digits and upper-case letters: met1 becomes MET1, and 15/0 without a name L15D0."""
    return re.sub("[^0-9A-Z]", "", info.name.upper())[:MOST_NAME] or f"L{info.layer}D{info.datatype}"


def told(layers: Layers, chosen: Chosen, size: int) -> str:
    """What an engineer may miss in the text: layers that came apart, what was left out, and that it is too long."""
    apart = [index for index in indexes_of(chosen) if not layers.given(index) and wire_of(layers, index)]
    said = []
    if apart:
        names = ", ".join(f"{layers.called[index]} ({layers.infos[index].name})" for index in apart)
        join = f"--name {layers.infos[apart[0]].name}={wire_of(layers, apart[0])}"
        said.append(f"layers of their own: {names}, which {join} would join")
    missing = list(left_out(layers, chosen))
    if missing:
        said.append(f"left out: {', '.join(missing)}")
    if size > MOST_BYTES:
        said.append(f"the text has {size:,} bytes, and dpl takes {MOST_BYTES:,}: --layer writes the layers that are wanted")
    return "; ".join(said)


def indexes_of(chosen: Chosen) -> list[int]:
    return [index for group in chosen.layers.values() for index in group]


def wire_of(layers: Layers, index: int) -> str | None:
    """The name of the layer that met1.PIN and the like belong to."""
    base, dot, _ = layers.infos[index].name.rpartition(".")
    return next((layers.called[other] for other, info in layers.infos.items() if dot and info.name == base), None)


def left_out(layers: Layers, chosen: Chosen) -> Iterator[str]:
    cells = [chosen.cell, *map(chosen.layout.cell, chosen.cell.called_cells())]
    labels = empty = 0
    for cell in cells:
        for index in layers.infos:
            shapes = cell.shapes(index)
            labels += sum(1 for _ in shapes.each(pya.Shapes.STexts))
            if index in layers.wanted:
                empty += sum(1 for shape in shapes.each(pya.Shapes.SAll) if not shape.is_text() and has_no_area(shape))
    if labels:
        yield counted(labels, "label")
    if empty:
        yield counted(empty, "figure") + " without area"
    ghosts = sorted(name_of(cell) for cell in cells if cell.is_ghost_cell())
    if ghosts:
        yield f"the cells {', '.join(ghosts)}, which the layout calls and does not have"
    others = sorted(str(info) for index, info in layers.infos.items() if index not in layers.wanted)
    if others:
        yield f"the layers {', '.join(others)}"


def counted(count: int, what: str) -> str:
    return f"{count} {what}{'' if count == 1 else 's'}"
