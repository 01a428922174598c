"""The joined masks, part by part: whether each part's cell is what its report says, and its files those that were checked."""

import tempfile
from functools import cached_property
from typing import Any

import pya  # type: ignore[import]

from bound import Run
from files import holds, read_json
from found import Found
from history import part_faults
from listed import Listed, lists_of
from manifest import Manifest
from masks import Reader, cell_of
from records import Part, path_of
from refused import Refused
from reports import Report

LAYERS = (1, 2)


class Joined:
    """The file of all masks; `layout` is what it has, or None where KLayout cannot read it."""

    def __init__(self, run: Run, target: str, listed: Listed) -> None:
        self.run, self.target, self.listed = run, target, listed
        self.manifest = Manifest(run)
        self.sums: dict[str, Any] = read_json(run.path("joined.json"))
        self.layout, self.unread = read_masks(run.path(target))

    def shapes(self, letter: str, where: Any, finer: int) -> Any:
        """What a mask has around a box, both in grid units, as a region whose lengths are counted `finer` to one."""
        found = pya.RecursiveShapeIterator(self.layout, self.top(), self.layout.layer(LAYERS["AB".index(letter)], 0), where, False)
        return pya.Region(found, pya.ICplxTrans(finer))

    def top(self) -> Any:
        return self.layout.cell(self.manifest.cell)

    @cached_property
    def placed(self) -> dict[str, list[Any]]:
        """What stands in the top cell, by the names of the cells."""
        found: dict[str, list[Any]] = {}
        for inst in self.top().each_inst():
            found.setdefault(inst.cell.name, []).append(inst)
        return found

    def bounds(self) -> Any:
        return self.top().bbox()

    def faults(self) -> list[Found]:
        """What is wrong with the file as a whole."""
        faults = [Found(f"{self.target}: {self.unread}")] if self.unread else []
        if not holds(self.run.path(self.target), self.sums["masks"]):
            faults.append(Found(f"{self.target} is not the file that was joined"))
        for word, name in (("table", "table.txt"), ("manifest", "manifest.json")):
            if not holds(self.run.path(name), self.sums[word]):
                faults.append(Found(f"{name} is not the file that was joined"))
        if self.layout is not None:
            unit = float(self.run.chosen.grid / 1000)
            if abs(self.layout.dbu - unit) > 1e-9 * unit:
                faults.append(Found(f"the masks count in {self.layout.dbu:.9g} micrometres, and not in {unit:.9g}"))
            due = {cell_of(name) for name in self.manifest.names()}
            others = {cell.name for cell in self.layout.each_cell()} - due - {self.manifest.cell}
            faults += [Found(f"the masks have a cell {name} that is no part") for name in sorted(others)]
            if self.layout.has_cell(self.manifest.cell) and any(not self.top().shapes(layer).is_empty() for layer in self.layout.layer_indexes()):
                faults.append(Found("the masks have shapes outside of all parts"))
        return faults

    def faults_of(self, number: int) -> list[Found]:
        """What is wrong with a part; what its report lists is noted."""
        part = self.manifest.parts[number]
        faults = part_faults(self.run, part)
        lists = None
        try:
            report = Report(self.run.folder, part)
            lists = lists_of(report, self.run.path("cut", part["name"] + ".cif"))
            if report.sha256 != self.sums["reports"].get(part["name"]):
                faults.append(Found("its report is not the one that was joined", part["name"]))
            faults += self.cell_faults(part, report)
            near = read_json(path_of(self.run, "near", part))
            if near:
                faults.append(Found("the rest of the layer is nearer than the spacing", part["name"], tuple((x, y) for x, y in near)))
        except (Refused, RuntimeError, OSError, ValueError) as error:
            faults.append(Found(str(error), part["name"]))
        except IndexError:
            faults.append(Found("its report names what is not there", part["name"]))
        if lists is not None:
            self.listed.note(number, lists)
        return faults

    def cell_faults(self, part: Part, report: Report) -> list[Found]:
        name = cell_of(part["name"])
        placed = self.placed.get(name, [])
        if report.refusal:
            return [Found("it was refused, and the masks have a cell of it", part["name"])] if placed else []
        if len(placed) != 1 or placed[0].trans != pya.Trans() or placed[0].is_regular_array():
            return [Found(f"its cell stands {len(placed)} times in the masks, or not in its place", part["name"])]
        other = pya.Layout(False)
        other.dbu = self.layout.dbu
        cell = other.create_cell(name)
        infos = [self.layout.get_info(self.layout.layer(layer, 0)) for layer in LAYERS]
        with tempfile.TemporaryDirectory() as scratch:
            Reader(scratch, self.run.chosen.name).into(report, cell, [other.layer(info) for info in infos])
        same = pya.LayoutDiff().compare(placed[0].cell, cell, pya.LayoutDiff.Silent, 0)
        return [] if same else [Found("its cell of the masks is not what its report says", part["name"])]


def read_masks(path: str) -> tuple[Any, str]:
    """The masks with each shape for itself: a box meets all members of a repetition, or none of them."""
    layout = pya.Layout(True)
    try:
        layout.read(path)
        return layout, ""
    except RuntimeError as error:
        return None, f"KLayout cannot read it: {error}"
