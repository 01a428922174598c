"""The dialog: spacing and overlap, weights, and a layer in which nothing is cut. What was asked last is remembered."""

from __future__ import annotations

from typing import Callable, Dict, TypeVar

import pya  # type: ignore[import]

from .layer import Asked, Layer, Refused

Number = TypeVar("Number", int, float)

NOTHING = "none"
SETTING = "dpl-asked-"
DEFAULTS = {"space": "0.06", "overlap": "0.02", "stitch": "1", "conflict": "10", "corner": "10"}
LABELS = {
    "space": "Spacing on one mask, microns",
    "overlap": "Overlap at a stitch, microns",
    "stitch": "A stitch costs",
    "conflict": "A conflict costs",
    "corner": "A conflict between corners costs",
}


class Dialog(pya.QDialog):  # type: ignore[misc]
    def __init__(self, layer: Layer, parent: pya.QWidget) -> None:
        super().__init__(parent)
        self.windowTitle = f"Double patterning of {layer.info}"
        self.objectName = "double_patterning"
        form = pya.QFormLayout(self)
        self.edits: Dict[str, pya.QLineEdit] = {}
        for name, label in LABELS.items():
            self.edits[name] = pya.QLineEdit(pya.Application.instance().get_config(SETTING + name) or DEFAULTS[name], self)
            form.addRow(label, self.edits[name])
        self.layers = layer.others()
        self.keep = pya.QComboBox(self)
        for name in (NOTHING, *self.layers):
            self.keep.addItem(name)
        form.addRow("Nothing is cut in layer", self.keep)
        buttons = pya.QDialogButtonBox(self)
        self.split = buttons.addButton("Split", pya.QDialogButtonBox.AcceptRole)
        buttons.addButton(pya.QDialogButtonBox.Cancel)
        buttons.accepted(self.accept)
        buttons.rejected(self.reject)
        form.addRow(buttons)

    def asked(self) -> Asked:
        """What was asked, in numbers."""
        for name, edit in self.edits.items():
            pya.Application.instance().set_config(SETTING + name, edit.text)
        space, overlap = (self.number(name, float, "a number") for name in ("space", "overlap"))
        stitch, conflict, corner = (self.number(name, int, "a whole number") for name in ("stitch", "conflict", "corner"))
        return Asked(space, overlap, stitch, conflict, corner, self.layers.get(self.keep.currentText))

    def number(self, name: str, kind: Callable[[str], Number], what: str) -> Number:
        try:
            return kind(self.edits[name].text)
        except ValueError as error:
            raise Refused(f"{LABELS[name]}: {what} is wanted, and not {self.edits[name].text}.") from error
