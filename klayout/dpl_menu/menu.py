"""Tools, Double Patterning: splits the current layer of the open layout by `dpl`, and shows what it found.

Both masks come into the layout as two layers in two colours, and conflicts, notches, stitches and odd cycles into the
marker browser, each with the cell in which it lies. The program runs beside KLayout, which goes on.
"""

from __future__ import annotations

import os

import pya  # type: ignore[import]

from . import HOME
from .asking import Dialog
from .layer import Layer, Refused
from .running import Run
from .showing import show

TITLE = "Double Patterning"


def ask() -> None:
    """Asks for lengths and weights, and splits the current layer."""
    view = pya.LayoutView.current()
    try:
        layer = Layer.current(view)
        dialog = Dialog(layer, pya.Application.instance().main_window())
        if not dialog.exec_():
            return
        asked = dialog.asked()
        text, words = layer.text(asked), layer.words(asked)
    except Refused as refused:
        warn(str(refused))
        return

    def done(status: int, report: bytes, told: str) -> None:
        if status:
            warn(told)
            return
        try:
            show(view, layer, asked, report)
        except Refused as refused:
            warn(str(refused))

    Run(TITLE, [os.path.join(HOME, "dpl"), *words], text, done)


def warn(text: str) -> None:
    pya.MessageBox.warning(TITLE, text, pya.MessageBox.Ok)
