"""The colours of the masks, here and in KLayout."""

from __future__ import annotations

from typing import Iterable, Tuple
from xml.sax.saxutils import escape

MASK_A, MASK_B, OVERLAP = "#7fa9dc", "#f0b36b", "#8d6cb5"


def properties(layers: Iterable[Tuple[str, str, str]]) -> str:
    """How KLayout shows layers: each as its source (1/0, or a name), what it is called, and its colour, filled plainly."""
    lines = ['<?xml version="1.0" encoding="utf-8"?>', "<layer-properties>"]
    for source, name, colour in layers:
        lines += [
            f" <properties><frame-color>{colour}</frame-color><fill-color>{colour}</fill-color><dither-pattern>I0</dither-pattern>",
            f"  <visible>true</visible><valid>true</valid><name>{escape(name)}</name><source>{escape(source)}@1</source></properties>",
        ]
    return "\n".join([*lines, "</layer-properties>", ""])
