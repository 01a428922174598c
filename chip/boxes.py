"""A layer as boxes: arrays of their corners, left, bottom, right and top, in units of the layout."""

import os
import sys
from typing import Any

sys.path.append(os.path.join(os.path.dirname(os.path.abspath(__file__)), "..", "tools"))

import numpy
import pya  # type: ignore[import]

from fragments import Array
from metal import DRAWN, OTHERS as NOT_BOXES, rectangles_of
from source import Source

__all__ = ["NOT_BOXES", "bounds_of", "boxes_of", "clipped", "lines_of", "meeting"]

# A rectangle in GDSII: what it is, its five points, and its end.
RECTANGLE = numpy.dtype([("head", "V20"), ("points", ">i4", (5, 2)), ("end", "V4")])
HEAD = bytes.fromhex("00040800 00060d020001 00060e020000 002c1003")


def boxes_of(source: Source, where: Any, folder: str) -> Array:
    """The boxes of what meets a box: rectangles as they are drawn, and boxes of what other shapes have in it.

    KLayout writes them in GDSII, where each takes as many bytes, to a file in a folder.
    """
    layout = pya.Layout(False)
    shapes = layout.create_cell("BOXES").shapes(layout.layer(1, 0))
    shapes.insert(source.iterator(where, DRAWN))
    others = source.shapes(where, NOT_BOXES) & pya.Region(where)
    shapes.insert(rectangles_of(others))
    path = os.path.join(folder, "boxes.gds")
    layout.write(path)
    with open(path, "rb") as file:
        data = file.read()
    os.remove(path)
    start = max(0, data.find(HEAD))
    points = numpy.frombuffer(data, RECTANGLE, shapes.size(), start)["points"].astype(numpy.int64)
    return boxes_between(points.min(axis=1), points.max(axis=1))


def boxes_between(low: Array, high: Array) -> Array:
    """The boxes between corners, of those that have an area."""
    found: Array = numpy.concatenate((low, high), axis=1)[(low < high).all(axis=1)]
    return found


def lines_of(source: Source, boxes: Array) -> str:
    """Boxes as lines of CIF, in quarters of a hundredth of a micron, of which a grid unit of `dpl` has two."""
    left, bottom, right, top = (boxes * (2 * source.ratio.numerator) // source.ratio.denominator).T
    numbers = numpy.array((right - left, top - bottom, (left + right) // 2, (bottom + top) // 2))
    return "B %d %d %d %d;\n" * len(boxes) % tuple(numbers.T.ravel().tolist())


def bounds_of(source: Source, boxes: Array) -> list[int]:
    """The corners of all boxes together in grid units, rounded outwards; no boxes have none."""
    if not len(boxes):
        return []
    n, d = source.ratio.numerator, source.ratio.denominator
    low, high = boxes[:, :2].min(axis=0), boxes[:, 2:].max(axis=0)
    found: list[int] = (low * n // d).tolist() + (-(-high * n // d)).tolist()
    return found


def meeting(boxes: Array, window: Any) -> Array:
    """The boxes that share some area with a window."""
    left, bottom, right, top = boxes.T
    found: Array = boxes[(left < window.right) & (right > window.left) & (bottom < window.top) & (top > window.bottom)]
    return found


def clipped(boxes: Array, window: Any) -> Array:
    """What boxes have in a window."""
    low = numpy.maximum(boxes[:, :2], (window.left, window.bottom))
    high = numpy.minimum(boxes[:, 2:], (window.right, window.top))
    return boxes_between(low, high)
