"""The layout that a report was made from: how many times as large as itself it was split, and its top cell."""

from __future__ import annotations

import argparse
import os
from typing import List, NamedTuple, Optional, Tuple

import scale
from cif import Layout, Number, Unreadable, text_of
from net import Report
from tool import Words, tell, told_of

CELL = "MASKS"
WANTED = (
    "--from LAYOUT.cif is wanted, the layout that was split, whose head says how many times as large it was made; "
    "or --divide K says it, 1 for a layout of its own size"
)
CALLS = "--from LAYOUT | --divide K"


class Origin(NamedTuple):
    """By what all lengths are divided, the top cell, and the layout with its file where it was given."""

    times: int
    cell: str
    path: str = ""
    layout: Optional[Layout] = None


def add_words(words: Words) -> None:
    words.add_argument("--from", dest="origin", metavar="LAYOUT", help="the layout that was split; its head says how many times as large it was made")
    words.add_argument("--divide", type=int, metavar="K", help="by what all lengths are divided, where no layout is given")
    words.add_argument("--cell", metavar="NAME", help=f"the name of the top cell: that of the layout, or {CELL}, where it is left out")


def origin_of(words: Words, given: argparse.Namespace, report: Report) -> Origin:
    """What the words say of the layout; a divisor that is not that of the layout is refused."""
    divide: Optional[int] = given.divide
    if divide is not None and divide < 1:
        words.error("--divide takes a whole number from 1")
    if given.origin is None:
        if divide is None:
            words.error(WANTED)
        return Origin(divide, given.cell or CELL)
    return layout_origin(given.origin, divide, given.cell, report)


def layout_origin(path: str, divide: Optional[int], cell: Optional[str], report: Report) -> Origin:
    text = text_of(path)
    told = scale.told(text)
    if told is not None and divide not in (None, told):
        raise Unreadable(f"--divide {divide} is wrong: {path} says at its head that it was made {told} times as large")
    with told_of(path):
        layout = Layout(text)
        judge(report, layout, os.path.basename(path))
    return Origin(told or divide or 1, cell or layout.top(), path, layout)


def judge(report: Report, layout: Layout, name: str) -> None:
    """Refuses a layout that the report cannot be of."""
    points = [point for figure in layout.figures(report.layer) for point in figure]
    if bool(points) != bool(report.fragments):
        lacks, has = ("the report", "the layout") if points else ("the layout", "the report")
        raise Unreadable(f"{lacks} has nothing on the layer {report.layer}, and {has} has: is this the layout that was split?")
    if not points:
        return
    corners = [corner for x1, y1, x2, y2 in report.fragments for corner in ((x1, y1), (x2, y2))]
    (left, low, right, high), (own_left, own_low, own_right, own_high) = bounds(list(corners)), bounds(points)
    if own_left < left or own_low < low or right < own_right or high < own_high:
        raise Unreadable(f"it has shapes on the layer {report.layer} outside of those of the report: is this the layout that was split?")
    if (left, low, right, high) != (own_left, own_low, own_right, own_high):
        tell(f"the report has shapes outside of those of {name}, as after an edit that adds boxes")


def bounds(points: "List[Tuple[Number, Number]]") -> Tuple[Number, Number, Number, Number]:
    xs, ys = zip(*points)
    return min(xs), min(ys), max(xs), max(ys)
