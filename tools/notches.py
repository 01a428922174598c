"""Notches: parts of one shape that a split leaves apart on one mask, closer than the spacing.

The spacing holds between separate shapes, so a report counts none of them as a conflict; a check of the mask by itself
does. docs/masks.md says how to mend them.
"""

from __future__ import annotations

from math import hypot
from typing import Dict, List, NamedTuple, Optional, Sequence, Tuple

from net import Box, Classes, Report, common, gaps, near, shapes_of


class Notch(NamedTuple):
    """Two polygons of one mask and of one shape, by their two boxes that are nearest to each other."""

    letter: str
    first: Box
    second: Box

    @property
    def gap(self) -> float:
        """How far the two are apart, in grid units."""
        return hypot(*gaps(self.first, self.second))


def notches_of(report: Report, shapes: Optional[Sequence[int]] = None) -> List[Notch]:
    """All notches, those of mask A first, each pair of polygons once. `shapes` is a number for each fragment, the same for
    those of one shape, where that is known already."""
    if not report.cuts:
        return []
    if shapes is None:
        classes = shapes_of(report.fragments)
        shapes = [classes.root(i) for i in range(len(report.fragments))]
    return [notch for letter in "AB" for notch in notches_on(report, letter, shapes)]


def notches_on(report: Report, letter: str, shapes: Sequence[int]) -> List[Notch]:
    """The notches of one mask. A shape that no broken stitch divides is one polygon, and has none."""
    divided = {shapes[cut.first] for cut in report.cuts}
    fragments = [i for i, mask in enumerate(report.letters) if mask == letter] + [cut.first for cut in report.cuts]
    owned = [(shapes[i], box) for i, box in zip(fragments, report.boxes(letter)) if shapes[i] in divided]
    boxes = [box for _, box in owned]
    reach = 2 * report.values["space"]
    pairs = near(boxes, reach)
    polygons = polygons_of(boxes, pairs)
    nearest: Dict[Tuple[int, int], Tuple[int, int, int]] = {}
    for i, j in pairs:
        first, second = sorted((polygons.root(i), polygons.root(j)))
        across, up = gaps(boxes[i], boxes[j])
        found = (across * across + up * up, i, j)
        if first != second and owned[i][0] == owned[j][0] and found[0] < reach * reach:
            nearest[first, second] = min(nearest.get((first, second), found), found)
    return [Notch(letter, boxes[i], boxes[j]) for _, i, j in nearest.values()]


def polygons_of(boxes: List[Box], pairs: List[Tuple[int, int]]) -> Classes:
    """The boxes of a mask in classes, one a polygon: boxes are joined that overlap or touch along more than a corner."""
    polygons = Classes(len(boxes))
    for i, j in pairs:
        across, up = common(boxes[i], boxes[j])
        if min(across, up) >= 0 and max(across, up) > 0:
            polygons.join(i, j)
    return polygons
