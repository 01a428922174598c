"""A level polygon as boxes, filled by even and odd, as `dpl` fills it."""

from __future__ import annotations

from math import ceil, floor
from typing import List, Sequence

from cif import Point
from net import Box


def boxes_of(points: Sequence[Point]) -> List[Box]:
    """The boxes between the levels at which a polygon has corners, and between its upright sides there.

    A corner off the grid of whole units is rounded outwards; `dpl` refuses those on the layer that it splits.
    """
    levels = sorted({y for _, y in points})
    sides = [(x, sorted((y, other))) for (x, y), (_, other) in zip(points, [*points[1:], points[0]])]
    found: List[Box] = []
    for low, high in zip(levels, levels[1:]):
        crossed = sorted(x for x, (bottom, top) in sides if bottom <= low and high <= top)
        found += [(floor(left), floor(low), ceil(right), ceil(high)) for left, right in zip(crossed[::2], crossed[1::2]) if left < right]
    return found
