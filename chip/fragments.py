"""What joins the fragments of a report, as arrays. docs/cuts.md has the rules; lengths are grid units."""

from typing import Any

import numpy
from numpy.typing import NDArray

from clusters import close, join

Array = NDArray[Any]


def pairs(rects: Array, reach: int) -> tuple[Array, Array]:
    """The pairs of rectangles that are nearer than a reach along both axes, each once and ascending."""
    coded = [numpy.minimum(i, j) * len(rects) + numpy.maximum(i, j) for i, j in close(rects, reach)]
    found = numpy.unique(numpy.concatenate(coded)) if coded else numpy.zeros(0, numpy.int64)
    return found // max(1, len(rects)), found % max(1, len(rects))


def common(r: Array, s: Array) -> tuple[Array, Array]:
    """The stretches that rectangles share across and up; a negative length is a gap."""
    across = numpy.minimum(r[:, 2], s[:, 2]) - numpy.maximum(r[:, 0], s[:, 0])
    up = numpy.minimum(r[:, 3], s[:, 3]) - numpy.maximum(r[:, 1], s[:, 1])
    return across, up


def sides(r: Array, s: Array) -> tuple[Array, Array]:
    """Which rectangles are bonded, and which have the two sides of a stitch."""
    across, up = common(r, s)
    above = (across > 0) & (up == 0)
    as_wide = (r[:, 0] == s[:, 0]) & (r[:, 2] == s[:, 2])
    return above & ~as_wide, (above & as_wide) | ((across == 0) & (up > 0))


def classes(count: int, first: Array, second: Array) -> Array:
    """A number for each of so many, the same for those that pairs join."""
    roots = numpy.arange(count)
    join(roots, first, second)
    return roots


def links(rects: Array, pieces: Array, first: Array, second: Array, reach: int) -> tuple[Array, Array]:
    """For each two pieces that are too close the pair of fragments that is closest, where some are alike by the rules."""
    across, up = common(rects[first], rects[second])
    gap2 = numpy.minimum(across, 0) ** 2 + numpy.minimum(up, 0) ** 2
    near = gap2 < reach * reach
    first, second, gap2 = first[near], second[near], gap2[near]
    is_corner = (across[near] <= 0) & (up[near] <= 0)
    of_pieces = numpy.sort(numpy.array((pieces[first], pieces[second])), axis=0)
    order = numpy.lexsort((second, first, is_corner, gap2, of_pieces[1], of_pieces[0]))
    least = numpy.ones(len(order), bool)
    least[1:] = (numpy.diff(of_pieces[:, order]) != 0).any(axis=0)
    chosen = numpy.sort(order[least])
    return first[chosen], second[chosen]
