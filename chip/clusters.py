"""Clusters of boxes: boxes that are nearer to each other than the spacing along both axes, and what is joined by these."""

from collections.abc import Iterator
from typing import Any

import numpy
from numpy.typing import NDArray

Array = NDArray[Any]

# How many pairs are looked at in one go.
MANY = 1 << 22


def clusters(boxes: Array, space: int) -> Array:
    """A number for each box, the same for all boxes of a cluster: the place of its first box."""
    roots = numpy.arange(len(boxes))
    for first, second in close(boxes, space):
        join(roots, first, second)
    return roots


def close(boxes: Array, space: int) -> Iterator[tuple[Array, Array]]:
    """The pairs of boxes that are nearer than the spacing along both axes, some of them more than once."""
    if len(boxes):
        along, up = Rows(boxes, 0, space), Rows(boxes, 1, space)
        yield from (along if along.many() < up.many() else up).close()


def join(roots: Array, first: Array, second: Array) -> None:
    """Joins the classes of pairs. The least member of a class is its root."""
    while first.size:
        first, second = roots[first], roots[second]
        apart = first != second
        first, second = numpy.minimum(first, second)[apart], numpy.maximum(first, second)[apart]
        numpy.minimum.at(roots, second, first)
        while (roots[roots] != roots).any():
            roots[:] = roots[roots]


class Rows:
    """Boxes in rows along an axis, in each row by where they begin. Boxes that are higher than a row stand in several."""

    def __init__(self, boxes: Array, axis: int, space: int) -> None:
        self.low, self.high = boxes[:, 1 - axis], boxes[:, 3 - axis] + space
        height = max(1, int((self.high - self.low).mean()))
        first = self.low // height
        many = (self.high - 1) // height - first + 1
        place = numpy.repeat(numpy.arange(len(boxes)), many)
        row = first[place] - first.min() + counted(many)
        start, end = boxes[:, axis] - boxes[:, axis].min(), boxes[:, axis + 2] + space - boxes[:, axis].min()
        begin = row * (end.max() + 1) + start[place]
        order = numpy.argsort(begin)
        self.place, begin = place[order], begin[order]
        reach = begin + (end - start)[self.place]
        self.behind = numpy.searchsorted(begin, reach) - numpy.arange(len(begin)) - 1

    def many(self) -> int:
        return int(self.behind.sum())

    def close(self) -> Iterator[tuple[Array, Array]]:
        """The pairs of boxes that are nearer than the spacing along both axes, some of them more than once."""
        sums = numpy.cumsum(self.behind)
        at = 0
        while at < len(sums):
            end = max(at + 1, int(numpy.searchsorted(sums, sums[at] + MANY)))
            many = self.behind[at:end]
            first = numpy.repeat(numpy.arange(at, end), many)
            second = self.place[first + 1 + counted(many)]
            first = self.place[first]
            near = (self.low[first] < self.high[second]) & (self.low[second] < self.high[first])
            yield first[near], second[near]
            at = end


def counted(many: Array) -> Array:
    """0, 1, 2 and on, as many as each number says."""
    found: Array = numpy.arange(many.sum()) - numpy.repeat(numpy.cumsum(many) - many, many)
    return found


def groups(numbers: Array, size: int) -> list[Array]:
    """The places of boxes in groups of whole clusters: one that is larger than half the size alone, others up to the size together.

    So no group is larger than one and a half times the size but for a cluster that is; with 1 each cluster is a group.
    """
    order = numpy.argsort(numbers, kind="stable")
    starts = numpy.flatnonzero(numpy.diff(numbers[order], prepend=-1))
    large = 2 * numpy.diff(starts, append=len(numbers)) > size
    begins = large | (numpy.diff(starts // size, prepend=-1) != 0)
    begins[1:] |= large[:-1]
    return numpy.split(order, starts[begins][1:]) if len(numbers) else []
