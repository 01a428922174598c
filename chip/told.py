"""Which pairs of shapes that are too close on one mask the reports tell, as conflicts.

docs/cuts.md has the rules: a piece is a class of fragments under bonds, a conflict joins two pieces, and fragments of one
shape may be as close as they like.
"""

from typing import NamedTuple

import numpy

from clusters import close, counted
from fragments import Array
from listed import Net, code_of


class Met(NamedTuple):
    """Boxes of a mask: of each its corners, and the numbers of its part, its fragment's shape and its fragment's piece."""

    rects: Array
    part: Array
    shape: Array
    piece: Array

    def some(self, which: Array) -> "Met":
        return Met(*(column[which] for column in self))


class Told:
    """What the reports of some parts tell, by their nets; lengths are counted `finer` to a grid unit."""

    def __init__(self, nets: dict[int, Net], space: int, finer: int) -> None:
        self.nets, self.space, self.finer = nets, space, finer

    def tells(self, letter: str, edges: Array, others: Array) -> Array:
        """Which pairs of edges of a mask that face each other are of one shape, or told."""
        explained = numpy.zeros(len(edges), bool)
        if self.nets:
            (i, along), (j, across) = self.met(letter, edges), self.met(letter, others)
            of_first, of_second = same(i, j)
            edge, first, second = i[of_first], along.some(of_first), across.some(of_second)
            of_one_shape = (first.part == second.part) & (first.shape == second.shape)
            near = gap2(first.rects, second.rects) < self.space**2
            told = near & self.listed(first, second)
            explained[edge[of_one_shape | told]] = True
            explained[edge[near & ~of_one_shape & ~told]] = False
        return explained

    def met(self, letter: str, edges: Array) -> tuple[Array, Met]:
        """Which edges run along which boxes of a mask: for each such pair the edge, and the box. Edges are boxes too."""
        low, high = edges[:, :2].min(axis=0), edges[:, 2:].max(axis=0)
        found = [self.near(number, letter, low, high) for number in self.nets]
        boxes = Met(*map(numpy.concatenate, zip(*found)))
        edge, item = meeting(edges, boxes.rects)
        return edge, boxes.some(item)

    def near(self, number: int, letter: str, low: Array, high: Array) -> Met:
        """What a part has of a mask between two corners."""
        net = self.nets[number]
        rects = net.rects * self.finer
        here = (net.letters == ord(letter)) & (rects[:, :2] <= high).all(axis=1) & (rects[:, 2:] >= low).all(axis=1)
        return Met(rects[here], numpy.full(here.sum(), number), net.shapes[here], net.pieces[here])

    def listed(self, first: Met, second: Met) -> Array:
        """Which pairs are of two pieces of one part that a conflict joins."""
        found = numpy.zeros(len(first.part), bool)
        for number in numpy.unique(first.part).tolist():
            here = (first.part == number) & (second.part == number)
            found[here] = numpy.isin(code_of(first.piece[here], second.piece[here]), self.nets[number].told)
        return found


def meeting(edges: Array, rects: Array) -> tuple[Array, Array]:
    """The pairs of an edge and a rectangle that share a point."""
    both = numpy.concatenate((edges, rects))
    found = [numpy.sort((i, j), axis=0) for i, j in close(both, 1)]
    first, second = numpy.unique(numpy.concatenate(found, axis=1), axis=1) if found else numpy.zeros((2, 0), numpy.int64)
    across = (first < len(edges)) & (second >= len(edges))
    return first[across], second[across] - len(edges)


def same(first: Array, second: Array) -> tuple[Array, Array]:
    """The places of all pairs of equal numbers of two lists."""
    order = numpy.argsort(second, kind="stable")
    in_order = second[order]
    start, end = numpy.searchsorted(in_order, first, "left"), numpy.searchsorted(in_order, first, "right")
    of_first = numpy.repeat(numpy.arange(len(first)), end - start)
    of_second = order[numpy.repeat(start, end - start) + counted(end - start)]
    return of_first, of_second


def gap2(r: Array, s: Array) -> Array:
    across, up = (numpy.maximum(0, numpy.maximum(r[:, k] - s[:, k + 2], s[:, k] - r[:, k + 2])) for k in (0, 1))
    squares: Array = across * across + up * up
    return squares
