"""What clusters that leave a window have in it, and where they cross its sides: for all of them at once, by arrays.

A row of an array of boxes has four corners, and a fifth number: 1 for a box of the keep layer.
"""

from collections.abc import Iterator
from itertools import accumulate, pairwise
from typing import Any

import numpy

from boxes import lines_of
from fragments import Array
from source import Source

Stretch = tuple[int, int, int]


def notes_of(source: Source, rows: Array, numbers: Array, place: tuple[int, int], window: Any) -> list[dict[str, Any]]:
    """A note for each cluster, by the numbers of their boxes, in the order of these."""
    order = numpy.argsort(numbers, kind="stable")
    rows, (found, clusters) = rows[order], numpy.unique(numbers[order], return_inverse=True)
    held, of = clipped(rows, clusters, window)
    drawn = held[:, 4] == 0
    many = numpy.bincount(of[drawn], minlength=len(found)).tolist()
    bounds = all_bounds(source, held[drawn, :4], many)
    lines = texts(source, held[drawn, :4], many)
    kept = texts(source, held[~drawn, :4], numpy.bincount(of[~drawn], minlength=len(found)).tolist())
    sides: list[list[list[Any]]] = [[] for _ in found]
    whole = rows[:, 4] == 0
    for line, side, crossings in crossed(rows[whole, :4], clusters[whole], source.half, place, window):
        for cluster, start, end in crossings:
            sides[cluster].append([line, side, start, end])
    return [
        {"place": place, "sides": sides[k], "many": many[k], "bounds": bounds[k], "lines": lines[k], "kept": kept[k]}
        for k in range(len(found))
    ]


def clipped(rows: Array, clusters: Array, window: Any) -> tuple[Array, Array]:
    """What boxes have in a window, of those that have an area there, and their clusters."""
    low = numpy.maximum(rows[:, :2], (window.left, window.bottom))
    high = numpy.minimum(rows[:, 2:4], (window.right, window.top))
    held = (low < high).all(axis=1)
    return numpy.column_stack((low, high, rows[:, 4]))[held], clusters[held]


def all_bounds(source: Source, boxes: Array, many: list[int]) -> list[list[int]]:
    """The corners of so many boxes after each other, in grid units and rounded outwards; no boxes have none."""
    n, d = source.ratio.numerator, source.ratio.denominator
    starts = [start for start, end in pairwise(accumulate(many, initial=0)) if start < end]
    if not starts:
        return [[] for _ in many]
    low = numpy.minimum.reduceat(boxes[:, :2], starts) * n // d
    high = -(-numpy.maximum.reduceat(boxes[:, 2:], starts) * n // d)
    found = iter(numpy.concatenate((low, high), axis=1).tolist())
    return [next(found) if count else [] for count in many]


def texts(source: Source, boxes: Array, many: list[int]) -> list[str]:
    """The lines of so many boxes after each other."""
    lines = lines_of(source, boxes).splitlines(keepends=True)
    return ["".join(lines[start:end]) for start, end in pairwise(accumulate(many, initial=0))]


def crossed(boxes: Array, clusters: Array, half: int, place: tuple[int, int], window: Any) -> Iterator[tuple[str, int, Iterator[Stretch]]]:
    """Where the hulls of boxes cross each side of their window: the line, the side of it, and stretches along it by clusters."""
    column, row = place
    left, bottom, right, top = (boxes + numpy.array([-half, -half, half, half])).T
    up, along = (bottom, top, window.bottom, window.top), (left, right, window.left, window.right)
    for line, side, crossing, (starts, ends, first, last) in (
        (f"v{column}", 1, left < window.left, up),
        (f"v{column + 1}", 0, right > window.right, up),
        (f"h{row}", 1, bottom < window.bottom, along),
        (f"h{row + 1}", 0, top > window.top, along),
    ):
        yield line, side, united(clusters[crossing], numpy.maximum(starts, first)[crossing], numpy.minimum(ends, last)[crossing])


def united(clusters: Array, starts: Array, ends: Array) -> Iterator[Stretch]:
    """The stretches of each cluster, as few as they can be, in order."""
    if not len(clusters):
        return iter(())
    # The stretches of all clusters one behind the other, so that what is united is of one cluster.
    least, wide = int(starts.min()), int(ends.max() - starts.min()) + 1
    begin, reach = clusters * wide + starts - least, clusters * wide + ends - least
    order = numpy.argsort(begin, kind="stable")
    begin, reach, clusters = begin[order], numpy.maximum.accumulate(reach[order]), clusters[order]
    apart = (begin[1:] > reach[:-1]) | (clusters[1:] != clusters[:-1])
    first, last = numpy.append(True, apart), numpy.append(apart, True)
    of = clusters[first]
    shift = of * wide - least
    return zip(of.tolist(), (begin[first] - shift).tolist(), (reach[last] - shift).tolist())
