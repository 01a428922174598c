"""The neighbourhood of many boxes as a few boxes, by rows of squares."""

import numpy

from clusters import counted
from fragments import Array

# A square has so many times the reach on a side, and more where boxes would stand in more rows than this on average.
SQUARE, MOST = 8, 8


def cover(boxes: Array, reach: int) -> Array:
    """Boxes that hold all that is within a reach of some boxes along both axes."""
    if not len(boxes):
        return boxes
    low, high, side = boxes[:, :2] - reach, boxes[:, 2:] + reach, SQUARE * reach
    while (rows := high[:, 1] // side - low[:, 1] // side + 1).sum() > MOST * len(boxes) + SQUARE:
        side *= 2
    which = numpy.repeat(numpy.arange(len(boxes)), rows)
    row = low[which, 1] // side + counted(rows)
    squares = stacked(united(row, low[which, 0] // side, high[which, 0] // side))
    whole = numpy.append(squares[:, :2].min(axis=0), squares[:, 2:].max(axis=0))[None]
    return (whole if 2 * area(squares) > area(whole) else squares) * side


def area(boxes: Array) -> int:
    return int(((boxes[:, 2] - boxes[:, 0]) * (boxes[:, 3] - boxes[:, 1])).sum())


def stacked(boxes: Array) -> Array:
    """Boxes of one row each, those of one width that stand on each other as one."""
    boxes = boxes[numpy.lexsort((boxes[:, 1], boxes[:, 2], boxes[:, 0]))]
    apart = (boxes[1:, [0, 2]] != boxes[:-1, [0, 2]]).any(axis=1) | (boxes[1:, 1] != boxes[:-1, 3])
    begins = numpy.flatnonzero(numpy.append(True, apart))
    ends = numpy.append(begins[1:], len(boxes)) - 1
    return numpy.column_stack((boxes[begins, :3], boxes[ends, 3]))


def united(row: Array, first: Array, last: Array) -> Array:
    """Stretches of squares in rows, as few as they can be, as boxes that count in squares."""
    # All rows one behind the other, so that what is united is united in one row.
    left, wide = first.min(), last.max() - first.min() + 3
    order = numpy.argsort(row * wide + first)
    start = (row * wide + first - left)[order]
    end = numpy.maximum.accumulate((row * wide + last - left)[order])
    begins = numpy.flatnonzero(numpy.append(True, start[1:] > end[:-1] + 1))
    ends = numpy.append(begins[1:], len(order)) - 1
    row = row[order][begins]
    return numpy.column_stack((start[begins] - row * wide + left, row, end[ends] - row * wide + left + 1, row + 1))
