"""What the reports list, as arrays: each report is read once, by one process, and looked up in a file by all that see tiles."""

import os
from functools import lru_cache
from typing import NamedTuple

import numpy

from files import read_text
from fragments import Array, classes, pairs, sides
from reports import Report, boxes_of

# How many parts a process remembers.
KEPT = 32


class Net(NamedTuple):
    """The boxes of the masks in grid units, for each the letter of its mask, and the numbers of the shape and the piece of its
    fragment; and the pairs of pieces that conflicts tell, as `code_of` has them."""

    rects: Array
    letters: Array
    shapes: Array
    pieces: Array
    told: Array


class Lists(NamedTuple):
    """What is listed of a part: the zones that both masks hold, and the boxes of the layer that have no masks, in grid units."""

    zones: Array
    refused: Array
    net: Net


class Listed:
    """What is listed of all parts, by their numbers, in files of a folder."""

    def __init__(self, folder: str) -> None:
        self.folder = folder
        self.of = lru_cache(maxsize=KEPT)(self.read)

    def path(self, number: int) -> str:
        return os.path.join(self.folder, f"{number}.npz")

    def note(self, number: int, lists: Lists) -> None:
        numpy.savez(self.path(number), zones=lists.zones, refused=lists.refused, **lists.net._asdict())

    def read(self, number: int) -> Lists | None:
        """What is listed of a part; None where its report could not be read, which is told of the part itself."""
        if not os.path.exists(self.path(number)):
            return None
        with numpy.load(self.path(number)) as found:
            return Lists(found["zones"], found["refused"], Net(*(found[name] for name in Net._fields)))


def lists_of(report: Report, text: str) -> Lists:
    """What a report lists, of a part whose text has a path."""
    no_boxes, none = numpy.zeros((0, 4), numpy.int64), numpy.zeros(0, numpy.int64)
    if report.refusal:
        return Lists(no_boxes, text_boxes(text), Net(no_boxes, none, none, none, none))
    return Lists(numpy.array(report.zones(), numpy.int64).reshape(-1, 4), no_boxes, net_of(report))


def text_boxes(path: str) -> Array:
    """The boxes of the layer in the text of a part."""
    return boxes_of(read_text(path).encode().split(b"\nL ")[1])


def net_of(report: Report) -> Net:
    rects = report.fragments()
    goes_on = [(*cut[3:7], fragment) for cut in report.cuts for fragment in cut[1:3]]
    own = numpy.column_stack((rects, numpy.arange(len(rects))))
    both = numpy.concatenate((own, numpy.array(goes_on, numpy.int64).reshape(-1, 5)))
    of = both[:, 4]
    first, second = pairs(rects, 1)
    bonds, stitches = sides(rects[first], rects[second])
    pieces = classes(len(rects), first[bonds], second[bonds])
    shapes = classes(len(rects), first[bonds | stitches], second[bonds | stitches])
    ends = pieces[numpy.array([clash[1:3] for clash in report.clashes], numpy.int64).reshape(-1, 2)]
    letters = numpy.frombuffer(report.letters, numpy.uint8)
    return Net(both[:, :4], letters[of], shapes[of], pieces[of], numpy.unique(code_of(ends[:, 0], ends[:, 1])))


def code_of(first: Array, second: Array) -> Array:
    """A number for a pair of pieces, whichever comes first."""
    code: Array = numpy.minimum(first, second) << 32 | numpy.maximum(first, second)
    return code
