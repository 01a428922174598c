"""The edges of a report by arrays, as tools/net.py finds them one by one."""

from typing import Any

import numpy

from fragments import Array, classes, links, pairs, sides
from net import Edge, Report, compare


class Edges:
    """The edges of a report by their numbers: bonds, then stitches, then clashes."""

    def __init__(self, ends: dict[str, tuple[Array, Array]]) -> None:
        self.ends = ends

    def __len__(self) -> int:
        return sum(len(first) for first, _ in self.ends.values())

    def __getitem__(self, number: int) -> Any:
        for kind, (first, second) in self.ends.items():
            if number < len(first):
                return Edge(kind, int(first[number]), int(second[number]))
            number -= len(first)
        raise IndexError(number)


def rects_of(report: Report) -> Array:
    return numpy.array(report.fragments, dtype=numpy.int64).reshape(-1, 4)


def shapes_of(report: Report) -> list[int]:
    """A number for each fragment, the same for those of one shape."""
    rects = rects_of(report)
    first, second = pairs(rects, 1)
    bonds, stitches = sides(rects[first], rects[second])
    found: list[int] = classes(len(rects), first[bonds | stitches], second[bonds | stitches]).tolist()
    return found


def edges_of(report: Report) -> Edges:
    """The edges of a report, as tools/net.py finds them one by one."""
    rects = rects_of(report)
    reach = 2 * report.values["space"]
    first, second = pairs(rects, reach)
    bonds, stitches = sides(rects[first], rects[second])
    pieces = classes(len(rects), first[bonds], second[bonds])
    shapes = classes(len(rects), first[bonds | stitches], second[bonds | stitches])
    others = shapes[first] != shapes[second]
    ends = {
        "bond": (first[bonds], second[bonds]),
        "stitch": (first[stitches], second[stitches]),
        "clash": links(rects, pieces, first[others], second[others], reach),
    }
    edges = Edges(ends)
    compare(report, {"bonds": ends["bond"][0], "stitches": ends["stitch"][0], "clashes": ends["clash"][0]}, edges)
    return edges
