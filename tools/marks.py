"""The marks of a report: what the engineer looks at, each with its numbers, at the place where it is.

A mark of a conflict, of a notch or of an edge set aside that is broken is the gap between its two fragments, one of a
stitch is the line of the cut, one of an overlap is the zone that both masks hold, and one of an odd cycle is a closed line
that follows its fragments and crosses its gaps. Lengths are grid units, of which a hundredth of a micron has two.
"""

from __future__ import annotations

from functools import lru_cache
from math import hypot
from typing import Callable, Dict, Iterable, Iterator, List, Mapping, NamedTuple, Optional, Sequence, Tuple, Union
from xml.sax.saxutils import escape

from net import Box, Clash, Cut, Cycle, Edges, Report, clash_weight, edges_of, fragments_of, gap_box, gaps, weight
from notches import Notch, notches_of

KINDS = {
    "conflict": "two shapes closer than the spacing on one mask",
    "notch": "two parts of one shape, apart on one mask and closer than the spacing: no conflict counts them (docs/masks.md)",
    "stitch": "a feature that goes on on the other mask",
    "overlap": "where both masks hold a feature, around a stitch",
    "aside": "edges set aside so that the others can be drawn plane, which the masks break",
    "cycle": "odd cycles: on each something must break, so they bound the cost",
}

MOST_NAMED = 16

# by what lengths are divided: a whole number, or a fraction of KLayout's unit
Divide = Union[int, float]
Point = Tuple[float, float]


class Mark(NamedTuple):
    """A kind of KINDS, what to say, boxes as corners (x1, y1, x2, y2), lines as lists of points, and the two boxes it is between."""

    kind: str
    title: str
    boxes: Sequence[Box]
    lines: Sequence[Sequence[Point]]
    between: Optional[Tuple[Box, Box]] = None


def marks(
    report: Report,
    kinds: Iterable[str] = KINDS,
    divide: Divide = 1,
    edges_of: Callable[[Report], Edges] = edges_of,
    notches_of: Callable[[Report], Iterable[Notch]] = notches_of,
) -> Iterator[Mark]:
    """All marks of these kinds, kind by kind; what they say of lengths is made smaller by `divide`."""
    kinds = list(kinds)
    edges: Edges = edges_of(report) if {"aside", "cycle"} & set(kinds) else []
    of: Dict[str, Callable[[], Iterable[Mark]]] = {
        "conflict": lambda: (conflict(report, clash, divide) for clash in report.clashes),
        "notch": lambda: (notch(report, found, divide) for found in notches_of(report)),
        "stitch": lambda: (stitch(report, cut) for cut in report.cuts),
        "overlap": lambda: (overlap(cut, divide) for cut in report.cuts),
        "aside": lambda: aside_marks(report, edges, divide),
        "cycle": lambda: (odd_cycle(report, edges, number) for number in range(len(report.cycles))),
    }
    for kind in kinds:
        yield from of[kind]()


def conflict(report: Report, clash: Clash, divide: Divide) -> Mark:
    r, s = report.fragments[clash.first], report.fragments[clash.second]
    said = f"conflict, edge {clash.edge}: fragments {clash.first} and {clash.second} on mask {report.letters[clash.first]}"
    said += f", {apart(report, r, s, divide)}, weight {clash_weight(report, r, s)}"
    return Mark("conflict", said, [gap_box(r, s)], [], (r, s))


def notch(report: Report, found: Notch, divide: Divide) -> Mark:
    said = f"notch: two parts of one shape on mask {found.letter}, {apart(report, found.first, found.second, divide)}; no conflict counts it"
    return Mark("notch", said, [gap_box(found.first, found.second)], [], (found.first, found.second))


def stitch(report: Report, cut: Cut) -> Mark:
    r, s = report.fragments[cut.first], report.fragments[cut.second]
    x1, y1, x2, y2 = gap_box(r, s)
    said = f"stitch, edge {cut.edge}: fragments {cut.first} and {cut.second}, weight {report.values['stitch']}"
    return Mark("stitch", said, [], [[(x1, y1), (x2, y2)]], (r, s))


def overlap(cut: Cut, divide: Divide) -> Mark:
    x1, y1, x2, y2 = cut.zone
    said = f"overlap of the stitch at edge {cut.edge}: {microns((x2 - x1,), divide)} by {microns((y2 - y1,), divide)} microns"
    return Mark("overlap", said, [cut.zone], [])


def aside_marks(report: Report, edges: Edges, divide: Divide) -> Iterator[Mark]:
    """The edges set aside that are broken. The masks keep the others, so nobody need look at them."""
    broken = {clash.edge for clash in report.clashes} | {cut.edge for cut in report.cuts}
    for number in filter(broken.__contains__, report.aside):
        kind, i, j = edges[number]
        r, s = report.fragments[i], report.fragments[j]
        cost = weight(report, edges, number)
        said = f"{kind} set aside, edge {number}: fragments {i} and {j}, {distance(r, s, divide)} apart"
        said += "" if cost is None else f", weight {cost}"
        yield Mark("aside", said, [gap_box(r, s)], [], (r, s))


def odd_cycle(report: Report, edges: Edges, number: int) -> Mark:
    cycle = report.cycles[number]
    named = " ".join(map(str, cycle.walk[:MOST_NAMED])) + (" .." if len(cycle.walk) > MOST_NAMED else "")
    said = f"odd cycle {number}, half weight {cycle.half}: {len(cycle.walk)} edges from fragment {cycle.start}: {named}"
    gaps_passed = [gap_box(*map(report.fragments.__getitem__, edges[edge][1:])) for edge in cycle.walk if edges[edge].kind == "clash"]
    return Mark("cycle", said, gaps_passed, [track(report, edges, cycle)])


def apart(report: Report, r: Box, s: Box, divide: Divide) -> str:
    """How far two boxes are apart, and how far they should be."""
    return f"{distance(r, s, divide)} apart where {spacing(report, divide)} are wanted"


def distance(r: Box, s: Box, divide: Divide) -> str:
    return f"{hypot(*gaps(r, s)) / (200 * divide):.6g} microns"


def spacing(report: Report, divide: Divide) -> str:
    return f"{report.values['space'] / (100 * divide):.6g}"


def no_less(report: Report) -> str:
    """What the cycles of a report prove, as a cost: half of the bound that it prints."""
    return f"{report.values['bound'] / 2:g}"


def summed(report: Report, notches: int, divide: Divide) -> str:
    """The line at the head of a database: what was asked, and what was found."""
    counts = {"conflict": len(report.clashes), "stitch": len(report.cuts), "notch": notches}
    found = ", ".join(counted(count, kind) for kind, count in counts.items())
    asked = f"layer {report.layer}, spacing {spacing(report, divide)} microns"
    return f"{asked}: {found}; cost {report.values['cost']}, and no masks cost less than {no_less(report)}"


def counted(number: int, word: str) -> str:
    plural = {"stitch": "stitches", "notch": "notches", "broken edge set aside": "broken edges set aside"}.get(word, f"{word}s")
    return f"{number:,} {word if number == 1 else plural}"


# ---- the line of an odd cycle


def middle(box: Box) -> Point:
    return ((box[0] + box[2]) / 2, (box[1] + box[3]) / 2)


def on_spine(rect: Box, point: Point) -> Point:
    """The point of a rectangle's middle line that is nearest to a point."""
    x1, y1, x2, y2 = rect
    half = min(x2 - x1, y2 - y1) / 2
    return (min(max(point[0], x1 + half), x2 - half), min(max(point[1], y1 + half), y2 - half))


def track(report: Report, edges: Edges, cycle: Cycle) -> List[Point]:
    """A closed line along the middle of each fragment that a cycle passes, and through the middle of each gap."""
    passed = fragments_of(edges, cycle)
    points: List[Point] = []
    for before, after in zip(passed, passed[1:]):
        for point in step(report.fragments[before], report.fragments[after]):
            if not points or point != points[-1]:
                points.append(point)
    if points and points[0] != points[-1]:
        points.append(points[0])
    return points


@lru_cache(maxsize=1 << 20)
def step(r: Box, s: Box) -> Tuple[Point, Point, Point]:
    """The way from one fragment over the gap to another."""
    between = middle(gap_box(r, s))
    return on_spine(r, between), between, on_spine(s, between)


# ---- KLayout's marker database


@lru_cache(maxsize=1 << 20)
def microns(numbers: Tuple[float, ...], divide: Divide) -> str:
    return ",".join(f"{number / (200 * divide):.12g}" for number in numbers)


def values(mark: Mark, divide: Divide) -> Iterator[str]:
    """The lines of a mark's item: what to say, and its shapes."""
    yield f"text: '{quoted(mark.title)}'"
    for x1, y1, x2, y2 in mark.boxes:
        yield f"box: ({microns((x1, y1), divide)};{microns((x2, y2), divide)})"
    for points in mark.lines:
        if len(points) == 2:
            yield f"edge: ({';'.join(microns(point, divide) for point in points)})"
        else:
            yield f"path: ({';'.join(microns(point, divide) for point in points)}) w=0 bx=0 ex=0 r=false"


def quoted(text: str) -> str:
    """A text between the quotes of KLayout."""
    return text.replace("\\", "\\\\").replace("'", "\\'")


def item(mark: Mark, cell: str, divide: Divide = 1) -> str:
    lines = "".join(f"<value>{escape(line)}</value>" for line in values(mark, divide))
    return f"<item><category>{mark.kind}</category><cell>{escape(cell)}</cell><values>{lines}</values></item>"


def head(cell: str, said: str, kinds: Mapping[str, str] = KINDS) -> Iterator[str]:
    """The lines before the items of a database; kinds are told with what they mean."""
    yield '<?xml version="1.0" encoding="utf-8"?>'
    yield f"<report-database><description>{escape(said)}</description><generator>dpl</generator>"
    yield f"<top-cell>{escape(cell)}</top-cell><categories>"
    for kind, meaning in kinds.items():
        yield f"<category><name>{kind}</name><description>{escape(meaning)}</description></category>"
    yield f"</categories><cells><cell><name>{escape(cell)}</name></cell></cells><items>"


END = "</items></report-database>"


def database(found: Iterable[Mark], cell: str, said: str, divide: Divide = 1) -> Iterator[str]:
    """The lines of a marker database with the marks, in a cell, `said` being what it says of itself."""
    yield from head(cell, said)
    yield from (item(mark, cell, divide) for mark in found)
    yield END
