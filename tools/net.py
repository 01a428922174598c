"""The net of a report: its fragments, and the bonds, stitches and clashes between them by their numbers.

A report lists what is broken and what is set aside. The other edges, which the odd cycles pass, follow from its
fragments; docs/cuts.md has the rules. Lengths are grid units.
"""

from __future__ import annotations

import re
from bisect import bisect_left, insort
from heapq import heappop, heappush
from typing import Dict, Iterator, List, Mapping, NamedTuple, Optional, Protocol, Sequence, Sized, Tuple

from cif import Unreadable
from forms import other_form

HEADS = (b"(dpl 1);\n", b"(dpl 2);\n")
BODY = b"DS 1 1 4;\n"
BOX = re.compile(rb"^B (\d+) (\d+) (-?\d+) (-?\d+);$", re.MULTILINE)
NEEDED = ("space", "overlap", "stitch", "conflict", "bonds", "stitches", "clashes", "cost", "bound")

Box = Tuple[int, int, int, int]


class Cut(NamedTuple):
    """A broken stitch: its edge, its two fragments, and the zone that both masks hold."""

    edge: int
    first: int
    second: int
    zone: Box


class Clash(NamedTuple):
    """A broken clash: its edge and its two fragments."""

    edge: int
    first: int
    second: int


class Cycle(NamedTuple):
    """An odd cycle: its half weight, the fragment where it starts, and the edges that it passes."""

    half: int
    start: int
    walk: List[int]


class Edge(NamedTuple):
    """An edge of the net: `bond`, `stitch` or `clash`, its smaller and its larger fragment."""

    kind: str
    first: int
    second: int


class Edges(Protocol):
    """The edges of a net by their numbers: bonds, then stitches, then clashes."""

    def __len__(self) -> int:
        ...

    def __getitem__(self, __number: int) -> Edge:
        ...


class Report:
    """What the lines of a report say, and the rectangle of each fragment."""

    def __init__(self, text: bytes) -> None:
        if not text.startswith(HEADS):
            raise Unreadable(other_form(text) or "this is no report of dpl: its first line is not (dpl 2);")
        self.values: Dict[str, int] = {}
        self.cuts: List[Cut] = []
        self.clashes: List[Clash] = []
        self.aside: List[int] = []
        self.cycles: List[Cycle] = []
        self.layer = self.keep = self.letters = ""
        claims, *masks = text.split(b"\nL ")
        self.claims = claims.splitlines()
        for number, line in enumerate(self.claims, 1):
            try:
                if line.startswith(b"("):
                    self.note(line.decode("ascii").strip("();").split())
            except (IndexError, KeyError, TypeError, ValueError) as error:
                raise Unreadable(f"line {number} is none of a report") from error
        if not text.endswith(b"\nE\n"):
            raise Unreadable("the report does not end with E: it is cut off")
        # behind `L ` stand the name of the layer, the letter of the mask and a semicolon
        self.place({mask.split(b";", 1)[0][-1:].decode("ascii", "replace"): boxes_in(mask) for mask in masks})
        self.judge()

    def note(self, parts: List[str]) -> None:
        word, rest = parts[0], parts[1:]
        if word == "masks":
            self.letters = rest[0] if rest else ""
        elif word == "layer":
            self.layer = rest[0]
        elif word == "keep":
            self.keep = rest[0]
        elif word == "cut":
            edge, first, second, *zone = map(int, rest)
            x1, y1, x2, y2 = zone
            self.cuts.append(Cut(edge, first, second, (x1, y1, x2, y2)))
        elif word == "clash":
            self.clashes.append(Clash(*map(int, rest)))
        elif word == "aside":
            self.aside.append(int(rest[0]))
        elif word == "cycle":
            half, start, *walk = map(int, rest)
            self.cycles.append(Cycle(half, start, walk))
        elif rest and rest[0].isdigit():
            self.values[word] = int(rest[0])

    def place(self, boxes: Dict[str, List[Box]]) -> None:
        """Each mask has its fragments in their order first, and the overlaps of the cuts behind them."""
        left = {letter: iter(found) for letter, found in boxes.items()}
        none: Iterator[Box] = iter(())
        self.fragments: List[Box] = []
        for letter in self.letters:
            box = next(left.get(letter, none), None)
            if box is None or letter not in "AB":
                raise Unreadable("the report has fewer boxes than letters, or other letters than A and B")
            self.fragments.append(box)

    def judge(self) -> None:
        """Refuses a report whose numbers name what is not there."""
        lacking = [word for word in NEEDED if word not in self.values]
        if lacking or not self.layer:
            raise Unreadable(f"the report has no line ({(lacking or ['layer'])[0]} ..);")
        count = len(self.fragments)
        named = [number for cut in self.cuts for number in (cut.first, cut.second)]
        named += [number for clash in self.clashes for number in (clash.first, clash.second)]
        if any(not 0 <= number < count for number in (*named, *(cycle.start for cycle in self.cycles))):
            raise Unreadable("the report names a fragment that it does not have")

    def boxes(self, letter: str) -> List[Box]:
        """The boxes of a mask: its fragments, and the overlaps of the cuts."""
        own = [box for box, mask in zip(self.fragments, self.letters) if mask == letter]
        return own + [cut.zone for cut in self.cuts]

    def area(self, letter: str) -> int:
        """How many cells a mask has: those of its fragments, and the half of each overlap that lies in one of the other."""
        own = sum(size_of(box) for box, mask in zip(self.fragments, self.letters) if mask == letter)
        return own + sum(size_of(cut.zone) // 2 for cut in self.cuts)

    def turned(self, letters: str) -> str:
        """The text of the report with other letters, under which the same edges must be broken."""
        lines = [f"(masks {letters});" if line.startswith(b"(masks ") else line.decode() for line in self.claims]
        for letter in "AB":
            lines.append(f"L {self.layer}{letter};")
            own = [box for box, mask in zip(self.fragments, letters) if mask == letter]
            lines += map(box_line, [*own, *(cut.zone for cut in self.cuts)])
        return "\n".join([*lines, "DF;", "C 1;", "E", ""])


def size_of(box: Box) -> int:
    x1, y1, x2, y2 = box
    return (x2 - x1) * (y2 - y1)


def box_line(box: Box) -> str:
    """A box in quarters of a hundredth of a micron, as the body of a report has it."""
    x1, y1, x2, y2 = box
    return f"B {2 * (x2 - x1)} {2 * (y2 - y1)} {x1 + x2} {y1 + y2};"


def boxes_in(text: bytes) -> List[Box]:
    """The corners of the boxes of a text."""
    quarters = (map(int, found) for found in BOX.findall(text))
    return [((2 * x - length) // 4, (2 * y - width) // 4, (2 * x + length) // 4, (2 * y + width) // 4) for length, width, x, y in quarters]


class Classes:
    """Numbers in classes, each known by its least member."""

    def __init__(self, count: int) -> None:
        self.up = list(range(count))

    def root(self, i: int) -> int:
        while self.up[i] != i:
            self.up[i] = self.up[self.up[i]]
            i = self.up[i]
        return i

    def join(self, i: int, j: int) -> None:
        i, j = self.root(i), self.root(j)
        self.up[max(i, j)] = min(i, j)


def gaps(r: Box, s: Box) -> Tuple[int, int]:
    """The gaps of two rectangles across and up, counted in cells between them."""
    return (max(0, r[0] - s[2], s[0] - r[2]), max(0, r[1] - s[3], s[1] - r[3]))


class Sweep:
    """The rectangles that a level line is near, by their widths: in a row the widths are within a factor of two, so a
    stretch of left sides has hardly more of them than are near."""

    def __init__(self) -> None:
        self.rows: Dict[int, List[Tuple[int, int]]] = {}
        self.ends: List[Tuple[int, int, Tuple[int, int]]] = []

    def add(self, i: int, rect: Box, end: int) -> None:
        width = (rect[2] - rect[0]).bit_length()
        entry = (rect[0], i)
        insort(self.rows.setdefault(width, []), entry)
        heappush(self.ends, (end, width, entry))

    def drop_below(self, y: int) -> None:
        while self.ends and self.ends[0][0] < y:
            _, width, entry = heappop(self.ends)
            row = self.rows[width]
            del row[bisect_left(row, entry)]
            if not row:
                del self.rows[width]

    def between(self, left: int, right: int) -> Iterator[Tuple[int, int]]:
        for width, row in self.rows.items():
            yield from row[bisect_left(row, (left - (1 << width), 0)) : bisect_left(row, (right + 1, 0))]


def near(rects: Sequence[Box], reach: int) -> List[Tuple[int, int]]:
    """The pairs of numbers of rectangles whose gap is less than the reach, or that touch, ascending."""
    sweep = Sweep()
    found: List[Tuple[int, int]] = []
    for i in sorted(range(len(rects)), key=lambda i: rects[i][1]):
        r = rects[i]
        sweep.drop_below(r[1])
        for _, j in sweep.between(r[0] - reach, r[2] + reach):
            dx, dy = gaps(r, rects[j])
            if dx * dx + dy * dy < reach * reach or dx == dy == 0:
                found.append((i, j) if i < j else (j, i))
        sweep.add(i, r, r[3] + reach)
    found.sort()
    return found


def common(r: Box, s: Box) -> Tuple[int, int]:
    """The stretches that two rectangles share across and up; a negative length is a gap."""
    return min(r[2], s[2]) - max(r[0], s[0]), min(r[3], s[3]) - max(r[1], s[1])


def share_a_side(r: Box, s: Box) -> bool:
    """Whether two rectangles without a common cell touch along more than a corner."""
    across, up = common(r, s)
    return min(across, up) == 0 < max(across, up)


def shapes_of(rects: Sequence[Box]) -> Classes:
    """The fragments in classes, one a shape."""
    shapes = Classes(len(rects))
    for i, j in near(rects, 1):
        if share_a_side(rects[i], rects[j]):
            shapes.join(i, j)
    return shapes


def is_corner(r: Box, s: Box) -> bool:
    """Whether two rectangles meet at corners alone."""
    across, up = common(r, s)
    return across <= 0 and up <= 0


def edges_of(report: Report) -> List[Edge]:
    """The edges in their order: bonds, then stitches, then clashes."""
    rects = report.fragments
    reach = 2 * report.values["space"]
    bonds: List[Tuple[int, int]] = []
    stitches: List[Tuple[int, int]] = []
    others: List[Tuple[int, int]] = []
    for i, j in near(rects, reach):
        r, s = rects[i], rects[j]
        across, up = common(r, s)
        if across > 0 and up == 0:
            same = (r[0], r[2]) == (s[0], s[2])
            (stitches if same else bonds).append((i, j))
        elif up > 0 and across == 0:
            stitches.append((i, j))
        else:
            others.append((i, j))
    pieces, shapes = Classes(len(rects)), Classes(len(rects))
    for i, j in bonds:
        pieces.join(i, j)
        shapes.join(i, j)
    for i, j in stitches:
        shapes.join(i, j)
    links: Dict[Tuple[int, int], Tuple[int, bool, int, int]] = {}
    for i, j in others:
        if shapes.root(i) == shapes.root(j):
            continue
        dx, dy = gaps(rects[i], rects[j])
        if dx * dx + dy * dy < reach * reach:
            rank = (dx * dx + dy * dy, is_corner(rects[i], rects[j]), i, j)
            first, second = sorted((pieces.root(i), pieces.root(j)))
            pair = first, second
            links[pair] = min(links.get(pair, rank), rank)
    clashes = sorted((i, j) for _, _, i, j in links.values())
    named = (("bond", bonds), ("stitch", stitches), ("clash", clashes))
    edges = [Edge(kind, i, j) for kind, pairs in named for i, j in pairs]
    compare(report, {"bonds": bonds, "stitches": stitches, "clashes": clashes}, edges)
    return edges


def compare(report: Report, counted: Mapping[str, Sized], edges: Sized) -> None:
    """Refuses a report that is not true of its own boxes, since its numbers would name other edges."""
    for word, pairs in counted.items():
        if report.values.get(word) != len(pairs):
            raise Unreadable(f"the report has {report.values.get(word)} {word}, but its boxes make {len(pairs)}")
    passed = (edge for cycle in report.cycles for edge in cycle.walk)
    if any(not 0 <= edge < len(edges) for edge in [*report.aside, *passed]):
        raise Unreadable("the report names an edge that its boxes do not make")


def weight(report: Report, edges: Edges, number: int) -> Optional[int]:
    """What a broken edge costs; None for a bond, which is never broken."""
    kind, i, j = edges[number]
    if kind == "clash":
        return clash_weight(report, report.fragments[i], report.fragments[j])
    return report.values["stitch"] if kind == "stitch" else None


def clash_weight(report: Report, r: Box, s: Box) -> int:
    """What a conflict of two fragments costs."""
    usual = report.values["conflict"]
    return report.values.get("corner", usual) if is_corner(r, s) else usual


def gap_box(r: Box, s: Box) -> Box:
    """The box between two rectangles: as wide as they face each other, from the one to the other."""
    xs = sorted((max(r[0], s[0]), min(r[2], s[2])))
    ys = sorted((max(r[1], s[1]), min(r[3], s[3])))
    return (xs[0], ys[0], xs[1], ys[1])


def fragments_of(edges: Edges, cycle: Cycle) -> List[int]:
    """The fragments that a cycle passes, one before each of its edges, and the one where it ends."""
    at = cycle.start
    passed = [at]
    for edge in cycle.walk:
        _, i, j = edges[edge]
        if at not in (i, j):
            raise Unreadable(f"a cycle passes edge {edge}, which does not begin where the cycle stands")
        at = j if at == i else i
        passed.append(at)
    return passed
