"""Notches of random masks against the polygons that KLayout makes of them, where it is installed."""

from __future__ import annotations

import json
import os
import shutil
import tempfile
import unittest

from common import TOOLS

import klayout

HAS_KLAYOUT = shutil.which("klayout") is not None or os.path.isdir(f"{klayout.LIBRARY}/pymod")
CASES = 300

SCRIPT = '''
import json, random, sys, types
import pya
sys.path.append(tools)
from net import Cut, gaps, shapes_of, share_a_side
from notches import notches_of

SIDE = 20

def zone(r, s):
    """Where both masks hold two cells that share a side."""
    if r[0] == s[0]:
        return (r[0], max(r[1], s[1]) - 4, r[2], max(r[1], s[1]) + 4)
    return (max(r[0], s[0]) - 4, r[1], max(r[0], s[0]) + 4, r[3])

def report(chance):
    """Cells of a grid, each on a mask by chance, with a broken stitch at each side between two masks."""
    size = chance.randrange(3, 9)
    rects = [(x * SIDE, y * SIDE, x * SIDE + SIDE, y * SIDE + SIDE) for x in range(size) for y in range(size) if chance.random() < 0.55]
    letters = "".join(chance.choice("AB") for _ in rects)
    pairs = [(i, j) for j in range(len(rects)) for i in range(j) if share_a_side(rects[i], rects[j]) and letters[i] != letters[j]]
    cuts = [Cut(0, i, j, zone(rects[i], rects[j])) for i, j in pairs]
    boxes = lambda letter: [box for box, own in zip(rects, letters) if own == letter] + [cut.zone for cut in cuts]
    space = {"space": chance.choice([5, 8, 10, 12, 15, 20, 25])}
    return types.SimpleNamespace(fragments=rects, letters=letters, cuts=cuts, boxes=boxes, values=space)

def corners(box):
    return box.left, box.bottom, box.right, box.top

def shape(report, shapes, polygon):
    inside = lambda rect: not (pya.Region(polygon) & pya.Region(pya.Box(*rect))).is_empty()
    return next(shapes.root(i) for i, rect in enumerate(report.fragments) if inside(rect))

def counted(report):
    """The pairs of polygons of one mask and one shape that are closer than the spacing."""
    shapes, reach, count = shapes_of(report.fragments), 2 * report.values["space"], 0
    for letter in "AB":
        mask = pya.Region([pya.Box(*box) for box in report.boxes(letter)])
        polygons = list(mask.merged(True, 0).each())
        owners = [shape(report, shapes, polygon) for polygon in polygons]
        parts = [[corners(it.bbox()) for it in pya.Region(polygon).decompose_trapezoids_to_region().each()] for polygon in polygons]
        for j in range(len(polygons)):
            for i in range(j):
                gap = min(sum(at * at for at in gaps(r, s)) for r in parts[i] for s in parts[j])
                count += owners[i] == owners[j] and gap < reach * reach
    return count

made = [report(random.Random(seed)) for seed in range(int(cases))]
with open(found, "w") as file:
    json.dump([[len(notches_of(it)), counted(it)] for it in made], file)
'''


class Random(unittest.TestCase):
    @unittest.skipUnless(HAS_KLAYOUT, "no KLayout here")
    def test_as_many_as_klayout_finds(self) -> None:
        with tempfile.TemporaryDirectory() as folder:
            found = os.path.join(folder, "found")
            klayout.run(SCRIPT, tools=TOOLS, cases=str(CASES), found=found)
            with open(found, encoding="ascii") as file:
                pairs = json.load(file)
        self.assertEqual([own for own, _ in pairs], [other for _, other in pairs])
        self.assertGreater(sum(own for own, _ in pairs), CASES)


if __name__ == "__main__":
    unittest.main()
