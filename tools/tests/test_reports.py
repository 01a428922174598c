"""What the tools make of reports: notches, cells, turned components, sums, scales."""

from __future__ import annotations

import importlib
import json
import os
import re
import tempfile
import unittest
from typing import Any, Dict, Tuple
from xml.etree import ElementTree

from common import LAYOUT, REPORT, SAMPLES, TOP, bytes_of, tool

import colours
import scale
from cif import Layout
from net import Report
from notches import notches_of
from rectangles import boxes_of

# two arms of one shape, 64 grid units apart, that were both cut from the base between them and stand on B
ARMS = b"""(dpl 2);
(layer M);
(space 60);
(overlap 20);
(stitch 1);
(conflict 10);
(pieces 3);
(fragments 3);
(bonds 0);
(stitches 2);
(clashes 0);
(excess 0);
(cost 2);
(bound 0);
(masks BAB);
(corner 10);
(cut 0 0 1 0 180 100 220);
(cut 1 1 2 164 180 264 220);
DS 1 1 4;
L MA;
B 528 400 264 200;
B 200 80 100 400;
B 200 80 428 400;
L MB;
B 200 800 100 800;
B 200 800 428 800;
B 200 80 100 400;
B 200 80 428 400;
DF;
C 1;
E
"""


class Notches(unittest.TestCase):
    def test_arms_of_one_shape(self) -> None:
        found = notches_of(Report(ARMS))
        self.assertEqual([(notch.letter, notch.gap) for notch in found], [("B", 64.0)])

    def test_none_where_the_mask_joins_them(self) -> None:
        report = Report(bytes_of(REPORT))
        self.assertEqual(notches_of(report), [])

    def test_markers_and_summary_tell_them(self) -> None:
        with tempfile.TemporaryDirectory() as folder:
            path = os.path.join(folder, "arms")
            with open(path, "wb") as file:
                file.write(ARMS)
            markers = tool("markers", path, "--divide", "1", "--only", "notch")
            self.assertEqual(markers.status, 0, markers.told)
            self.assertIn(b"two parts of one shape on mask B, 0.32 microns apart where 0.6 are wanted", markers.out)
            self.assertIn(b"1 notch;", markers.out)
            self.assertEqual(sums("summary", path)["notches"], 1)


def sums(*words: str) -> Dict[str, Any]:
    found: Dict[str, Any] = json.loads(tool(*words, "--json").out)
    return found


class Sums(unittest.TestCase):
    def test_for_people(self) -> None:
        done = tool("summary", REPORT, "--from", LAYOUT)
        self.assertEqual((done.status, done.told), (0, ""))
        self.assertEqual(done.out.count(b"\n"), 10)
        self.assertIn(b"no masks cost less than 1, so they are the best there are", done.out)

    def test_the_form_for_scripts(self) -> None:
        """docs/report.md has the schema."""
        try:
            jsonschema = importlib.import_module("jsonschema")
        except ImportError:
            self.skipTest("no jsonschema here")
        with open(os.path.join(TOP, "docs", "report.md"), encoding="utf-8") as file:
            found = re.search(r"```json\n(.*?)```", file.read(), re.S)
        assert found
        schema = json.loads(found[1])
        for name in sorted(os.listdir(SAMPLES)):
            if name.endswith(".out"):
                jsonschema.validate(sums("summary", os.path.join(SAMPLES, name)), schema)
        jsonschema.validate(sums("summary", REPORT, "--from", LAYOUT), schema)


class Turned(unittest.TestCase):
    def test_the_same_letters_give_the_same_text(self) -> None:
        for name in os.listdir(SAMPLES):
            if name.endswith(".out"):
                text = bytes_of(os.path.join(SAMPLES, name))
                report = Report(text)
                self.assertEqual(report.turned(report.letters).encode(), text, name)


class Anchor(unittest.TestCase):
    """Two pairs of squares, each pair too close for one mask."""

    LAYOUT = (
        "L M;B 100 100 50 50;B 100 100 50 200;B 100 100 950 50;B 100 100 950 200;"
        "L FA;{a}L FB;{b}E"
    )
    REPORT = (
        "(dpl 2);\n(layer M);\n(space 100);\n(overlap 20);\n(stitch 1);\n(conflict 10);\n(pieces 4);\n(fragments 4);\n(bonds 0);\n"
        "(stitches 0);\n(clashes 2);\n(excess 0);\n(cost 0);\n(bound 0);\n(masks ABAB);\n(corner 10);\nDS 1 1 4;\nL MA;\n"
        "B 400 400 200 200;\nB 400 400 3800 200;\nL MB;\nB 400 400 200 800;\nB 400 400 3800 800;\nDF;\nC 1;\nE\n"
    )

    def anchored(self, on_a: str, on_b: str) -> Tuple[str, str]:
        with tempfile.TemporaryDirectory() as folder:
            layout, report = os.path.join(folder, "layout"), os.path.join(folder, "report")
            with open(layout, "w", encoding="ascii") as file:
                file.write(self.LAYOUT.format(a=on_a, b=on_b))
            with open(report, "w", encoding="ascii") as file:
                file.write(self.REPORT)
            done = tool("anchor", report, "--from", layout, "--on-a", "FA", "--on-b", "FB")
        self.assertEqual(done.status, 0, done.told)
        return Report(done.out).letters, done.told

    def test_a_component_is_turned(self) -> None:
        letters, told = self.anchored("B 10 10 50 200;", "B 10 10 950 200;")
        self.assertEqual(letters, "BAAB")
        self.assertIn("2 of 2 shapes", told)

    def test_most_win_and_the_others_are_named(self) -> None:
        letters, told = self.anchored("B 10 10 50 50;B 10 10 50 200;", "B 10 10 60 60;B 10 10 950 200;")
        self.assertEqual(letters, "BAAB")
        self.assertIn("wanted on mask A, and on mask B: (0.45,0.45) (0.55,0.55) microns, component 0", told)
        self.assertIn("3 of 4 shapes", told)

    def test_what_lies_on_nothing_is_named(self) -> None:
        self.assertIn("lies under the figure of FA at (4.95,4.95) (5.05,5.05) microns", self.anchored("B 10 10 500 500;", "")[1])


class Pictures(unittest.TestCase):
    """Two squares that meet at a corner, on one mask: the gap between them has no width."""

    REPORT = (
        "(dpl 2);\n(layer M);\n(space 100);\n(overlap 20);\n(stitch 1);\n(conflict 10);\n(pieces 2);\n(fragments 2);\n(bonds 0);\n"
        "(stitches 0);\n(clashes 1);\n(excess 0);\n(cost 1);\n(bound 0);\n(masks AA);\n(corner 1);\n(clash 0 0 1);\nDS 1 1 4;\nL MA;\n"
        "B 400 400 200 200;\nB 400 400 600 600;\nL MB;\nDF;\nC 1;\nE\n"
    )

    def test_a_conflict_is_seen(self) -> None:
        with tempfile.TemporaryDirectory() as folder:
            path = os.path.join(folder, "report")
            with open(path, "w", encoding="ascii") as file:
                file.write(self.REPORT)
            done = tool("draw", path, "--divide", "1")
        self.assertEqual(done.status, 0, done.told)
        found = re.search(r'<g id="conflicts".*?<rect x="(\S+)" y="(\S+)" width="(\S+)" height="(\S+)"', done.out.decode(), re.S)
        assert found
        self.assertGreater(min(float(found[3]), float(found[4])), 1)

    def test_colours_for_klayout(self) -> None:
        with tempfile.TemporaryDirectory() as folder:
            self.assertEqual(tool("masks", REPORT, "--from", LAYOUT, "--to", os.path.join(folder, "masks.gds")).status, 0)
            root = ElementTree.parse(os.path.join(folder, "masks.lyp")).getroot()
        shown = [[layer.findtext(word) for word in ("source", "name", "fill-color")] for layer in root]
        self.assertEqual(shown, [["1/0@1", "mask A", colours.MASK_A], ["2/0@1", "mask B", colours.MASK_B]])


class Scales(unittest.TestCase):
    def setUp(self) -> None:
        holder = tempfile.TemporaryDirectory()
        self.addCleanup(holder.cleanup)
        self.large = os.path.join(holder.name, "large.cif")
        with open(self.large, "wb") as file:
            file.write(f"{scale.line(10)}\n".encode() + bytes_of(LAYOUT))

    def test_one_of_both_is_wanted(self) -> None:
        for name in ("masks", "markers", "draw"):
            done = tool(name, REPORT)
            self.assertEqual(done.status, 2)
            self.assertIn("--from LAYOUT.cif is wanted", done.told)

    def test_a_wrong_divisor_is_refused(self) -> None:
        for name in ("masks", "markers", "draw"):
            self.assertEqual(tool(name, REPORT, "--from", self.large, "--divide", "1").status, 1)
            self.assertEqual(tool(name, REPORT, "--from", self.large, "--divide", "10").status, 0)

    def test_masks_in_the_own_size(self) -> None:
        as_split, own = (tool("masks", REPORT, "--from", path).out for path in (LAYOUT, self.large))
        self.assertEqual(own, tool("masks", REPORT, "--divide", "10", "--cell", Layout(bytes_of(LAYOUT)).top()).out)
        self.assertNotEqual(as_split, own)

    def test_another_layout_is_refused(self) -> None:
        done = tool("masks", REPORT, "--from", os.path.join(SAMPLES, "routed-block.cif"))
        self.assertEqual(done.status, 1)
        self.assertIn("is this the layout that was split?", done.told)


class Rectangles(unittest.TestCase):
    def test_a_ring_and_an_ell(self) -> None:
        self.assertEqual(boxes_of([(0, 0), (4, 0), (4, 2), (2, 2), (2, 4), (0, 4)]), [(0, 0, 4, 2), (0, 2, 2, 4)])
        ring = [(0, 0), (6, 0), (6, 6), (0, 6), (0, 0), (2, 2), (2, 4), (4, 4), (4, 2), (2, 2)]
        self.assertEqual(sum((x2 - x1) * (y2 - y1) for x1, y1, x2, y2 in boxes_of(ring[:5])), 36)


class Cif(unittest.TestCase):
    def test_the_top_cell_as_klayout_names_it(self) -> None:
        texts = {
            "DS 7 1 1;9 foo;L M;B 10 10 5 5;DF;C 7;E": "foo",
            "DS 7 1 1;L M;B 10 10 5 5;DF;C 7 T 5 5;E": "C7",
            "DS 7 1 1;9 foo;L M;B 10 10 5 5;DF;C 7;C 7 T 9 9;E": "CIF_TOP",
            "L M;B 10 10 5 5;E": "CIF_TOP",
        }
        for text, name in texts.items():
            self.assertEqual(Layout(text.encode()).top(), name)


if __name__ == "__main__":
    unittest.main()
