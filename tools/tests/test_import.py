"""Tests of tools/import: python3 -m unittest discover tools/tests. Where KLayout is not installed they are passed over."""

from __future__ import annotations

import gzip
import json
import os
import shutil
import subprocess
import sys
import tempfile
import unittest
from typing import List

TOOLS = os.path.dirname(os.path.dirname(os.path.abspath(__file__)))
sys.path.insert(0, TOOLS)
import gds
import klayout
import scale
from cif import Layout

HAS_KLAYOUT = shutil.which("klayout") is not None or os.path.isdir(f"{klayout.LIBRARY}/pymod")

# makes the layouts of all tests, each under its name
LAYOUTS = '''
import os, pya

def layout(name, *cells, dbu=0.001):
    """Cells, each a name, shapes as pairs of a layer and a shape, and instances as pairs of a cell and a placement."""
    made = pya.Layout()
    made.dbu = dbu
    for cell, shapes, calls in cells:
        own = made.create_cell(cell)
        for number, shape in shapes:
            own.shapes(made.layer(number, 0)).insert(shape)
        for called, placed, *array in calls:
            own.insert(pya.CellInstArray(made.cell(called).cell_index(), placed, *array))
    made.write(os.path.join(folder, name))

def points(*pairs):
    return [pya.Point(x, y) for x, y in pairs]

wire = ("SUB", [(1, pya.Box(0, 0, 5000, 500))], [])
layout("large.gds", wire, ("TOP", [], [("SUB", pya.ICplxTrans(1.0)), ("SUB", pya.ICplxTrans(2.0, 90, True, 0, 20000))]))
array = ("SUB", pya.Trans(1, False, 0, 0), pya.Vector(600, 0), pya.Vector(0, 6000), 30, 20)
layout("array.oas", wire, ("TOP", [], [array]))
cross = points((0, 0), (4000, 0), (4000, 3000), (2000, 3000), (2000, -2000))
layout("cross.gds", ("TOP", [(1, pya.Path(cross, 500))], []))
ring = points((0, 0), (5000, 0), (5000, 5000), (0, 5000), (0, 0))
layout("ring.gds", ("TOP", [(1, pya.Path(ring, 500, 250, 250))], []))
twice = points((0, 0), (0, 3000), (3000, 3000), (3000, 1000), (1000, 1000), (1000, 4000), (2000, 4000), (2000, 0))
layout("twice.oas", ("TOP", [(1, pya.Polygon(twice, True))], []))
layout("empty-path.oas", ("TOP", [(1, pya.Path(points((0, 0)), 100)), (1, pya.Box(0, 0, 100, 100))], []))
line = pya.Path(points((0, 0), (1000, 0)), 0)
layout("line.oas", ("TOP", [(1, pya.Box(0, 0, 100, 100)), (2, line)], []))
slanted = pya.Polygon(points((0, 0), (0, 900), (900, 0)), True)
layout("slanted.gds", ("TOP", [(1, slanted), (2, pya.Box(0, 0, 10, 10)), (3, pya.Text("a", pya.Trans(0, 0)))], []))
layout("tops.gds", wire, ("A", [], [("SUB", pya.Trans(0, 0))]), ("B", [(1, pya.Box(0, 0, 10, 10))], []))
far = ("SUB", [(1, pya.Box(1500000000, 0, 1500001000, 1000))], [])
layout("far.gds", far, dbu=0.0001)
layout("too-far.gds", far, ("TOP", [], [("SUB", pya.Trans(1500000000, 0))]), dbu=0.0001)
'''

LEF = """VERSION 5.8 ;
UNITS DATABASE MICRONS 2000 ; END UNITS
LAYER met1
TYPE ROUTING ; DIRECTION HORIZONTAL ; WIDTH 0.0655 ;
END met1
MACRO CELL
CLASS CORE ; ORIGIN 0 0 ; SIZE 1 BY 2 ;
PIN A
PORT
LAYER met1 ; RECT 0.1005 0.2 0.3 0.4 ;
END
END A
END CELL
END LIBRARY
"""
DEF = """VERSION 5.8 ;
DESIGN TOP ;
UNITS DISTANCE MICRONS 2000 ;
COMPONENTS 1 ;
- one CELL + PLACED ( 1001 2001 ) N ;
END COMPONENTS
NETS 1 ;
- net + ROUTED met1 ( 3001 3001 ) ( 6001 * ) ;
END NETS
END DESIGN
"""

MAGIC = """magic
tech scmos
timestamp 0
<< metal1 >>
rect 0 0 10 10
<< end >>
"""

# imports as the tool does, but for a text that is changed before it is held against the layout
CHANGED = '''
import sys
sys.path.append(tools)
import importing
lines = importing.lines
importing.lines = lambda *given: (line.replace(old, new) for line in lines(*given))
importing.run(words, target, said)
'''


@unittest.skipUnless(HAS_KLAYOUT, "KLayout is not installed")
class Imports(unittest.TestCase):
    folder: str

    @classmethod
    def setUpClass(cls) -> None:
        cls.folder = tempfile.mkdtemp()
        cls.addClassCleanup(shutil.rmtree, cls.folder)
        klayout.run(LAYOUTS, folder=cls.folder)

    def path(self, name: str) -> str:
        return os.path.join(self.folder, name)

    def write(self, name: str, data: bytes) -> str:
        with open(self.path(name), "wb") as file:
            file.write(data)
        return name

    def run_tool(self, name: str, *words: str) -> "subprocess.CompletedProcess[bytes]":
        given = [sys.executable, os.path.join(TOOLS, "import"), self.path(name), *words]
        return subprocess.run(given, capture_output=True, check=False)

    def text(self, name: str, *words: str) -> bytes:
        done = self.run_tool(name, *words)
        self.assertEqual(done.returncode, 0, done.stderr)
        return done.stdout

    def boxes(self, text: bytes, layer: str = "L1D0") -> List[List[int]]:
        """The boxes of a layer as corners in grid units, by all calls."""
        found = []
        for corners in Layout(text).figures(layer):
            xs, ys = zip(*corners)
            self.assertEqual(len(corners), 4)
            found.append([min(xs), min(ys), max(xs), max(ys)])
        return sorted(found)

    def area(self, name: str) -> float:
        """The area of the first layer in square grid units; its boxes share none."""
        return float(sum((x2 - x1) * (y2 - y1) for x1, y1, x2, y2 in self.boxes(self.text(name))))

    def refused(self, name: str, *words: str) -> str:
        """The line with which a layout is refused."""
        done = self.run_tool(name, *words)
        self.assertEqual((done.returncode, done.stdout), (1, b""), done.stderr)
        lines = done.stderr.decode().splitlines()
        self.assertEqual(len(lines), 1, lines)
        self.assertTrue(lines[0].startswith("import: "), lines)
        return lines[0]

    def told(self, name: str, *words: str) -> str:
        done = self.run_tool(name, *words)
        self.assertEqual(done.returncode, 0, done.stderr)
        return done.stderr.decode()


class Metal(Imports):
    def test_magnified_instance(self) -> None:
        self.assertEqual(self.boxes(self.text("large.gds")), [[0, 0, 1000, 100], [0, 4000, 200, 6000]])

    def test_array_stays_an_array(self) -> None:
        text = self.text("array.oas")
        self.assertEqual(text.count(b"B "), 1)
        self.assertEqual(text.count(b"C 1 "), 600)
        self.assertEqual(len(self.boxes(text)), 600)

    def test_path_that_crosses_itself(self) -> None:
        self.assertEqual(self.area("cross.gds"), (4250 + 3000 + 2000 + 4250) * 500 / 25)

    def test_ring_that_is_a_closed_path(self) -> None:
        self.assertEqual(self.area("ring.gds"), (5500**2 - 4500**2) / 25)

    def test_polygon_that_overlaps_itself(self) -> None:
        self.assertEqual(self.area("twice.oas"), 3000 * 3000 / 25)

    def test_figure_without_area(self) -> None:
        done = self.run_tool("empty-path.oas")
        self.assertEqual(self.boxes(done.stdout), [[0, 0, 20, 20]])
        self.assertEqual(done.stderr, b"import: left out: 1 figure without area\n")

    def test_layer_of_a_line_alone(self) -> None:
        text = self.text("line.oas")
        self.assertEqual((self.boxes(text), self.boxes(text, "L2D0")), ([[0, 0, 20, 20]], []))

    def test_warnings_of_klayout_are_not_in_the_text(self) -> None:
        path = gds.record(0x0900) + gds.record(0x0D02, gds.shorts(1)) + gds.record(0x0E02, gds.shorts(0))
        path += gds.record(0x0F03, b"\0\0\0\144") + gds.record(0x1003, gds.points([(0, 0)])) + gds.record(0x1100)
        self.write("warned.gds", gds.library([("TOP", path + gds.box(1, 0, 0, 0, 100, 100))], 0.001))
        done = self.run_tool("warned.gds")
        self.assertTrue(done.stdout.startswith(b"(scale 1);\nDS "), done.stdout)
        self.assertIn(b"PATH", done.stderr)
        self.assertEqual(self.boxes(done.stdout), [[0, 0, 20, 20]])

    def test_cell_whose_name_is_no_text(self) -> None:
        whole = gds.library([("TOP", gds.box(1, 0, 0, 0, 100, 100))], 0.001)
        self.write("latin.gds", whole.replace(b"TOP\0", b"T\xe9P\0"))
        self.assertEqual(self.boxes(self.text("latin.gds")), [[0, 0, 20, 20]])

    def test_slanted_sides_stay(self) -> None:
        self.assertIn(b"P 0 0 0 1800 1800 0;", self.text("slanted.gds"))

    def test_far_out(self) -> None:
        self.assertEqual(self.boxes(self.text("far.gds")), [[30_000_000, 0, 30_000_020, 20]])
        self.assertIn("L1D0 reaches to (300000.1, 0.1) micrometres", self.refused("too-far.gds"))
        self.assertIn("L1D0 reaches to (150000.1, 0.1) micrometres", self.refused("far.gds", "--times", "100"))

    def test_def_on_half_a_nanometre(self) -> None:
        lef = self.path(self.write("cells.lef", LEF.encode()))
        self.write("block.def", DEF.encode())
        done = self.run_tool("block.def", "--lef", lef, "--times", "10", "--layer", "met1", "--name", "met1.PIN=MET1", "--layer", "met1.PIN")
        nanometres = [[x / 2 for x in box] for box in self.boxes(done.stdout, "MET1")]
        self.assertEqual(nanometres, [[601.0, 1200.5, 800.5, 1400.5], [1467.75, 1467.75, 3033.25, 1533.25]])


class Choices(Imports):
    def test_top_cells(self) -> None:
        self.assertIn("several top cells: --cell takes one of A, B", self.refused("tops.gds"))
        self.assertEqual(self.boxes(self.text("tops.gds", "--cell", "B")), [[0, 0, 2, 2]])
        self.assertIn("the top cells are: A, B", self.refused("tops.gds", "--cell", "NONE"))

    def test_layers(self) -> None:
        text = self.text("slanted.gds", "--layer", "2", "--name", "2/0=M")
        self.assertEqual(self.boxes(text, "M"), [[0, 0, 2, 2]])
        self.assertNotIn(b"L1D0", text)
        self.assertEqual(self.text("slanted.gds", "--layer", "M", "--name", "2/0=M"), text)
        self.assertIn("the layers are: 1/0, 2/0, 3/0", self.refused("slanted.gds", "--layer", "7"))
        self.assertIn("the layers are: 1/0, 2/0, 3/0", self.refused("slanted.gds", "--name", "7/0=M"))
        self.assertIn("layer 3/0 has no figure", self.refused("slanted.gds", "--layer", "3/0"))

    def test_what_is_left_out_is_told(self) -> None:
        self.assertEqual(self.told("slanted.gds", "--layer", "2"), "import: left out: 1 label, the layers 1/0, 3/0\n")

    def test_cells_that_are_not_there_are_told(self) -> None:
        self.write("ghost.gds", gds.library([("TOP", gds.call("NONE", 0, 0) + gds.box(1, 0, 0, 0, 100, 100))], 0.001))
        told = self.told("ghost.gds")
        self.assertEqual(told, "import: left out: the cells NONE, which the layout calls and does not have\n")

    def test_pins_are_told(self) -> None:
        lef = self.path(self.write("cells.lef", LEF.encode()))
        self.write("block.def", DEF.encode())
        told = self.told("block.def", "--lef", lef)
        self.assertIn("layers of their own: MET1PIN (met1.PIN), which --name met1.PIN=MET1 would join", told)
        self.assertEqual(len(told.splitlines()), 1)

    def test_scale(self) -> None:
        self.write("large.cif", self.text("large.gds", "--times", "10"))
        self.assertEqual(scale.line(10), "(scale 10);")
        self.assertEqual(scale.read(self.path("large.cif")), 10)
        self.assertIsNone(scale.read(self.path(self.write("none.cif", b"DS 1 1 10;\nDF;\nE\n"))))


class Refusals(Imports):
    def test_broken_files(self) -> None:
        with open(self.path("large.gds"), "rb") as file:
            whole = file.read()
        self.assertIn("the file is empty", self.refused(self.write("nothing.gds", b"")))
        self.assertIn("KLayout cannot read it", self.refused(self.write("cut.gds", whole[: len(whole) // 2])))
        self.assertIn("unknown format", self.refused(self.write("words.gds", b"hello\n")))
        self.assertIn("begins like no GDSII", self.refused(self.write("cell.mag", MAGIC.encode())))
        self.assertIn("cannot be unpacked", self.refused(self.write("cut.gds.gz", gzip.compress(whole)[:16])))
        self.assertEqual(self.text(self.write("whole.gds.gz", gzip.compress(whole))), self.text("large.gds"))
        self.assertIn("KLayout cannot read it", self.refused(self.write("cut.oas", b"%SEMI-OASIS\r\n")))
        self.assertIn("No such file", self.refused("nowhere.gds"))

    def test_text_that_is_not_the_layout(self) -> None:
        for name, old, new in (
            ("array.oas", " T 0 0;", " T 2 0;"),
            ("array.oas", "R 0 1 T 0 0;", "R 0 -1 T 0 0;"),
            ("array.oas", "C 1 R 0 1 T 1200 12000;", ""),
            ("large.gds", "B 10000 1000", "B 10000 1002"),
            ("large.gds", "DS 1 1 20", "DS 1 1 10"),
            ("slanted.gds", "P 0 0 0 1800", "P 0 0 0 1780"),
            ("slanted.gds", "L L2D0", "L L9D0"),
            ("twice.oas", "B 6000", "P 0 0 6000 0 6000 8000 0 8000;B 6000"),
        ):
            self.assertIn("the text", self.changed(name, old, new, is_unchecked=False).get("refused", ""), (name, old, new))
            self.assertIn("told", self.changed(name, old, new, is_unchecked=True))

    def changed(self, name: str, old: str, new: str, is_unchecked: bool) -> "dict[str, str]":
        target, said = self.path("target.cif"), self.path("said")
        asked = {"layout": self.path(name), "lef": [], "times": 1, "names": {}, "layers": [], "cell": None, "unchecked": is_unchecked}
        if os.path.exists(target):
            os.remove(target)
        klayout.run(CHANGED, tools=TOOLS, words=json.dumps(asked), target=target, said=said, old=old, new=new)
        self.assertEqual(os.path.exists(target), is_unchecked)
        with open(said, encoding="utf-8") as file:
            answer: "dict[str, str]" = json.load(file)
        return answer


if __name__ == "__main__":
    unittest.main()
