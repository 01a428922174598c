#!/usr/bin/env python3
"""Counts whether KLayout, Magic and Electric open what tools/masks writes with the same boxes. No part of the gate.

    bench/viewers.py [--program BINARY] LAYOUT:LAYER:SPACE:OVERLAP.. REPORT..

Each layer is split by the built program; a report is taken as it is. The masks are written on the layers CMF and CMS,
which all three know. KLayout and Electric must show each box of the report, no more and no fewer, but that Electric
rounds to whole hundredths of a micron; Magic joins boxes, so for it the areas must be the same. Ends with 1 where a viewer
shows something else.
"""

from __future__ import annotations

import argparse
import json
import os
import subprocess
import sys
import tempfile
from collections import Counter
from typing import Any, List, Tuple

TOP = os.path.dirname(os.path.dirname(os.path.abspath(__file__)))
sys.path.insert(0, os.path.join(TOP, "tools"))
import klayout
from net import Report

NAMES = "CMF,CMS"

# how often each box is on mask A and on mask B
Masks = List["Counter[Tuple[float, ...]]"]

# writes the boxes of each layer, in half hundredths of a micron
BY_KLAYOUT = '''
import json, pya

layout = pya.Layout()
layout.read(source)
found = {}
for index in layout.layer_indexes():
    boxes = found.setdefault(layout.get_info(index).name, [])
    for top in layout.top_cells():
        shapes = top.begin_shapes_rec(index)
        while not shapes.at_end():
            box = shapes.shape().bbox().transformed(shapes.trans())
            boxes.append([round(at * layout.dbu * 200, 3) for at in (box.left, box.bottom, box.right, box.top)])
            shapes.next()
with open(target, "w") as file:
    json.dump(found, file)
'''

# the area, in square hundredths of a micron, in which the GDSII that Magic wrote differs from the masks
BY_MAGIC = '''
import json, pya

masks, magic = pya.Layout(), pya.Layout()
masks.read(source)
magic.read(written)
found = {}
for name, number in (("CMF", 49), ("CMS", 51)):
    def region(layout, wanted):
        merged = pya.Region()
        for index in layout.layer_indexes():
            info = layout.get_info(index)
            if wanted(info):
                for top in layout.top_cells():
                    merged += pya.Region(top.begin_shapes_rec(index))
        return merged.merged().transformed(pya.ICplxTrans(layout.dbu / 0.001))
    differs = region(masks, lambda info: info.name == name) ^ region(magic, lambda info: info.layer == number)
    found[name] = differs.area() / 100
with open(target, "w") as file:
    json.dump(found, file)
'''

MAGIC = """
drc off
cif istyle lambda=1.0(gen)
cif rescale yes
cif read {stem}
load MASKS
cif ostyle lambda=1.0(gen)
gds write {stem}-magic
quit -noprompt
"""

ELECTRIC = """
import com.sun.electric.tool.io.FileType;
import com.sun.electric.tool.io.input.Input;
import com.sun.electric.tool.Job;
import com.sun.electric.database.hierarchy.Library;
import com.sun.electric.technology.Technology;
import com.sun.electric.database.EditingPreferences;
import java.net.URL;
import java.util.HashMap;
tech = Technology.findTechnology("mocmos");
prefs = new com.sun.electric.tool.io.input.CIF$CIFPreferences(true);
empty = Library.newInstance("masks", null);
url = new URL("file://{source}");
editing = EditingPreferences.getInstance();
job = Job.getRunningJob();
read = Input.importLibrary(editing, prefs, url, FileType.CIF, empty, tech, new HashMap(), new HashMap(), false, job);
unit = tech.getScale() / 5;
for (cells = read.getCells(); cells.hasNext(); ) {{
  cell = cells.next();
  if (!cell.getName().equals("MASKS")) continue;
  for (nodes = cell.getNodes(); nodes.hasNext(); ) {{
    node = nodes.next();
    b = node.getBounds();
    corners = b.getMinX() * unit + " " + b.getMinY() * unit + " " + b.getMaxX() * unit + " " + b.getMaxY() * unit;
    print("box " + node.getProto().getName() + " " + corners);
  }}
}}
"""


def shown_by_klayout(source: str) -> Masks:
    target = f"{source}.json"
    klayout.run(BY_KLAYOUT, source=source, target=target)
    with open(target, encoding="utf-8") as file:
        found = json.load(file)
    return [Counter(map(tuple, found.get(name, []))) for name in NAMES.split(",")]


def shown_by_electric(source: str) -> Masks:
    script = f"{source}.bsh"
    with open(script, "w", encoding="utf-8") as file:
        file.write(ELECTRIC.format(source=source))
    # it writes its log where it stands
    where: dict[str, Any] = {"cwd": os.path.dirname(source), "capture_output": True, "text": True, "timeout": 600}
    ran = subprocess.run(["electric", "-batch", "-s", script], check=False, **where)
    found: dict[str, Counter[tuple[float, ...]]] = {"Metal-1-Node": Counter(), "Metal-2-Node": Counter()}
    for line in ran.stdout.splitlines():
        if line.startswith("box "):
            _, node, *numbers = line.split()
            found[node][tuple(round(float(number), 3) for number in numbers)] += 1
    return list(found.values())


def differs_in_magic(source: str) -> float:
    """The area that Magic shows otherwise, in square hundredths of a micron."""
    stem, target = source[: -len(".cif")], f"{source}.area"
    with open(f"{stem}.tcl", "w", encoding="utf-8") as file:
        file.write(MAGIC.format(stem=stem))
    words = ["magic", "-dnull", "-noconsole", "-T", "scmos", f"{stem}.tcl"]
    where: dict[str, Any] = {"cwd": os.path.dirname(source), "stdin": subprocess.DEVNULL, "capture_output": True, "timeout": 600}
    subprocess.run(words, check=False, **where)
    klayout.run(BY_MAGIC, source=source, written=f"{stem}-magic.gds", target=target)
    with open(target, encoding="utf-8") as file:
        differs: dict[str, float] = json.load(file)
    return sum(differs.values())


def report_of(case: str, program: str, folder: str) -> str:
    if ":" not in case:
        return case
    layout, layer, space, overlap = case.rsplit(":", 3)
    report = os.path.join(folder, "report.cif")
    with open(layout, "rb") as source, open(report, "wb") as target:
        words = [program, "split", "--layer", layer, "--space", space, "--overlap", overlap]
        subprocess.run(words, stdin=source, stdout=target, check=True)
    return report


def tried(case: str, program: str) -> bool:
    """Whether all three show what the report has, and a line for each."""
    with tempfile.TemporaryDirectory() as folder:
        report = report_of(case, program, folder)
        source = os.path.join(folder, "masks.cif")
        with open(source, "wb") as file:
            subprocess.run([os.path.join(TOP, "tools", "masks"), report, "--divide", "1", "--names", NAMES], stdout=file, check=True)
        with open(report, "rb") as file:
            read = Report(file.read())
        wanted: Masks = [Counter(read.boxes(letter)) for letter in "AB"]
        count, half = sum(sum(boxes.values()) for boxes in wanted), off_hundredths(wanted)
        by_klayout, by_electric = difference(wanted, shown_by_klayout(source)), difference(wanted, shown_by_electric(source))
        area = differs_in_magic(source)
        print(f"{case}: {count} boxes, {half} off whole hundredths; boxes missing or too many:", end=" ")
        print(f"KLayout {by_klayout}, Electric {by_electric}; square hundredths that differ: Magic {area:g}", flush=True)
        # Electric rounds what lies off whole hundredths
        return by_klayout == 0 and by_electric <= 2 * half and area == 0


def difference(wanted: Masks, found: Masks) -> int:
    """How many boxes are missing or too many."""
    return sum(sum(((w - f) + (f - w)).values()) for w, f in zip(wanted, found))


def off_hundredths(wanted: Masks) -> int:
    return sum(any(number % 2 for number in box) for boxes in wanted for box in boxes.elements())


def main() -> None:
    parser = argparse.ArgumentParser(usage="bench/viewers.py [--program BINARY] LAYOUT:LAYER:SPACE:OVERLAP.. REPORT..")
    parser.add_argument("--program", default=os.path.join(TOP, "crates", "dpl", "out", "dpl"))
    parser.add_argument("cases", nargs="+")
    words = parser.parse_args()
    good = [tried(case, words.program) for case in words.cases]
    sys.exit(0 if all(good) else 1)


if __name__ == "__main__":
    main()
