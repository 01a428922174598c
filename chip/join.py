"""Joins the reports of all parts: both masks as two layers of one file, a table, and what was joined. See `Snakefile`."""

import os
import sys
import tempfile
from typing import Any

sys.path.insert(0, os.path.dirname(os.path.abspath(__file__)))

import pya  # type: ignore[import]

from bound import Run
from files import read_json, read_text, sum_of, write_json, written
from manifest import Manifest
from masks import Reader, cell_of, write_masks
from records import Part, faults_of, path_of
from refused import Refused, guard
from reports import Report
from table import row_of, table_of

# What KLayout is run with.
folder: str = globals()["folder"]
masks: str = globals()["masks"]


def join(run: Run, target: str) -> None:
    manifest = Manifest(run)
    layout = pya.Layout(False)
    layout.dbu = float(run.chosen.grid / 1000)
    top = layout.create_cell(manifest.cell)
    layers = [layout.layer(pya.LayerInfo(1 + k, 0, run.chosen.name + letter)) for k, letter in enumerate("AB")]
    rows, reports = [], {}
    with tempfile.TemporaryDirectory() as scratch:
        reader = Reader(scratch, run.chosen.name)
        for part in manifest.parts:
            see_recorded(run, part)
            report = Report(run.folder, part)
            said, notches = read_text(path_of(run, "check", part)).strip(), read_json(path_of(run, "notches", part))
            rows.append(row_of(part, report, said, notches))
            reports[part["name"]] = report.sha256
            if not report.refusal:
                add(part, report, layout, top, layers, reader)
    write_masks(layout, run.path(target))
    with written(run.path("table.txt")) as file:
        file.write(table_of(rows))
    sums = {"masks": sum_of(run.path(target)), "table": sum_of(run.path("table.txt")), "manifest": sum_of(run.path("manifest.json"))}
    write_json(run.path("joined.json"), {**sums, "reports": reports})


def add(part: Part, report: Report, layout: Any, top: Any, layers: list[int], reader: Reader) -> None:
    cell = layout.create_cell(cell_of(part["name"]))
    try:
        reader.into(report, cell, layers)
    except RuntimeError as error:
        raise Refused(f"part {part['name']}: {error}") from error
    top.insert(pya.CellInstArray(cell.cell_index(), pya.Trans()))


def see_recorded(run: Run, part: Part) -> None:
    faults = faults_of(run, part)
    if faults:
        raise Refused(f"part {part['name']}: {', '.join(faults)}")


guard("join", lambda: join(Run(folder), masks))
