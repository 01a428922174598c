"""One marker database for KLayout of the reports of all parts, with the marks of `tools/markers`.

What a part was refused for is a marker of its own, at the window of the part.
"""

import os
import sys
from collections.abc import Iterator
from typing import Any

sys.path.append(os.path.join(os.path.dirname(os.path.abspath(__file__)), "..", "tools"))

import marks
from bound import Run
from cif import Unreadable
from edges import edges_of, shapes_of
from files import read_text, sum_of, written
from manifest import Manifest
from marks import Mark
from net import Report as MarkedReport
from notches import Notch, notches_of
from records import Part, path_of
from refused import Refused, guard
from reports import Report

REFUSED = "refused"
KINDS = {**marks.KINDS, REFUSED: "a part that dpl refuses, with its line"}


class Marked:
    """What is marked of a part, out of its report or its refusal."""

    def __init__(self, part: Part, report: Report) -> None:
        self.part, self.refusal = part, report.refusal
        self.notches: list[Notch] = []
        if not report.refusal:
            try:
                self.report = MarkedReport(report.text)
                self.notches = notches_of(self.report, shapes_of(self.report))
            except (Unreadable, KeyError) as error:
                raise Refused(f"its report cannot be marked: {error}") from error

    def marks(self, run: Run) -> list[Any]:
        if self.refusal:
            return [Mark(REFUSED, self.refusal, [self.part["bounds"]], [])]
        try:
            kinds = run.chosen.markers.split(",")
            return list(marks.marks(self.report, kinds, run.chosen.scale, edges_of, lambda _: self.notches))
        except (Unreadable, KeyError) as error:
            raise Refused(f"its report cannot be marked: {error}") from error


def items_of(run: Run, part: Part, marked: Marked, cell: str) -> Iterator[str]:
    """The items of the database that a part has, in its lines."""
    for mark in marked.marks(run):
        yield marks.item(mark._replace(title=f"part {part['name']}: {mark.title}"), cell, run.chosen.scale)
    # What is remembered of places is of no use to another part.
    marks.step.cache_clear()
    marks.microns.cache_clear()


def join(run: Run) -> None:
    manifest = Manifest(run)
    said = f"layer {run.chosen.name}, spacing {run.chosen.values['space']} nm, {len(manifest.parts)} parts"
    with written(run.path("markers.lyrdb")) as out:
        out.writelines(line + "\n" for line in marks.head(manifest.cell, said, KINDS))
        for part in manifest.parts:
            out.write(read_text(path_of(run, "marks", part)))
        out.write(marks.END + "\n")
    with written(run.path("markers.sum")) as out:
        out.write(sum_of(run.path("markers.lyrdb")) + "\n")


if __name__ == "__main__":
    guard("markers", lambda: join(Run(sys.argv[1])))
