"""Does all that is to be done of each part of a batch: split, check, marks, and the spacing to the rest of the layer.

KLayout runs it: see `Snakefile`. What a record says is done, of the content that is there now, is kept.
"""

import os
import sys
import tempfile
from functools import cached_property

sys.path.insert(0, os.path.dirname(os.path.abspath(__file__)))

from apart import Apart
from bound import Run
from files import holds, sum_of, write_json, written
from manifest import Manifest
from markers import Marked, items_of
from masks import Reader
from part import split
from records import STAGES, Part, changed_files, inputs_of, is_of, path_of, record_of, record_path, write_record
from refused import Refused, guard, said
from reports import Report

# What KLayout is run with.
folder: str = globals()["folder"]
batch: str = globals()["batch"]


class Batch:
    def __init__(self, run: Run, number: int, scratch: str) -> None:
        self.run, self.number, self.scratch = run, number, scratch
        self.manifest = Manifest(run)
        self.work = {"split": self.split, "seen": self.seen}

    @cached_property
    def apart(self) -> Apart:
        return Apart(self.run, Reader(self.scratch, self.run.chosen.name))

    def all(self) -> None:
        self.run.see_dpl()
        parts = self.manifest.parts_of(self.number)
        for part in parts:
            try:
                self.part(part)
            except Exception as error:
                raise Refused(f"part {part['name']}: {said(error)}") from error
        self.run.see_dpl()
        records = {part["name"]: sum_of(record_path(self.run, part)) for part in parts}
        write_json(self.run.path("batches", f"{self.number}.json"), records)

    def part(self, part: Part) -> None:
        if not holds(self.run.path("cut", part["name"] + ".cif"), part["sha256"]):
            raise Refused("its text is not the one that was cut")
        record = record_of(self.run, part)
        for stage, work in self.work.items():
            if not is_of(self.run, part, stage, record) or changed_files(self.run, part, stage, record):
                work(part)
                sums = {name: sum_of(path_of(self.run, name, part)) for name in STAGES[stage]}
                record[stage] = {"inputs": inputs_of(self.run, part, stage, record), "sums": sums}
                write_record(self.run, part, record)

    def split(self, part: Part) -> None:
        split(self.run, part)

    def seen(self, part: Part) -> None:
        report = Report(self.run.folder, part)
        marked = Marked(part, report)
        with written(path_of(self.run, "marks", part)) as out:
            out.writelines(line + "\n" for line in items_of(self.run, part, marked, self.manifest.cell))
        write_json(path_of(self.run, "notches", part), len(marked.notches))
        write_json(path_of(self.run, "near", part), [] if report.refusal else self.apart.near(report))


def main() -> None:
    with tempfile.TemporaryDirectory() as scratch:
        Batch(Run(folder), int(batch), scratch).all()


guard("part", main)
