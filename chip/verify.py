"""Verifies the joined masks against the layout, by other means than the cut, and gives the verdict. See `Snakefile`.

Part by part: its files are those that were written, checked and joined, and its cell of the masks is what its report
says. Tile by tile: both masks together are the layer; where they overlap are the zones that the reports list, and these
alone; and two shapes of one mask that are closer than the spacing belong to a conflict that a report lists.
"""

import multiprocessing
import os
import shutil
import sys
from collections.abc import Iterator
from concurrent.futures import ProcessPoolExecutor

sys.path.insert(0, os.path.dirname(os.path.abspath(__file__)))

from bound import Run
from files import clear, read_text
from found import Found, lines_of
from history import cut_faults
from joined import Joined
from listed import Listed
from manifest import Manifest
from records import path_of
from refused import Refused, guard
from table import faults_of
from tiles import Tiles
from verdict import write_verdict

# What KLayout is run with.
folder: str = globals()["folder"]
masks: str = globals()["masks"]
threads: str = globals()["threads"]

# What a process that is forked off finds here, the first one has read.
work: list[Joined | Tiles] = []


def faults_in(run: Run, target: str, processes: int) -> list[str]:
    """All faults in lines."""
    listed = Listed(run.path("listed"))
    joined = Joined(run, target, listed)
    faults = cut_faults(run, joined.manifest) + joined.faults()
    if not joined.manifest.parts:
        faults.append(Found("there is no part"))
    faults += [Found(fault) for fault in faults_of(read_text(run.path("table.txt")), answers(run, joined.manifest))]
    if joined.layout is not None and not joined.layout.has_cell(joined.manifest.cell):
        faults.append(Found(f"the masks have no cell {joined.manifest.cell}"))
    elif joined.layout is not None:
        tiles = Tiles(run, joined, listed)
        faults += tiles.outside()
        work[:] = joined, tiles
        clear(listed.folder)
        faults += done([len(joined.manifest.parts), tiles.count()], processes)
        shutil.rmtree(listed.folder)
    return lines_of(faults)


def answers(run: Run, manifest: Manifest) -> dict[str, str]:
    """What the check of each part says; nothing where there is none, which is told of the part itself."""
    paths = {part["name"]: path_of(run, "check", part) for part in manifest.parts}
    return {name: read_text(path).strip() if os.path.exists(path) else "" for name, path in paths.items()}


def done(counts: list[int], processes: int) -> Iterator[Found]:
    """What is found in the work, each with so many tasks: all parts first, since tiles look up what their reports list."""
    with ProcessPoolExecutor(processes, multiprocessing.get_context("fork")) as pool:
        for kind, count in enumerate(counts):
            tasks = [(kind, number) for number in range(count)]
            for found in pool.map(task, tasks) if processes > 1 else map(task, tasks):
                yield from found


def task(which: tuple[int, int]) -> list[Found]:
    kind, number = which
    return work[kind].faults_of(number)


def main() -> None:
    run = Run(folder)
    faults = faults_in(run, masks, int(threads))
    if Run(folder).bound != run.bound:
        raise Refused("the run was begun anew, on another content, while this step was at work")
    write_verdict(run, masks, faults)


guard("verify", main)
