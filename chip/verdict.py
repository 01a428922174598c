"""The verdict of a run in one of three words, what it rests on, and the name that the masks have by it.

`verified`: every part has masks, and nothing was found. `incomplete`: parts were refused, and nothing was found of the
others. Else the number of faults. A file of masks has the name of the settings only where all is verified.
"""

import os
import re
import shutil
import sys
from collections.abc import Iterator
from typing import Any

sys.path.append(os.path.join(os.path.dirname(os.path.abspath(__file__)), "..", "tools"))

from bound import Run
from faults import LIMITS, explain
from files import remove, sum_of, written
from manifest import Manifest
from records import Part, path_of, record_of
from reports import Report

VERDICT = "verdict.txt"
VERIFIED, INCOMPLETE, FAULTS = "verified", "incomplete", "faults"
STATUS = {VERIFIED: 0, INCOMPLETE: 4, FAULTS: 1}
LIMIT = re.compile(r"dpl: limit (\d+) count (\d+)")


def write_verdict(run: Run, joined: str, faults: list[str]) -> None:
    parts = Manifest(run).parts
    lines = faults or [line for part in parts for line in refusal_lines(run, part)]
    word = FAULTS if faults else INCOMPLETE if lines else VERIFIED
    name = masks_name(run.chosen.masks, word)
    for other in STATUS:
        remove(run.path(masks_name(run.chosen.masks, other)))
    if os.path.exists(run.path(joined)):
        same_file(run.path(joined), run.path(name))
    first = f"{len(faults)} fault{'s' * (len(faults) > 1)}" if faults else word
    try:
        with written(run.path(VERDICT)) as file:
            file.write("\n".join([first, *lines, "", *rests_on(run, name, parts)]) + "\n")
    except OSError:
        remove(run.path(name))
        raise


def same_file(path: str, name: str) -> None:
    """Gives a file another name, or a copy that name where a file can have only one."""
    try:
        os.link(path, name)
    except OSError:
        shutil.copyfile(path, name + ".new")
        os.replace(name + ".new", name)


def masks_name(masks: str, word: str) -> str:
    """masks.oas, masks.incomplete.oas or masks.faults.oas."""
    stem, end = os.path.splitext(masks)
    return masks if word == VERIFIED else f"{stem}.{word}{end}"


def refusal_lines(run: Run, part: Part) -> Iterator[str]:
    refusal = Report(run.folder, part).refusal
    if refusal:
        unit = float(run.chosen.grid / 1000)
        left, bottom, right, top = (f"{v * unit:.9g}" for v in part["bounds"])
        yield f"part {part['name']} from ({left}, {bottom}) to ({right}, {top}) micrometres has no masks: {in_words(refusal)}; {remedy(part)}"


def in_words(refusal: str) -> str:
    """What was counted."""
    found = LIMIT.match(refusal)
    if not found:
        return f"{refusal}: {explain(refusal, [], None) or 'dpl says no more'}"
    kind, count = map(int, found.groups())
    counted, most, _ = LIMITS[kind]
    return f"{refusal}: {count:,} {counted}, of at most {most:,}"


def remedy(part: Part) -> str:
    """What may be done."""
    if part["clusters"] > 1:
        return f"its {part['primitives']:,} rectangles are {part['clusters']:,} clusters: a smaller size may divide them"
    return (
        f"its {part['primitives']:,} rectangles are one cluster, each nearer than the spacing to another: "
        "give a smaller spacing, or leave a gap of the spacing within"
    )


def rests_on(run: Run, name: str, parts: list[Part]) -> Iterator[str]:
    """The checksums of all that a verdict rests on."""
    yield "sha256"
    yield f"{run.bound.layout} layout {run.chosen.layout}"
    yield f"{run.bound.settings} settings"
    yield f"{run.bound.dpl} dpl {run.chosen.dpl}"
    for file in (name, "table.txt", "manifest.json", "markers.lyrdb"):
        if os.path.exists(run.path(file)):
            yield f"{sum_of(run.path(file))} {file}"
    for part in parts:
        sums: dict[str, Any] = record_of(run, part).get("split", {}).get("sums", {})
        for what in ("report", "refusal", "check"):
            yield f"{sums.get(what)} {os.path.relpath(path_of(run, what, part), run.folder)}"


def word_of(text: str) -> str:
    """The word of a verdict's text."""
    first = text.partition("\n")[0]
    return first if first in STATUS else FAULTS


def said_in(text: str) -> str:
    """What a verdict says, without its checksums."""
    return text.partition("\n\n")[0]
