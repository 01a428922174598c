"""The settings of one layer's run, and its lengths in the units of `dpl` and of the layout.

Lengths of the settings are nanometres. `grid` says how many of them one grid unit of `dpl` stands for: 5 as it is, 1
where the layout is made larger by five. Whatever is not a whole number of units is refused, never rounded.
"""

import json
import os
import re
from fractions import Fraction
from typing import Any

from refused import Refused, RefusedAll, guard

__all__ = ["BUILT", "DEFAULTS", "Refused", "Settings", "guard", "name_of", "ratio_of", "read"]

DEFAULTS: dict[str, Any] = {
    "top": None,
    "keep": None,
    "grid": 5,
    "stitch": 1,
    "conflict": 10,
    "corner": None,
    "balance": False,
    "refine": False,
    "size": 20000,
    "bands": 4,
    "batch": None,
    "masks": "masks.oas",
    "markers": "conflict,notch,stitch,overlap,aside,cycle",
    "dpl": None,
}
HERE = os.path.dirname(os.path.abspath(__file__))
LAUNCHER, PROGRAM = os.path.join("tools", "launcher.py"), os.path.join("crates", "dpl", "out", "dpl")
BUILT = os.path.join(HERE, "..", PROGRAM)
# A run has so many jobs of parts, about, but no job more parts than these.
JOBS, MOST_IN_JOB = 16, 12


def read(path: str) -> "Settings":
    """The settings of a run as a file says them that was judged before (see `asked.py`)."""
    try:
        with open(path) as file:
            given = json.load(file)
    except (OSError, ValueError) as error:
        raise Refused(f"{path}: {error}") from error
    return Settings(given, os.path.dirname(os.path.abspath(path)))


class Settings:
    def __init__(self, given: dict[str, Any], folder: str) -> None:
        self.values = values = {**DEFAULTS, **given}
        self.layer: str = values["layer"]
        self.keep: str | None = values["keep"]
        self.top: str | None = values["top"]
        self.masks: str = values["masks"]
        self.markers: str = values["markers"]
        self.size: int = values["size"]
        self.bands: int = values["bands"]
        self.batch: int | None = values["batch"]
        self.layout: str = os.path.join(folder, values["layout"])
        self.dpl: str = program_of(os.path.join(folder, values["dpl"])) if values["dpl"] else os.path.realpath(BUILT)
        self.command: str = "balance" if values["balance"] else "refine" if values["refine"] else "split"
        self.grid = Fraction(str(values["grid"]))
        faults: list[str] = []
        self.name = told(faults, lambda: name_of(self.layer), "")
        self.keep_name = told(faults, lambda: keep_name_of(self.keep, self.layer), None)
        self.scale = told(faults, lambda: whole_scale(self.grid), 1)
        if not faults:
            self.space = told(faults, lambda: self.hundredths("space"), 1)
            self.overlap = told(faults, lambda: self.hundredths("overlap"), 1)
        if values["balance"] and values["refine"]:
            faults.append("balance and refine are two commands of dpl: one of them has to be false")
        if faults:
            raise RefusedAll(faults)

    def hundredths(self, word: str) -> int:
        """A length of the settings as an option of `dpl`, which counts two grid units each."""
        length = self.values[word]
        count = Fraction(str(length)) / (2 * self.grid)
        if count.denominator != 1 or not 1 <= count <= 100000:
            raise Refused(
                f"{word} {length} nm is {float(count):g} pairs of grid units of {float(self.grid):g} nm, "
                "and has to be a whole number from 1 to 100000: choose another grid"
            )
        return int(count)

    def options(self) -> list[str]:
        """The words behind a command of `dpl`."""
        words: list[object] = ["--layer", self.name, "--space", self.space, "--overlap", self.overlap]
        for word in ("stitch", "conflict", "corner"):
            if self.values[word] is not None:
                words += ["--" + word, self.values[word]]
        if self.keep_name:
            words += ["--keep", self.keep_name]
        return [str(word) for word in words]

    def in_job(self, parts: int) -> int:
        """How many parts one job takes."""
        return self.batch or max(1, min(MOST_IN_JOB, -(-parts // JOBS)))

    def bound(self) -> dict[str, Any]:
        """The settings that a cut rests on."""
        words = ("layer", "keep", "top", "grid", "space", "overlap", "size", "bands")
        return {word: self.values[word] for word in words}


def program_of(path: str) -> str:
    """The program that a path names. A launcher stands for the program beside it, of which its own checksum says nothing."""
    folder, name = os.path.split(os.path.realpath(path))
    return os.path.join(folder, PROGRAM) if name == "dpl" and os.path.exists(os.path.join(folder, LAUNCHER)) else path


def told(faults: list[str], work: Any, otherwise: Any) -> Any:
    """What a work gives; where it is refused, the reason is noted."""
    try:
        return work()
    except Refused as error:
        faults.append(str(error))
        return otherwise


def whole_scale(grid: Fraction) -> int:
    scale = Fraction(5) / grid
    if scale.denominator != 1:
        raise Refused(f"grid {float(grid):g} nm: 5 nm has to be a whole number of them")
    return int(scale)


def name_of(layer: str) -> str:
    """The name of a layer for `dpl`: 10/0 becomes L10D0, met2 becomes MET2."""
    name = re.sub("[^0-9A-Z]", "", re.sub(r"^(\d+)/(\d+)$", r"L\1D\2", layer).upper())
    if not name:
        raise Refused(f"layer {layer}: its name has no digit and no letter")
    return name[:31]


def keep_name_of(keep: str | None, layer: str) -> str | None:
    """The name of a keep layer for `dpl`, which is another than that of the layer."""
    if keep is None:
        return None
    name = name_of(keep)
    return name if name != name_of(layer) or keep == layer else name[:27] + "KEEP"


def ratio_of(dbu: float, grid: Fraction) -> Fraction:
    """How many grid units one unit of a layout is that counts in `dbu` micrometres."""
    return Fraction(repr(dbu)).limit_denominator(10**9) * 1000 / grid
