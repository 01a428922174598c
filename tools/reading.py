"""Reads layouts by KLayout, in a unit so fine that nothing is rounded."""

from __future__ import annotations

import gzip
import math
import os
import re
import tempfile
import zlib
from collections.abc import Iterator
from contextlib import contextmanager
from fractions import Fraction

import pya  # type: ignore[import]

from cif import Unreadable

CIF, LEF_OR_DEF = "CIF", "LEF or DEF"
# how files begin
GDSII, OASIS, PACKED = b"\0\6\0\2", b"%SEMI-OASIS", b"\x1f\x8b"

# KLayout reads the layer at the end of a label as a height. A label draws nothing.
LABEL = re.compile(rb"^[ \t]*94[ \t][^;()]*;", re.MULTILINE)
SCALE = re.compile(rb"D[^0-9A-Z();]*S[^0-9;]*[0-9]+[^0-9;]+([0-9]+)[^0-9;]+([0-9]+)")
FINEST = Fraction(1, 100_000)

COMMENT = re.compile(rb"#.*")
MICRONS = re.compile(rb"\bMICRONS\s+([1-9][0-9]*)")
# the statements of LEF that say where metal is, as far as they have more digits than a nanometre needs
PLACES = re.compile(rb"\b(?:RECT|POLYGON|PATH|WIDTH|WIREEXTENSION|OFFSET|ORIGIN|SIZE|FOREIGN|ITERATE|CUTSIZE|CUTSPACING|ENCLOSURE|VIA)\b([^;]*);")
DECIMAL = re.compile(rb"-?[0-9]*\.[0-9]{4,}")


def read(path: str, options: pya.LoadLayoutOptions | None = None, lefs: list[str] | None = None) -> pya.Layout:
    """A layout; of DEF and LEF with the LEF files that are given, or else those in its folder."""
    options = options or pya.LoadLayoutOptions()
    layout = pya.Layout(False)
    form = form_of(path)
    try:
        if form == CIF:
            read_cif(layout, path, options)
            return layout
        if form == LEF_OR_DEF:
            with_lefs(options, path, lefs or [])
        layout.read(path, options)
    except RuntimeError as error:
        raise Unreadable(f"KLayout cannot read it: {plain(error, path)}") from error
    if not form:
        raise Unreadable("it begins like no GDSII and no OASIS, and CIF, DEF and LEF are known by the ends .cif, .def and .lef")
    return layout


def form_of(path: str) -> str:
    """The form of a file: two by how it begins, the others by its name; empty where it is none of these."""
    with open(path, "rb") as file:
        head = file.read(16)
    if head[:2] == PACKED:
        with unpacked(path) as packed:
            head = packed.read(16)
    if head.startswith((GDSII, OASIS)):
        return "GDSII or OASIS"
    if path.lower().endswith(".cif"):
        return CIF
    return LEF_OR_DEF if re.search(r"\.(lef|def)(\.gz)?$", path.lower()) else ""


@contextmanager
def unpacked(path: str) -> Iterator[gzip.GzipFile]:
    try:
        with gzip.open(path, "rb") as file:
            yield file
    except (EOFError, zlib.error, gzip.BadGzipFile) as error:
        raise Unreadable(f"{os.path.basename(path)} cannot be unpacked: {error}") from error


def plain(error: RuntimeError, path: str) -> str:
    """What KLayout says in one line, without the path and the name of the call."""
    return " ".join(str(error).replace(f": {path}", "").replace(" in Layout.read", "").split())


def name_of(cell: pya.Cell) -> str:
    """The name of a cell, or its number where the name is no text."""
    try:
        return str(cell.name)
    except RuntimeError:
        return f"CELL{cell.cell_index()}"


def microns_of(layout: pya.Layout) -> Fraction:
    """The unit of a layout in micrometres."""
    return Fraction(repr(layout.dbu)).limit_denominator(10**9)


# ---- CIF


def read_cif(layout: pya.Layout, path: str, options: pya.LoadLayoutOptions) -> None:
    """Reads a CIF text without its labels, on a grid so fine that nothing is rounded."""
    with open(path, "rb") as file:
        text = file.read()
    options.cif_dbu = float(unit_of_cif(text))
    with tempfile.TemporaryDirectory() as folder:
        copy = os.path.join(folder, "layout.cif")
        with open(copy, "wb") as file:
            file.write(LABEL.sub(b"", text))
        layout.read(copy, options)


def unit_of_cif(text: bytes) -> Fraction:
    """The greatest unit, in micrometres, of which each corner that the text may name is a whole number."""
    unit = Fraction(1, 200)
    for a, b in set(SCALE.findall(text)):
        if int(a) and int(b):
            other = Fraction(int(a), 200 * int(b))
            unit = Fraction(
                math.gcd(unit.numerator * other.denominator, other.numerator * unit.denominator),
                unit.denominator * other.denominator,
            )
    if unit < FINEST:
        raise Unreadable("the scales of the definitions are too fine for KLayout")
    return unit


# ---- LEF and DEF


def with_lefs(options: pya.LoadLayoutOptions, path: str, lefs: list[str]) -> None:
    lefs = lefs or lefs_beside(path)
    config = options.lefdef_config
    config.lef_files = lefs
    # else those in the folder are read besides
    config.read_lef_with_def = False
    config.dbu = float(unit_of_lef([path, *lefs]))
    options.lefdef_config = config


def lefs_beside(path: str) -> list[str]:
    """The LEF files in the folder of a DEF file."""
    folder = os.path.dirname(os.path.abspath(path))
    found = sorted(os.path.join(folder, name) for name in os.listdir(folder) if re.search(r"\.lef(\.gz)?$", name.lower()))
    return [] if re.search(r"\.lef(\.gz)?$", path.lower()) else found


def unit_of_lef(paths: list[str]) -> Fraction:
    """The greatest unit, in micrometres, of which all corners are whole numbers: half of one that all lengths are, since a
    wire lies with its middle on a point."""
    parts = {1000}
    for path in paths:
        text = COMMENT.sub(b"", text_of(path))
        parts |= {int(number) for number in MICRONS.findall(text)}
        for statement in PLACES.findall(text):
            parts |= {Fraction(number.decode()).denominator for number in DECIMAL.findall(statement)}
    unit = Fraction(1, 2 * math.lcm(*parts))
    if unit < FINEST:
        raise Unreadable(f"the lengths are whole numbers of 1/{unit.denominator} micrometre, which is too fine for KLayout")
    return unit


def text_of(path: str) -> bytes:
    with open(path, "rb") as file:
        data = file.read()
    if data[:2] != PACKED:
        return data
    with unpacked(path) as packed:
        return packed.read()
