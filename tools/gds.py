"""Writes a GDSII file: cells of polygons and of calls. Lengths are in units of the database, a float of microns each."""

from __future__ import annotations

import struct
from typing import Iterable, Sequence, Tuple

Point = Tuple[int, int]


def record(kind: int, data: bytes = b"") -> bytes:
    """A record: two bytes of length, two of kind, and the data, made even."""
    data += b"\0" * (len(data) % 2)
    return struct.pack(">HH", len(data) + 4, kind) + data


def shorts(*numbers: int) -> bytes:
    return struct.pack(f">{len(numbers)}h", *numbers)


def points(pairs: Iterable[Point]) -> bytes:
    flat = [number for pair in pairs for number in pair]
    return struct.pack(f">{len(flat)}i", *flat)


def real(number: float) -> bytes:
    """A positive number as GDSII has it: seven bits of exponent to the base 16, and 56 bits of fraction."""
    exponent = 64
    while number >= 1:
        number, exponent = number / 16, exponent + 1
    while number < 1 / 16:
        number, exponent = number * 16, exponent - 1
    return struct.pack(">Q", (exponent << 56) | round(number * (1 << 56)))


def polygon(layer: int, kind: int, corners: Sequence[Point]) -> bytes:
    """A boundary on a layer and its data type, closed by its first corner."""
    own = record(0x0800) + record(0x0D02, shorts(layer)) + record(0x0E02, shorts(kind))
    return own + record(0x1003, points([*corners, corners[0]])) + record(0x1100)


def box(layer: int, kind: int, x1: int, y1: int, x2: int, y2: int) -> bytes:
    return polygon(layer, kind, [(x1, y1), (x2, y1), (x2, y2), (x1, y2)])


def call(name: str, x: int, y: int, is_mirrored: bool = False) -> bytes:
    """A cell placed at a point, mirrored at the level axis first where that is asked for."""
    turned = record(0x1A01, struct.pack(">H", 0x8000)) if is_mirrored else b""
    return record(0x0A00) + record(0x1206, name.encode()) + turned + record(0x1003, points([(x, y)])) + record(0x1100)


def library(cells: Iterable[Tuple[str, bytes]], micron: float) -> bytes:
    """The whole file: cells as pairs of a name and the bytes of what they hold, and the microns of a unit."""
    # no date, so that equal layouts are equal files
    date = shorts(*[0] * 12)
    parts = [record(0x0002, shorts(600)), record(0x0102, date), record(0x0206, b"DPL")]
    parts.append(record(0x0305, real(micron) + real(micron * 1e-6)))
    for name, held in cells:
        parts += [record(0x0502, date), record(0x0606, name.encode()), held, record(0x0700)]
    return b"".join([*parts, record(0x0400)])
