"""Lengths of the command line with a unit: 60nm or 0.06um, as hundredths of a micron of the text that is split."""

from __future__ import annotations

import re
from fractions import Fraction
from typing import Optional

LENGTH = re.compile(r"(\d{1,13}(?:\.\d{1,9})?)(nm|um|µm|μm)")
HUNDREDTHS = {"nm": Fraction(1, 10)}
A_MICRON = Fraction(100)


def hundredths(value: str, times: int) -> Optional[Fraction]:
    """A length with a unit as hundredths of a text that is so many times as large; None for one without."""
    found = LENGTH.fullmatch(value)
    return Fraction(found[1]) * HUNDREDTHS.get(found[2], A_MICRON) * times if found else None


def plain(value: str, times: int) -> str:
    """The value that the program is given: a whole number where a length comes out as one, and else what was written."""
    count = hundredths(value, times)
    return str(count.numerator) if count is not None and count.denominator == 1 else value


def why_not(value: str, times: int) -> str:
    """Why a length is not taken."""
    count = hundredths(value, times)
    if count is None or count.denominator == 1:
        return ""
    at_scale = f" at a scale of {times}" if times > 1 else ""
    finer = times * count.denominator
    return f"; it is {float(count):g} of them{at_scale}, and {finer} would be the scale at which it is a whole number (tools/import --times {finer})"
