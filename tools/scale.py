"""How much larger a CIF text is than the layout that it was made of: the comment with which `tools/import` begins a text.

`(scale 10);` says that all lengths were multiplied by ten, `(scale 1);` that they were not.
"""

from __future__ import annotations

import re
from typing import Optional

HEAD = 4096
LINE = re.compile(rb"^\(scale ([1-9][0-9]{0,17})\);", re.MULTILINE)


def line(times: int) -> str:
    return f"(scale {times});"


def told(text: bytes) -> Optional[int]:
    """By what the lengths of a text were multiplied; None where its head does not say so."""
    found = LINE.search(text[:HEAD])
    return int(found[1]) if found else None


def of(text: bytes) -> int:
    """The same, 1 where the head does not say so."""
    return told(text) or 1


def read(path: str) -> Optional[int]:
    """The same as `told` for a file."""
    with open(path, "rb") as file:
        return told(file.read(HEAD))
