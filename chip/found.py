"""What a verification found, and the lines that say so: for each part and each kind of fault one, with its places."""

from collections.abc import Iterable
from typing import NamedTuple

SHOWN = 5
Place = tuple[float, float]


class Found(NamedTuple):
    """A fault, the part that it is of where it is known, and places in micrometres."""

    what: str
    part: str = ""
    places: tuple[Place, ...] = ()


def lines_of(faults: Iterable[Found]) -> list[str]:
    """A line for each part and kind, in the order of their first faults."""
    places: dict[tuple[str, str], dict[Place, None]] = {}
    for fault in faults:
        places.setdefault((fault.part, fault.what), {}).update(dict.fromkeys(fault.places))
    return [line_of(part, what, list(found)) for (part, what), found in places.items()]


def line_of(part: str, what: str, places: list[Place]) -> str:
    line = f"part {part}: {what}" if part else what
    if not places:
        return line
    return f"{line}: {len(places)} place{'s' * (len(places) > 1)}, at {', '.join(f'({x:.9g}, {y:.9g})' for x, y in places[:SHOWN])}"
