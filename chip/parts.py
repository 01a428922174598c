"""Parts as CIF texts."""

import hashlib
import os
from typing import Any, NamedTuple

from settings import Settings


class Content(NamedTuple):
    """What a part has: how many boxes, the corners of all together in grid units, their lines, and those of the keep layer."""

    many: int
    bounds: list[int]
    lines: str
    kept: str


def store(settings: Settings, folder: str, label: str, content: Content, clusters: int) -> dict[str, Any]:
    """Writes a part of so many clusters, and tells what the manifest says of it."""
    lines = [f"(part {label});\nDS 1 1 4;\nL {settings.name};\n", content.lines]
    if settings.keep_name and settings.keep_name != settings.name:
        lines += [f"L {settings.keep_name};\n", content.kept]
    text = "".join([*lines, "DF;\nC 1;\nE\n"]).encode()
    with open(os.path.join(folder, label + ".cif"), "wb") as file:
        file.write(text)
    return {
        "name": f"{os.path.basename(folder)}/{label}",
        "primitives": content.many,
        "clusters": clusters,
        "bounds": content.bounds,
        "sha256": hashlib.sha256(text).hexdigest(),
    }
