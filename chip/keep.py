"""The layer in which nothing is cut, as far as it lies on the layer that is split."""

import copy
from typing import Any

import pya  # type: ignore[import]

from settings import Settings
from source import Source


class Keep:
    """A second layer of the same cell; without one it has no shapes."""

    def __init__(self, source: Source, settings: Settings) -> None:
        self.source = source
        self.other: Source | None = None
        if settings.keep and settings.keep != settings.layer:
            chosen = copy.copy(settings)
            chosen.layer, chosen.top = settings.keep, source.name
            self.other = Source(chosen)

    def shapes(self, where: Any) -> Any:
        """What it has in a box, on the layer."""
        if self.other is None:
            return pya.Region()
        return self.other.shapes(where) & self.source.shapes(where) & pya.Region(where)
