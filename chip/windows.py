"""A grid of equal windows over a layer."""

from typing import Any

import pya  # type: ignore[import]

from source import Source


class Windows:
    """Each window has about so many shapes; its corners lie on the grid of `dpl`."""

    def __init__(self, source: Source, shapes: float) -> None:
        self.grid: int = source.ratio.denominator
        bounds = source.bounds.enlarged(source.half, source.half)
        self.left, self.bottom = bounds.left // self.grid, bounds.bottom // self.grid
        self.width, self.height = -(-bounds.right // self.grid) - self.left, -(-bounds.top // self.grid) - self.bottom
        wanted = max(1.0, source.count() / shapes)
        self.columns: int = max(1, min(self.width, round((wanted * self.width / self.height) ** 0.5)))
        self.rows: int = max(1, min(self.height, round(wanted / self.columns)))

    def column(self, i: int) -> int:
        return int(self.left + self.width * i // self.columns) * self.grid

    def row(self, j: int) -> int:
        return int(self.bottom + self.height * j // self.rows) * self.grid

    def box(self, i: int, j: int) -> Any:
        return pya.Box(self.column(i), self.row(j), self.column(i + 1), self.row(j + 1))

    def of_band(self, band: int, bands: int) -> list[tuple[int, int]]:
        rows = range(self.rows * band // bands, self.rows * (band + 1) // bands)
        return [(i, j) for j in rows for i in range(self.columns)]
