"""The manifest of a cut: its parts, and the batches in which jobs take them."""

import re
from typing import Any

from bound import Run
from files import read_json

Part = dict[str, Any]


class Manifest:
    def __init__(self, run: Run) -> None:
        self.values = read_json(run.path("manifest.json"))
        self.parts: list[Part] = self.values["parts"]
        self.cell = cell_name(self.values["cell"])
        self.size = run.chosen.in_job(len(self.parts))

    def names(self) -> list[str]:
        return [part["name"] for part in self.parts]

    def batches(self) -> int:
        return -(-len(self.parts) // self.size)

    def parts_of(self, number: int) -> list[Part]:
        return self.parts[number * self.size : (number + 1) * self.size]


def cell_name(name: str) -> str:
    """The name of a layout's cell as the masks have it: without what KLayout writes as something else, and not as of a part."""
    return re.sub("[^!-~]|^(?=PART_)", "_", name)
