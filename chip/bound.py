"""What a run is bound to: the content of the layout, of the settings and of the program, by their checksums.

They stand in the file `bound.json` of the run's folder before its first step. Each step that reads one of the three sees
that it still is what the run was bound to.
"""

import os
from typing import NamedTuple

from files import read_json, read_values, sum_of, sum_of_value, write_json
from refused import Refused
from settings import Settings, read

SETTINGS, BOUND = "settings.json", "bound.json"


class Bound(NamedTuple):
    """Checksums."""

    layout: str
    settings: str
    dpl: str


def bound_of(chosen: Settings) -> Bound:
    return Bound(sum_of(chosen.layout), sum_of_value(chosen.values), sum_of(chosen.dpl))


def write(folder: str, chosen: Settings, bound: Bound) -> None:
    """Writes settings and checksums, where they are not there already."""
    for name, value in ((SETTINGS, chosen.values), (BOUND, bound._asdict())):
        path = os.path.join(folder, name)
        if read_values(path) != value:
            write_json(path, value)


class Run:
    """A run by its folder: the settings, what it is bound to, and the paths of its files."""

    def __init__(self, folder: str) -> None:
        self.folder = folder
        self.chosen = read(self.path(SETTINGS))
        self.bound = Bound(**read_json(self.path(BOUND)))
        if sum_of_value(self.chosen.values) != self.bound.settings:
            raise Refused("the settings were changed while the run was at work")

    def path(self, *names: str) -> str:
        return os.path.join(self.folder, *names)

    def cut_inputs(self) -> dict[str, str]:
        """What a cut rests on."""
        return {"layout": self.bound.layout, "settings": sum_of_value(self.chosen.bound())}

    def see_layout(self) -> None:
        """Refuses where the layout is another than at the beginning. Called when it has been read."""
        if sum_of(self.chosen.layout) != self.bound.layout:
            raise Refused(f"{self.chosen.layout} was changed while the run was at work")

    def see_dpl(self) -> None:
        if sum_of(self.chosen.dpl) != self.bound.dpl:
            raise Refused(f"{self.chosen.dpl} was changed while the run was at work")
