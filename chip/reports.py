"""What the lines of a report say, and what its boxes are. docs/report.md has the lines."""

import hashlib
import os
import re
from typing import Any

import numpy
from numpy.typing import NDArray

from files import read_text
from refused import Refused

BODY = b"DS 1 1 4;\n"
BOX = re.compile(rb"^B (\d+ \d+ -?\d+ -?\d+);$", re.MULTILINE)
LINE = re.compile(rb"^\((\w+) ([^)]*)\);$", re.MULTILINE)
NUMBERS = ("space", "fragments", "cost", "bound")


class Report:
    """The report of a part in the folder of a run; `refusal` is the line of `dpl` where there is none."""

    def __init__(self, folder: str, part: dict[str, Any]) -> None:
        base = os.path.join(folder, "reports", part["name"])
        self.refusal = read_text(base + ".refusal").strip()
        with open(base + ".cif", "rb") as file:
            self.text = file.read()
        self.sha256 = hashlib.sha256(self.text).hexdigest()
        self.values: dict[str, int] = {}
        self.letters = b""
        self.cuts: list[list[int]] = []
        self.clashes: list[list[int]] = []
        at = self.text.find(BODY)
        self.body = self.text[at:] if at >= 0 else b""
        self.read(self.text[: max(at, 0)])
        if not self.refusal and (not self.text.endswith(b"\nE\n") or not set(NUMBERS) <= set(self.values)):
            raise Refused("its report is cut off, or is none")

    def read(self, head: bytes) -> None:
        for word, rest in LINE.findall(head):
            if word == b"masks":
                self.letters = rest
            elif word == b"cut":
                self.cuts.append([int(number) for number in rest.split()])
            elif word == b"clash":
                self.clashes.append([int(number) for number in rest.split()])
            elif word not in (b"layer", b"keep", b"aside", b"cycle"):
                self.values[word.decode()] = int(rest)

    def answer(self) -> str:
        """What `dpl check` says where it is good."""
        return "refused" if self.refusal else f"yes cost {self.values['cost']} bound {self.values['bound']}"

    def zones(self) -> list[list[int]]:
        """The zones that both masks hold, as corners in grid units."""
        return [cut[3:7] for cut in self.cuts]

    def fragments(self) -> NDArray[numpy.int64]:
        """The corners of each fragment in grid units. Each mask lists its fragments first, in their order."""
        letters = numpy.frombuffer(self.letters, numpy.uint8)
        rects = numpy.zeros((len(letters), 4), numpy.int64)
        for letter, lines in zip(b"AB", self.body.split(b"\nL ")[1:3]):
            found = boxes_of(lines)
            own = numpy.flatnonzero(letters == letter)[: len(found)]
            rects[own] = found[: len(own)]
        return rects


def boxes_of(lines: bytes) -> NDArray[numpy.int64]:
    """The corners of the boxes of a text."""
    numbers = numpy.fromstring(b" ".join(BOX.findall(lines)), numpy.int64, sep=" ")
    length, width, x, y = numbers.reshape(-1, 4).T
    return numpy.array((2 * x - length, 2 * y - width, 2 * x + length, 2 * y + width)).T // 4
