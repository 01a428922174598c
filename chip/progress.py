"""How far a run is: a bar on a terminal, and off it a line each minute."""

import os
import sys
import time
from typing import NamedTuple

from bound import Run
from manifest import Manifest
from records import STAGES, Part, record_of

WIDE = 30
EVERY = 60.0


class Count(NamedTuple):
    """What is counted at a moment, how many are done, and of how many."""

    what: str
    done: int
    all: int


class Progress:
    """Counts what stands in the folder of a run. The seconds left are told by the speed of the step until now."""

    def __init__(self, run: Run, front: str) -> None:
        self.run, self.front = run, front
        self.on_terminal = sys.stderr.isatty()
        self.said = self.began = time.monotonic()
        self.first = Count("", 0, 0)
        self.left: list[Part] | None = None
        self.parts = 0

    def show(self) -> None:
        now, count = time.monotonic(), self.count()
        if count.what != self.first.what:
            self.first, self.began = count, now
        if self.on_terminal:
            self.renew(f"[{'#' * (WIDE * count.done // count.all):{WIDE}}] {self.line(count)}")
        elif now - self.said >= EVERY:
            self.said = now
            print(f"chip/run: {self.line(count)}", file=sys.stderr, flush=True)

    def end(self) -> None:
        if self.on_terminal:
            self.renew("")

    def renew(self, line: str) -> None:
        print(f"\r\x1b[K{line}", end="", file=sys.stderr, flush=True)

    def line(self, count: Count) -> str:
        done = count.done - self.first.done
        seconds = (time.monotonic() - self.began) / done * (count.all - count.done) if done > 0 else None
        return f"{self.front}{count.done} of {count.all} {count.what}" + ("" if seconds is None else f", {seconds:.0f} seconds left")

    def count(self) -> Count:
        there = [os.path.exists(self.run.path("cut", str(band), "index.json")) for band in range(self.run.chosen.bands)]
        if not all(there) or not os.path.exists(self.run.path("manifest.json")):
            return Count("bands cut", sum(there), len(there))
        if self.left is None:
            self.left = Manifest(self.run).parts
            self.parts = len(self.left)
        self.left = [part for part in self.left if not record_of(self.run, part).keys() >= STAGES.keys()]
        if self.left:
            return Count("parts done", self.parts - len(self.left), self.parts)
        ends = [os.path.exists(self.run.path(name)) for name in ("joined.json", "verdict.txt")]
        return Count("steps of join and verify", sum(ends), len(ends))
