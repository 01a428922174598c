"""Proves and builds the program by `rt run`, and says how far that is.

What the kit prints as it goes on differs from state to state, so each line that tells a crate, or functions of one, is
read. A crate counts by the bytes of its sources, and the time left is told by the pace so far.
"""

from __future__ import annotations

import os
import re
import select
import subprocess
from typing import IO, Callable, Iterator, List, Optional, Sequence, Set

import built
import kit
from kit import BINARY, TOP, Failed

BEGINS = re.compile(r"^rt: (?:chose --jobs \d+ for )?(\w+)(?:: begins with .*)?$")
CHECKED = re.compile(r"^checked (\w+)::.*, (\d+) of (\d+)$")
SO_FAR = re.compile(r"^so far: (\d+) of (\d+) functions")
ENDS = re.compile(r"^crate (\w+): modules")
TRIAL = ("load", "--start", "7", "--rows", "2", "--columns", "2")


def is_built(name: str, below: Sequence[str], done: Set[str]) -> bool:
    """Whether an earlier build left the library of a crate, and no source of it or of those below is newer."""
    stamp = os.path.join(TOP, "crates", name, "out", "rlib", "stamp")
    if not os.path.exists(stamp) or not all(other in done for other in below):
        return False
    return os.path.getmtime(stamp) >= kit.newest([name])


class Progress:
    """Which crates are done, and how far the one is that is under way."""

    def __init__(self) -> None:
        self.below = kit.libraries()
        self.size = {name: sum(map(os.path.getsize, kit.sources([name]))) for name in self.below}
        self.done: Set[str] = set()
        self.current, self.part, self.of = "", 0, 0
        for name, below in self.below.items():
            if is_built(name, below, self.done):
                self.done.add(name)
        self.at_first = self.share()

    def share(self) -> float:
        """The share of the work that is done."""
        sizes: float = sum(self.size[name] for name in self.done)
        if self.of and self.current not in self.done:
            sizes += self.size[self.current] * self.part / self.of
        return sizes / sum(self.size.values())

    def read(self, line: str) -> bool:
        """Takes a line of the kit in, and returns whether another crate has begun."""
        checked, so_far, begins, ends = CHECKED.match(line), SO_FAR.match(line), BEGINS.match(line), ENDS.match(line)
        if ends and ends[1] in self.below:
            self.done.add(ends[1])
        elif so_far:
            self.part, self.of = int(so_far[1]), int(so_far[2])
        elif checked or begins:
            name = checked[1] if checked else begins[1] if begins else ""
            is_new = self.begin(name)
            if checked:
                self.part, self.of = int(checked[2]), int(checked[3])
            return is_new
        return False

    def begin(self, name: str) -> bool:
        if name not in self.below or name == self.current:
            return False
        self.current, self.part, self.of = name, 0, 0
        waiting = [name]
        while waiting:
            for other in self.below[waiting.pop()]:
                if other not in self.done:
                    self.done.add(other)
                    waiting.append(other)
        return True

    def said(self, minutes: float) -> str:
        share = self.share()
        functions = f", {self.part} of {self.of} functions" if self.of else ""
        gone = share - self.at_first
        left = f", about {max(1, round(minutes * (1 - share) / gone))} min left" if gone > 0.02 and minutes > 0.5 else ""
        number = min(len(self.done - {self.current}) + 1, len(self.below))
        return f"dpl: {self.current or 'reading the sources'}, crate {number} of {len(self.below)}{functions}, {minutes:.0f} min gone{left}"


def build() -> str:
    """Proves and builds; the old program stays until the new one stands."""
    kit.find_kit()
    progress, line = Progress(), kit.Line()
    last: List[str] = []
    counted = f"{len(progress.below)} crates, {len(progress.done)} of which are kept"
    line.say(f"dpl: proving and building the {counted}; on four processors all take half an hour to an hour")
    line.say("dpl: when this is stopped, dpl build goes on from what the kit has kept")
    with kit.rt(["run", "--", *TRIAL], stdin=subprocess.DEVNULL, stdout=subprocess.PIPE, stderr=subprocess.STDOUT) as process:
        for text in lines_of(process.stdout, lambda: line.tell(progress.said(line.minutes()))):
            last = [*last[-19:], text]
            if progress.read(text) and not line.renews:
                line.say(progress.said(line.minutes()))
    line.clear()
    if process.returncode or not kit.has_program():
        raise Failed("the build did not end well; the last lines of the kit are\n" + "\n".join(last))
    # what the kit found unchanged is not older than its sources
    os.utime(BINARY)
    built.record()
    return f"proved and built in {line.minutes():.0f} min: {os.path.relpath(BINARY)}"


def lines_of(pipe: Optional[IO[bytes]], while_waiting: Callable[[], None]) -> Iterator[str]:
    """The lines that come through a pipe, with a call each second between."""
    rest = b""
    while pipe:
        while_waiting()
        if not select.select([pipe], [], [], 1)[0]:
            continue
        part = os.read(pipe.fileno(), 1 << 16)
        if not part:
            break
        *whole, rest = (rest + part).split(b"\n")
        for text in whole:
            yield text.decode(errors="replace")
    if rest:
        yield rest.decode(errors="replace")
