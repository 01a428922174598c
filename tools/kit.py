"""Where the program, its sources and the kit are."""

from __future__ import annotations

import os
import time
from contextlib import contextmanager
from typing import TYPE_CHECKING, Any, Dict, Iterable, Iterator, List, Optional, Sequence

if TYPE_CHECKING:
    import subprocess

TOP = os.path.dirname(os.path.dirname(os.path.realpath(__file__)))
HOME = os.path.join(TOP, "crates", "dpl")
BINARY = os.path.join(HOME, "out", "dpl")
LIST = os.path.join(TOP, "crates.txt")

# of the launcher; those of the program go from 0 to 8
MISUSED, FAILED = 2, 70


class Failed(Exception):
    """Why the launcher has no answer of the program, in one line."""


class Misused(Exception):
    """What is wrong with the launcher's own words, in one line."""


class Ended(Exception):
    """An answer of the program that the launcher gives in its place: its status, its line, and what is wrong in words."""

    def __init__(self, status: int, line: str, said: str = "") -> None:
        super().__init__(line)
        self.status, self.line, self.said = status, line, said


def has_program() -> bool:
    return os.access(BINARY, os.X_OK)


def sources(crates: Optional[Iterable[str]] = None) -> Iterator[os.DirEntry[str]]:
    """The files that the program, or these crates of it, are made from."""
    waiting = [os.path.join(TOP, "crates", name) for name in crates] if crates else [os.path.join(TOP, "crates")]
    while waiting:
        with os.scandir(waiting.pop()) as entries:
            for entry in entries:
                if entry.name.endswith((".rt", ".antt")):
                    yield entry
                elif entry.is_dir() and entry.name not in ("out", "must-fail", "data"):
                    waiting.append(entry.path)


def newest(crates: Optional[Iterable[str]] = None) -> float:
    """When a source, or the list of crates, was last written."""
    return max([os.path.getmtime(LIST), *(file.stat().st_mtime for file in sources(crates))])


def is_old() -> bool:
    """Whether a source is newer than the program; where it is installed there are none."""
    return os.path.exists(LIST) and newest() > os.path.getmtime(BINARY)


def libraries() -> Dict[str, List[str]]:
    """The crates of the program, each behind those that it stands on."""
    below: Dict[str, List[str]] = {}
    with open(LIST, encoding="utf-8") as file:
        for line in file:
            name, colon, words = line.partition("#")[0].partition(":")
            if colon:
                below[name.split()[0]] = words.split()
    found: Dict[str, List[str]] = {}

    def visit(name: str) -> None:
        if name in below and name not in found:
            for other in below[name]:
                visit(other)
            found[name] = [other for other in below[name] if other in below]

    visit("dpl")
    return found


def find_kit() -> None:
    """Fails where the kit is not here, before anything is said of what it does."""
    import shutil

    if not shutil.which("rt"):
        raise Failed("the Rattle kit is not here: there is no command rt, which builds the program")


@contextmanager
def rt(words: Sequence[str], **how: Any) -> Iterator[subprocess.Popen[bytes]]:
    """Runs the kit's command in the program's folder; it ends when the launcher does."""
    import subprocess

    with subprocess.Popen(["rt", *words], cwd=HOME, **how) as process:
        try:
            yield process
        except BaseException:
            process.terminate()
            raise


def hold_standard_files() -> None:
    """Gives each of the three that is closed a file that cannot be read or written, so that no other file takes its number."""
    for file, mode in ((0, os.O_WRONLY), (1, os.O_RDONLY), (2, os.O_RDONLY)):
        try:
            os.fstat(file)
        except OSError:
            os.open(os.devnull, mode)


def tell(text: str) -> None:
    """Writes to the error output, if it takes anything."""
    try:
        os.write(2, text.encode(errors="backslashreplace"))
    except OSError:
        pass


def is_terminal() -> bool:
    return os.isatty(2)


class Line:
    """Says how far something is on the error output: on a terminal in one line that renews itself, else a line at a time."""

    def __init__(self) -> None:
        self.renews, self.began, self.shown = is_terminal(), time.monotonic(), ""

    def tell(self, text: str) -> None:
        """Shows a text that will change soon; elsewhere than on a terminal, nothing."""
        if self.renews and text != self.shown:
            tell(f"\r\033[K{text[: (os.get_terminal_size(2).columns or 80) - 1]}")
            self.shown = text

    def say(self, text: str) -> None:
        """Says a text for good."""
        self.clear()
        tell(f"{text}\n")

    def clear(self) -> None:
        if self.shown:
            tell("\r\033[K")
            self.shown = ""

    def minutes(self) -> float:
        return (time.monotonic() - self.began) / 60
