"""Answers by the sources without their proofs, where no proved program stands: `rt try` compiles and runs them.

Its standard input must not pause, and it gives no answer past 1 MiB; so the launcher reads the layout to its end first,
as far as the program would, and writes the answer itself.
"""

from __future__ import annotations

import os
import re
import subprocess
import tempfile
from typing import Sequence, Tuple

import words as command_line
from given_layout import MOST_LAYOUT, parts_of
from kit import Ended, Failed, Line, rt

SECONDS = 900
WITHOUT = "the sources without their proofs give no answer to this"

ENDED = re.compile(rb"^run=ended status=(\d+) ", re.M)
REASON = re.compile(r"^checked: no-answer: (.*)$", re.M)


def read_named(name: str, most: int) -> bytes:
    """The bytes of a file that an option names, at most one more than the program would take."""
    try:
        file = os.open(name, os.O_RDONLY)
        try:
            return b"".join(parts_of(file, most + 1))
        finally:
            os.close(file)
    except OSError as error:
        raise Ended(5, "dpl: read fault", f"{command_line.escaped(name)} cannot be read: {error.strerror}") from error


def answer(words: Sequence[str], layout: bytes, line: Line) -> Tuple[int, bytes, bytes]:
    """The program's status, output and error output, by the sources without their proofs."""
    with tempfile.TemporaryDirectory(prefix="dpl-") as folder:
        flags, given = ["--seconds", str(SECONDS)], list(words[:1])
        for name, value in command_line.given_in(words[1:])[0]:
            option = command_line.OPTIONS[name]
            if option.shown == "FILE":
                # a layout that is too long is refused before a file that is named is opened
                if len(layout) <= MOST_LAYOUT:
                    with open(f"{folder}/{name}", "wb") as file:
                        file.write(read_named(value, option.most))
                    flags += ["--data", f"{name}.given={folder}/{name}"]
                value = f"{name}.given"
            given.append(f"--{name}={value}")
        return run([*flags, "--", *given], layout, folder, line)


def run(words: Sequence[str], layout: bytes, folder: str, line: Line) -> Tuple[int, bytes, bytes]:
    with open(f"{folder}/layout", "w+b") as source, open(f"{folder}/out", "w+b") as out, open(f"{folder}/told", "w+b") as told:
        source.write(layout)
        source.seek(0)
        with rt(["try", *words], stdin=source, stdout=out, stderr=told) as process:
            wait(process, line)
        out.seek(0)
        told.seek(0)
        return judged(out.read(), told.read())


def wait(process: subprocess.Popen[bytes], line: Line) -> None:
    while True:
        line.tell(f"dpl: compiling and running, {60 * line.minutes():.0f} s")
        try:
            process.wait(1)
            break
        except subprocess.TimeoutExpired:
            continue
    line.clear()


def judged(out: bytes, told: bytes) -> Tuple[int, bytes, bytes]:
    """The program's status, output and error line, out of what `rt try` says."""
    ended = ENDED.search(told)
    if ended:
        return int(ended[1]), out, b"".join(it for it in told.splitlines(True) if it.startswith(b"dpl: "))
    said = told.decode(errors="replace")
    reason = REASON.search(said)
    why = reason[1] if reason else "\n".join(said.splitlines()[-8:])
    bounds = f"{SECONDS // 60} minutes and 1 MiB are the most"
    raise Failed(f"{WITHOUT} ({bounds}); dpl build makes the program, which has no such bound. The kit says: {why}")
