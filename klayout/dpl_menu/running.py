"""Runs the program beside KLayout: a small window tells for how long, and its button stops it."""

from __future__ import annotations

import subprocess
import tempfile
import time
from typing import IO, Callable, List, Sequence

import pya  # type: ignore[import]

EVERY = 100


class Run(pya.QObject):  # type: ignore[misc]
    """One run; `done` is called with the status, the output and the error output, and not where it is stopped."""

    # a run stays until it is done
    held: List[Run] = []

    def __init__(self, title: str, words: Sequence[str], text: bytes, done: Callable[[int, bytes, str], None]) -> None:
        super().__init__(pya.Application.instance().main_window())
        self.done, self.began = done, time.monotonic()
        self.out, self.told, source = (tempfile.TemporaryFile() for _ in range(3))
        source.write(text)
        source.seek(0)
        self.process = subprocess.Popen(words, stdin=source, stdout=self.out, stderr=self.told)
        source.close()
        self.window = pya.QProgressDialog("dpl is running", "Cancel", 0, 0, pya.Application.instance().main_window())
        self.window.windowTitle = title
        self.window.minimumDuration = 500
        self.timer = pya.QTimer(self)
        self.timer.timeout(self.look)
        self.timer.start(EVERY)
        self.held.append(self)

    def look(self) -> None:
        """Looks whether the program has ended, or is to be stopped."""
        if self.window.wasCanceled:
            self.process.terminate()
            self.process.wait()
            self.end()
        elif self.process.poll() is None:
            self.window.labelText = f"dpl is running, {time.monotonic() - self.began:.0f} s"
        else:
            self.end()
            self.done(self.process.returncode, self.read(self.out), self.read(self.told).decode(errors="replace"))

    def end(self) -> None:
        self.timer.stop()
        self.window.reset()
        self.window.close()
        self.held.remove(self)

    def read(self, file: IO[bytes]) -> bytes:
        file.seek(0)
        return file.read()
