"""What the tests share: where the tools are, how one is run, and files to run it on."""

from __future__ import annotations

import os
import subprocess
import sys
from typing import NamedTuple, Optional

TOOLS = os.path.dirname(os.path.dirname(os.path.abspath(__file__)))
TOP = os.path.dirname(TOOLS)
SAMPLES = os.path.join(TOP, "samples")
LAYOUT, REPORT = os.path.join(SAMPLES, "stitch.cif"), os.path.join(SAMPLES, "stitch.out")
SECONDS = 120

if TOOLS not in sys.path:
    sys.path.insert(0, TOOLS)


class Ran(NamedTuple):
    """How a program ended, and what it wrote."""

    status: int
    out: bytes
    told: str


def ran(*words: str, given: bytes = b"", folder: Optional[str] = None, **settings: str) -> Ran:
    """Runs a program with a standard input."""
    done = subprocess.run(
        words, input=given, capture_output=True, timeout=SECONDS, cwd=folder, env={**os.environ, **settings}, check=False
    )
    return Ran(done.returncode, done.stdout, done.stderr.decode())


def tool(name: str, *words: str, folder: Optional[str] = None) -> Ran:
    return ran(sys.executable, os.path.join(TOOLS, name), *words, folder=folder)


def bytes_of(path: str) -> bytes:
    with open(path, "rb") as file:
        return file.read()
