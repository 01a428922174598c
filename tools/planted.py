"""Mutants: edits of the sources that a proof must refuse, those that the gate tries and those that it leaves out.

A file of one names a source, and lines of it with what stands there instead:

    file: src/lib.rt
    old: TEXT
    new: TEXT
"""

from __future__ import annotations

import glob
import os
from typing import Iterator, List

from kit import TOP

FOLDERS = ("must-fail", "mutants")
FILE, OLD, NEW = "file: ", "old: ", "new: "


def planted() -> List[str]:
    """The files of all mutants."""
    return sorted(path for folder in FOLDERS for path in glob.glob(os.path.join(TOP, "crates", "*", folder, "*.edit")))


def lines_of(path: str) -> List[str]:
    with open(path, encoding="utf-8") as file:
        return file.read().splitlines()


def source_of(path: str, line: str) -> str:
    """The text of the source that a line names, in the crate of the mutant; empty where it is not there."""
    source = os.path.join(os.path.dirname(os.path.dirname(path)), line[len(FILE) :].strip())
    if not os.path.isfile(source):
        return ""
    with open(source, encoding="utf-8") as file:
        return file.read()


def misfits(path: str) -> Iterator[str]:
    """Why a mutant cannot be planted any more: each of its old texts must stand once in the source."""
    text, old = "", ""
    for line in lines_of(path):
        if line.startswith(FILE):
            text = source_of(path, line)
            if not text:
                yield f"there is no {line[len(FILE):].strip()}"
        elif line.startswith(OLD):
            old = line[len(OLD) :]
            if text.count(old) != 1:
                yield f"stands {text.count(old)} times: {old.strip()}"
        elif line.startswith(NEW):
            text = text.replace(old, line[len(NEW) :])


def all_misfits() -> List[str]:
    return [f"{os.path.relpath(path, TOP)}: {why}" for path in planted() for why in misfits(path)]
