"""What the program was built of: the commit, as `./dpl build` records it beside the program, with the program's checksum."""

from __future__ import annotations

import hashlib
import json
import os
import shutil
import subprocess
import time
from typing import Optional

import kit
from kit import BINARY, TOP

RECORD = os.path.join(os.path.dirname(BINARY), "built.json")


def commit() -> Optional[str]:
    """The commit that stands in the repository, with a word where the sources differ from it."""
    if not shutil.which("git"):
        return None
    words = ["git", "-C", TOP, "describe", "--always", "--dirty", "--exclude", "*"]
    found = subprocess.run(words, capture_output=True, text=True, check=False)
    return found.stdout.strip() if not found.returncode else None


def checksum() -> str:
    with open(BINARY, "rb") as file:
        return hashlib.sha256(file.read()).hexdigest()


def record() -> None:
    """Records what the program that stands was built of."""
    with open(f"{RECORD}.new", "w", encoding="ascii") as file:
        json.dump({"commit": commit(), "sha256": checksum(), "at": time.strftime("%Y-%m-%d %H:%M")}, file)
    os.replace(f"{RECORD}.new", RECORD)


def told() -> str:
    """What is known of the program that stands."""
    if not kit.has_program():
        return "none yet; dpl build proves and builds it"
    is_old = ", and a source is newer" if kit.is_old() else ""
    try:
        with open(RECORD, encoding="ascii") as file:
            known = json.load(file)
        if known["sha256"] == checksum():
            return f"proved and built of commit {known['commit'] or 'unknown'}, {known['at']}{is_old}"
    except (OSError, ValueError, KeyError, TypeError):
        pass
    return f"not put here by dpl build, so nothing is known of what it was built of{is_old}"


def version() -> str:
    named = "none here"
    if shutil.which("rt"):
        named = subprocess.run(["rt", "version"], capture_output=True, text=True, check=False).stdout.strip()
    stands = commit() if os.path.exists(kit.LIST) else None
    return f"dpl {stands or 'of no commit'}; writes reports of version 2, reads versions 1 and 2\nprogram: {told()}\nkit: {named}"
