"""The layout that the program reads: from the standard input or a file that is named, so that it can be read again."""

from __future__ import annotations

import os
import stat
from typing import List, Optional

from kit import Ended
from words import escaped

MOST_LAYOUT = 67_108_864


def is_terminal(named: Optional[str]) -> bool:
    """Whether a layout is waited for that somebody types."""
    return named is None and os.isatty(0)


def layout_from(named: Optional[str], is_held: bool) -> None:
    """Makes a file that is named the standard input; what comes through a pipe is held, if asked for, to be read again."""
    if named is not None:
        opened(named)
    if is_held:
        hold_pipe()


def opened(name: str) -> None:
    """Makes a file the standard input."""
    try:
        file = os.open(name, os.O_RDONLY)
    except OSError as error:
        raise Ended(5, "dpl: read fault", f"--input {escaped(name)} cannot be read: {error.strerror}") from error
    if stat.S_ISDIR(os.fstat(file).st_mode):
        raise Ended(5, "dpl: read fault", f"--input {escaped(name)} is a folder, and a layout is wanted")
    os.dup2(file, 0)
    os.close(file)


def hold_pipe() -> None:
    """Reads what comes through a pipe to its end, or as far as the program would, and makes that the standard input."""
    if stat.S_ISREG(os.fstat(0).st_mode) or os.isatty(0):
        return
    held = os.memfd_create("layout")
    with os.fdopen(os.dup(held), "wb") as file:
        file.writelines(layout())
    os.lseek(held, 0, os.SEEK_SET)
    os.dup2(held, 0)
    os.close(held)


def layout() -> List[bytes]:
    """The parts of the layout that the standard input has, as far as the program would read it."""
    try:
        return parts_of(0, MOST_LAYOUT + 1)
    except OSError as error:
        raise Ended(5, "dpl: read fault", why(error)) from error


def why(error: OSError) -> str:
    """Why the standard input gives no layout."""
    if os.environ.get("DPL_INPUT") == "folder":
        return "the standard input is a folder, and a layout is wanted: < FILE"
    return f"the layout, which comes from the standard input, cannot be read: {error.strerror}"


def parts_of(file: int, most: int) -> List[bytes]:
    """What a file has, but no more than so many bytes."""
    parts: List[bytes] = []
    while most > 0:
        part = os.read(file, min(most, 1 << 20))
        if not part:
            break
        parts.append(part)
        most -= len(part)
    return parts


def place() -> Optional[int]:
    """Where the layout begins in a file that can be read again; None for a terminal or a device."""
    try:
        return os.lseek(0, 0, os.SEEK_CUR) if stat.S_ISREG(os.fstat(0).st_mode) else None
    except OSError:
        return None


def again(begins: Optional[int]) -> Optional[bytes]:
    """The layout once more."""
    try:
        return None if begins is None else os.pread(0, MOST_LAYOUT + 1, begins)
    except OSError:
        return None


def scale_of() -> int:
    """How many times as large as its layout the text is."""
    import scale

    begins = place()
    return 1 if begins is None else scale.of(os.pread(0, scale.HEAD, begins))
