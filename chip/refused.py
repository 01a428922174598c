"""What a run cannot go on with, told in one line, or in one line each."""

import os
import sys
import traceback
from collections.abc import Callable


class Refused(Exception):
    """Why a run cannot go on, in one line."""


class RefusedAll(Refused):
    """Several reasons, each a line of its own."""

    def __init__(self, lines: list[str]) -> None:
        super().__init__("; ".join(lines))
        self.lines = lines


def is_told(error: BaseException) -> bool:
    """Whether an error says all that is to be known of it; another one is a fault of the step itself."""
    return isinstance(error, (Refused, OSError, RuntimeError))


def said(error: BaseException) -> str:
    return str(error) if is_told(error) else f"a fault of the step itself: {type(error).__name__}: {error}"


def lines_of(error: BaseException) -> list[str]:
    """What an error says, each reason in one line."""
    lines = error.lines if isinstance(error, RefusedAll) else [said(error)]
    return [" ".join(line.split()) for line in lines]


def guard(name: str, work: Callable[[], object]) -> None:
    """Runs the work of a script; what it cannot go on with is one line on the error output, and status 1."""
    try:
        work()
    except Exception as error:
        if not is_told(error):
            traceback.print_exc()
        for line in lines_of(error):
            print(f"{name}: {line}", file=sys.stderr, flush=True)
        # KLayout forgets the status of a SystemExit that is raised here.
        os._exit(1)
