"""Whether a program is `dpl`, and has a command."""

import os
import subprocess

from refused import Refused
from settings import Settings


def plainly() -> dict[str, str]:
    """The environment in which the launcher says no more than the program does."""
    return {**os.environ, "DPL_WORDS": "0"}


def see_program(chosen: Settings) -> None:
    """Refuses a run whose program is none, or lacks a command that the run needs."""
    if not os.path.isfile(chosen.dpl):
        built = "" if chosen.values["dpl"] else ": ./dpl build makes it"
        raise Refused(f"dpl is {chosen.dpl}, and no program is there{built}")
    for command in (chosen.command, "check"):
        said = answer(chosen.dpl, command)
        if said == "dpl: usage 1":
            raise Refused(f"dpl is {chosen.dpl}, and has no command {command}")
        if not said.startswith("dpl: usage "):
            raise Refused(f"dpl is {chosen.dpl}, and does not answer as dpl does")


def answer(program: str, command: str) -> str:
    """What a program says of a command without options."""
    try:
        done = subprocess.run(
            [program, command], stdin=subprocess.DEVNULL, capture_output=True, text=True, errors="replace", timeout=60, env=plainly()
        )
    except (OSError, subprocess.TimeoutExpired) as error:
        raise Refused(f"dpl is {program}, which cannot be run: {error}") from error
    return done.stderr.strip()
