"""Runs `dpl` on one part. A refusal is an answer and is kept; whatever else goes wrong fails, to be tried again."""

import os
import subprocess

from bound import Run
from files import read_text, remove
from program import plainly
from records import Part, path_of
from refused import Refused

# The statuses of `dpl` that are refusals, and those of `dpl check` that are answers.
REFUSALS, ANSWERS = (3, 4), (0, 1)


def split(run: Run, part: Part) -> None:
    """Writes the report of a part, or its refusal; of the two one is empty. Then what `dpl check` says of the report."""
    report, refusal, check = (path_of(run, what, part) for what in ("report", "refusal", "check"))
    for path in (report, refusal, check):
        os.makedirs(os.path.dirname(path), exist_ok=True)
        remove(path)
    status = dpl(run, part, [run.chosen.command], report + ".new", refusal + ".new")
    if status != 0 and status not in REFUSALS:
        fail(run.chosen.command, status, refusal + ".new")
    open(report + ".new" if status else refusal + ".new", "w").close()
    os.replace(report + ".new", report)
    os.replace(refusal + ".new", refusal)
    if status:
        with open(check + ".new", "w") as file:
            file.write("refused\n")
    else:
        status = dpl(run, part, ["check", "--report", report], check + ".new", check + ".new")
        if status not in ANSWERS:
            fail("check", status, check + ".new")
    os.replace(check + ".new", check)


def dpl(run: Run, part: Part, words: list[str], output: str, errors: str) -> int:
    """Runs a command of `dpl` on a part."""
    with open(run.path("cut", part["name"] + ".cif"), "rb") as layout, open(output, "wb") as out:
        with open(errors, "wb") if errors != output else open(os.dup(out.fileno()), "wb") as err:
            done = subprocess.run([run.chosen.dpl, words[0], *run.chosen.options(), *words[1:]], stdin=layout, stdout=out, stderr=err, env=plainly())
    return done.returncode


def fail(command: str, status: int, said: str) -> None:
    raise Refused(f"dpl {command} ended with status {status}: {read_text(said).strip()}")
