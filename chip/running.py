"""One layer's run, from the settings to the verdict."""

import glob
import os
import re
import signal
import subprocess
import sys
from typing import Any

import bound
from bound import Run
from files import read_text, read_values, remove
from program import see_program
from progress import Progress
from refused import Refused, RefusedAll
from settings import Settings
from stale import sweep
from verdict import FAULTS, STATUS, VERDICT, masks_name, said_in, word_of

HERE = os.path.dirname(os.path.abspath(__file__))
LOG = "run.log"
# What a step says when it cannot go on.
SAID = re.compile(r"^(?:settings|cut|pack|part|join|markers|verify): .*$", re.MULTILINE)
SHOWN = 20
POLL = 0.5


def prepared(values: dict[str, Any], folder: str) -> Run:
    """A run whose settings, program and layers have been looked at."""
    chosen = Settings(values, "/")
    see_program(chosen)
    if not os.path.isfile(chosen.layout):
        raise Refused(f"layout is {chosen.layout}, and no file is there")
    refuse_inside(chosen.layout, folder)
    os.makedirs(folder, exist_ok=True)
    forget_verdict(folder, chosen.masks)
    bound.write(folder, chosen, bound.bound_of(chosen))
    look = [os.path.join(HERE, "klayout"), "look.py", f"folder={folder}"]
    done = subprocess.run(look, stdout=sys.stderr, stderr=subprocess.PIPE, text=True)
    if done.returncode:
        said = [line.removeprefix("settings: ") for line in SAID.findall(done.stderr)]
        raise RefusedAll(said or done.stderr.splitlines()[-1:])
    return Run(folder)


def refuse_inside(path: str, folder: str) -> None:
    """Refuses a file of the user where a run writes its own, and takes others away."""
    if os.path.dirname(os.path.realpath(path)) == os.path.realpath(folder):
        raise Refused(f"{path} lies in the folder of the run: give the run another one")


def forget_verdicts(folder: str) -> None:
    """Takes out of a folder, and of those of its layers, what earlier runs say there, also of other layers and by other names."""
    for path in [folder, *(entry.path for entry in os.scandir(folder) if entry.is_dir())]:
        before = read_values(os.path.join(path, bound.SETTINGS))
        if before:
            forget_verdict(path, str(before.get("masks")))


def forget_verdict(folder: str, masks: str) -> None:
    """Takes a verdict out of a folder, and the names that masks have by it."""
    for name in [VERDICT, *(masks_name(masks, word) for word in STATUS)]:
        remove(os.path.join(folder, name))


def done(run: Run, front: str, words: list[str], locks: list[int]) -> str:
    """Carries a run out, and gives the word of its verdict; what is said begins with a front."""
    for line in sweep(run):
        tell(front + line)
    for path in glob.glob(run.path(".snakemake", "slurm-*.log")):
        remove(path)
    steps(run, front, words, locks)
    if not os.path.exists(run.path(VERDICT)):
        tell(f"{front}not finished, and there is no verdict; {run.path(LOG)} has all that was said")
        for line in reasons(run):
            tell(front + line)
        return FAULTS
    text = read_text(run.path(VERDICT))
    print(front + ("\n" if front else "") + read_text(run.path("table.txt")).partition("\n\n")[2] + said_in(text), flush=True)
    return word_of(text)


def tell(line: str) -> None:
    print(f"chip/run: {line}", file=sys.stderr, flush=True)


def steps(run: Run, front: str, words: list[str], locks: list[int]) -> None:
    """Runs Snakemake, which holds the locks with this process, and shows how far it is."""
    command = ["snakemake", "--snakefile", os.path.join(HERE, "Snakefile"), "--directory", run.folder, "--nolock", "--rerun-incomplete"]
    command += ["--keep-going", "--scheduler", "greedy", "--quiet", "rules", *words]
    progress = Progress(run, front)
    with open(run.path(LOG), "w") as log:
        work = subprocess.Popen(command, stdin=subprocess.DEVNULL, stdout=log, stderr=log, pass_fds=locks)
        signal.signal(signal.SIGTERM, lambda *_: work.terminate())
        while True:
            try:
                work.wait(POLL)
                break
            except subprocess.TimeoutExpired:
                progress.show()
            except KeyboardInterrupt:
                # Snakemake has it too, and ends its jobs.
                work.wait()
                break
    progress.end()


def reasons(run: Run) -> list[str]:
    """What the steps said, each reason once, or else the end of the log."""
    logs = [run.path(LOG), *sorted(glob.glob(run.path(".snakemake", "slurm-*.log")))]
    said = "".join(read_text(path) for path in logs if os.path.exists(path))
    found = list(dict.fromkeys(SAID.findall(said))) or said.splitlines()[-3:]
    more = [f"and {len(found) - SHOWN} more"] if len(found) > SHOWN else []
    return found[:SHOWN] + more
