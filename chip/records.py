"""What was done of a part: from which content, and what came out, by checksums. A file `done/PART.json` for each."""

import os
from typing import Any

from bound import Run
from files import holds, read_values, write_json

Part = dict[str, Any]
# The files of a part, of each stage: what `dpl` says of it, and what is seen beside.
STAGES = {
    "split": {"report": "reports/{}.cif", "refusal": "reports/{}.refusal", "check": "checks/{}.txt"},
    "seen": {"marks": "marks/{}.items", "notches": "notches/{}.json", "near": "near/{}.json"},
}
FILES = {name: pattern for files in STAGES.values() for name, pattern in files.items()}


def path_of(run: Run, what: str, part: Part) -> str:
    return run.path(FILES[what].format(part["name"]))


def record_path(run: Run, part: Part) -> str:
    return run.path("done", part["name"] + ".json")


def inputs_of(run: Run, part: Part, stage: str, record: Part) -> Part:
    """What a stage of a part rests on."""
    chosen = run.chosen
    if stage == "split":
        return {"part": part["sha256"], "dpl": run.bound.dpl, "command": [chosen.command, *chosen.options()]}
    return {
        "layout": run.bound.layout,
        "part": [part["name"], part["bounds"]],
        "settings": [*map(str, (chosen.layer, chosen.top, chosen.grid, chosen.space)), chosen.markers],
        **record.get("split", {}).get("sums", {}),
    }


def record_of(run: Run, part: Part) -> Part:
    """The record of a part by its stages; an empty one where there is none that can be read."""
    record = read_values(record_path(run, part))
    return {stage: known for stage, known in record.items() if isinstance(known, dict)}


def write_record(run: Run, part: Part, record: Part) -> None:
    write_json(record_path(run, part), record)


def is_of(run: Run, part: Part, stage: str, record: Part) -> bool:
    """Whether a stage was done from what is there now."""
    return bool(record.get(stage, {}).get("inputs") == inputs_of(run, part, stage, record))


def changed_files(run: Run, part: Part, stage: str, record: Part) -> list[str]:
    """The files of a stage that are not those which the record names."""
    sums = record.get(stage, {}).get("sums", {})
    paths = {name: path_of(run, name, part) for name in STAGES[stage]}
    return [os.path.relpath(path, run.folder) for name, path in paths.items() if not holds(path, sums.get(name))]


def faults_of(run: Run, part: Part) -> list[str]:
    """What of a part's files is not what was written for it."""
    record = record_of(run, part)
    faults = [f"its {stage} rests on other inputs" for stage in STAGES if not is_of(run, part, stage, record)]
    faults += [f"{file} is not the file that was written" for stage in STAGES for file in changed_files(run, part, stage, record)]
    return faults if record else ["it has no record of what was done"]
