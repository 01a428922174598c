"""Whether the parts of a manifest are those that were cut, and whether their files are those that were written."""

from collections import Counter

from bound import Run
from files import holds, read_json, read_text
from found import Found
from manifest import Manifest
from records import Part, faults_of, path_of
from refused import Refused
from reports import Report


def cut_faults(run: Run, manifest: Manifest) -> list[Found]:
    """Parts that stand twice, are missing, or are others than those that were cut."""
    names = Counter(manifest.names())
    cut = {part["name"]: part for part in cut_parts(run)}
    faults = [Found(f"it stands {count} times in the manifest", name) for name, count in names.items() if count > 1]
    faults += [Found("it is missing in the manifest", name) for name in cut.keys() - names.keys()]
    return faults + [Found("it is not as it was cut", part["name"]) for part in manifest.parts if cut.get(part["name"]) != part]


def cut_parts(run: Run) -> list[Part]:
    bands = [*map(str, range(run.chosen.bands)), "border"]
    return [part for band in bands for part in read_json(run.path("cut", band, "index.json"))["parts"]]


def part_faults(run: Run, part: Part) -> list[Found]:
    """What of a part's files is not what was written and checked."""
    faults = [] if holds(run.path("cut", part["name"] + ".cif"), part["sha256"]) else ["its text is not the one that was cut"]
    faults += faults_of(run, part)
    try:
        due, said = Report(run.folder, part).answer(), read_text(path_of(run, "check", part)).strip()
        if said != due:
            faults.append(said if said.startswith("dpl: ") else f"the check says {said!r}, and its report {due!r}")
    except (Refused, OSError, ValueError) as error:
        faults.append(str(error))
    return [Found(fault, part["name"]) for fault in faults]
