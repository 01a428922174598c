"""Takes out of a run's folder what does not rest on what is there now, so that it is done anew. No file time is believed.

What is taken out is the file that a rule of `Snakefile` looks for; what is good below it is found by its record again.
"""

import os
from collections.abc import Iterator

from bound import Run
from files import holds, read_text, read_values, remove, sum_of
from history import cut_faults
from manifest import Manifest
from records import STAGES, Part, changed_files, is_of, record_of, record_path, write_record

ANEW = "and is made anew"


def sweep(run: Run) -> list[str]:
    """Removes what is stale; a line tells of each file that was changed since it was written."""
    said = [line for look in (stale_batches, stale_manifest, stale_cut, stale_ends) for line in look(run)]
    remove_above(run)
    return said


def stale_cut(run: Run) -> Iterator[str]:
    """Bands whose layout or settings were others, or of whose files one was changed."""
    for band in range(run.chosen.bands):
        path = run.path("cut", str(band), "index.json")
        index = read_values(path)
        if index.get("inputs") != run.cut_inputs():
            remove(path)
            continue
        faults = list(changed_texts(run, index["parts"]))
        if not holds(run.path("cut", str(band), "crossing.json"), index["crossing"]):
            faults.append(f"cut/{band}/crossing.json was changed")
        yield from taken_out(path, faults)


def stale_manifest(run: Run) -> Iterator[str]:
    path = run.path("manifest.json")
    indices = [run.path("cut", str(band), "index.json") for band in range(run.chosen.bands)]
    values = read_values(path)
    if not all(map(os.path.exists, indices)) or values.get("inputs") != {**run.bound._asdict(), "cut": list(map(sum_of, indices))}:
        remove(path)
        return
    manifest = manifest_of(run)
    faults = [f"part {fault.part}: {fault.what}" for fault in cut_faults(run, manifest)] if manifest else []
    faults += changed_texts(run, [part for part in values["parts"] if part["name"].startswith("border/")])
    yield from taken_out(path, faults)


def stale_batches(run: Run) -> Iterator[str]:
    manifest = manifest_of(run)
    if manifest is None:
        return
    for name in present(run.path("batches")) - batch_names(manifest):
        remove(run.path("batches", name))
    for number in range(manifest.batches()):
        path = run.path("batches", f"{number}.json")
        known = read_values(path)
        for part in manifest.parts_of(number):
            yield from trimmed(run, part)
            if not record_of(run, part).keys() >= STAGES.keys() or not holds(record_path(run, part), known.get(part["name"])):
                remove(path)


def trimmed(run: Run, part: Part) -> Iterator[str]:
    """Takes out of a part's record what is not of the content that is there now, and tells what was changed since."""
    record = record_of(run, part)
    for stage in [stage for stage in STAGES if stage in record]:
        changed = changed_files(run, part, stage, record) if is_of(run, part, stage, record) else []
        yield from (f"part {part['name']}: {file} was changed, {ANEW}" for file in changed)
        if changed or not is_of(run, part, stage, record):
            del record[stage]
            write_record(run, part, record)


def stale_ends(run: Run) -> Iterator[str]:
    """What is made of all parts: masks, table and markers."""
    path = run.path("joined.json")
    sums = read_values(path)
    files = {"masks": "joined" + os.path.splitext(run.chosen.masks)[1], "table": "table.txt"}
    if sums:
        yield from taken_out(path, [f"{file} was changed" for word, file in files.items() if not holds(run.path(file), sums.get(word))])
    path = run.path("markers.lyrdb")
    if os.path.exists(path) and not holds(path, text_of(run.path("markers.sum"))):
        yield from taken_out(path, ["markers.lyrdb was changed"])


def remove_above(run: Run) -> None:
    """Removes what is made of files that are not there, since Snakemake makes those anew only where what is above is missing."""
    if not all(os.path.exists(run.path("cut", str(band), "index.json")) for band in range(run.chosen.bands)):
        remove(run.path("manifest.json"))
    manifest = manifest_of(run)
    names = batch_names(manifest) if manifest else set()
    for name in present(run.path("batches")) - names:
        remove(run.path("batches", name))
    if manifest is None or names - present(run.path("batches")):
        for name in ("joined.json", "markers.lyrdb"):
            remove(run.path(name))


def manifest_of(run: Run) -> Manifest | None:
    """The manifest; one that cannot be read is taken out."""
    try:
        return Manifest(run)
    except (OSError, ValueError, KeyError, TypeError):
        remove(run.path("manifest.json"))
        return None


def batch_names(manifest: Manifest) -> set[str]:
    return {f"{number}.json" for number in range(manifest.batches())}


def changed_texts(run: Run, parts: list[Part]) -> Iterator[str]:
    for part in parts:
        if not holds(run.path("cut", part["name"] + ".cif"), part["sha256"]):
            yield f"part {part['name']}: its text was changed"


def taken_out(path: str, faults: list[str]) -> Iterator[str]:
    """Removes a file where there are faults, and tells them."""
    if faults:
        remove(path)
    yield from (f"{fault}, {ANEW}" for fault in faults)


def text_of(path: str) -> str:
    return read_text(path).strip() if os.path.exists(path) else ""


def present(folder: str) -> set[str]:
    return set(os.listdir(folder)) if os.path.isdir(folder) else set()
