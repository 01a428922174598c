"""Files of values, their checksums, and folders. A file stands under its name when it is written to its end, and not before."""

import hashlib
import json
import os
from collections.abc import Iterator
from contextlib import contextmanager, suppress
from typing import Any, TextIO

MANY = 1 << 20


def read_text(path: str) -> str:
    with open(path) as file:
        return file.read()


def read_json(path: str) -> Any:
    with open(path) as file:
        return json.load(file)


def read_values(path: str) -> dict[str, Any]:
    """The values of a file by their names; none where it is not there, or is no such file."""
    try:
        values = read_json(path)
        return values if isinstance(values, dict) else {}
    except (OSError, ValueError):
        return {}


def write_json(path: str, value: Any, indent: int | None = 1) -> None:
    with written(path) as file:
        file.write(json.dumps(value, indent=indent) + "\n")


@contextmanager
def written(path: str) -> Iterator[TextIO]:
    """A file to write to; a run that is killed leaves none that is cut off."""
    os.makedirs(os.path.dirname(path) or ".", exist_ok=True)
    with open(path + ".new", "w") as file:
        yield file
    os.replace(path + ".new", path)


def clear(folder: str) -> None:
    """An empty folder, so that no part of an earlier cut stays."""
    os.makedirs(folder, exist_ok=True)
    for name in os.listdir(folder):
        os.remove(os.path.join(folder, name))


def remove(path: str) -> None:
    with suppress(FileNotFoundError):
        os.remove(path)


def sum_of(path: str) -> str:
    """The SHA-256 of a file."""
    found = hashlib.sha256()
    with open(path, "rb") as file:
        while data := file.read(MANY):
            found.update(data)
    return found.hexdigest()


def sum_of_value(value: Any) -> str:
    return hashlib.sha256(json.dumps(value, sort_keys=True).encode()).hexdigest()


def holds(path: str, due: str | None) -> bool:
    """Whether a file is there and has a checksum."""
    try:
        return due is not None and sum_of(path) == due
    except OSError:
        return False
