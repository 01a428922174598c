"""What a settings file asks for, judged as a whole: every fault is told, in a line of its own.

The form of a file is in settings.schema.json. Where it has several layers, each gives one run its settings.
"""

import importlib
import json
import os
from typing import Any

from refused import Refused, RefusedAll

# mypy knows its types on some machines, and on others not.
jsonschema = importlib.import_module("jsonschema")

HERE = os.path.dirname(os.path.abspath(__file__))
SCHEMA = os.path.join(HERE, "settings.schema.json")


def runs_of(path: str) -> list[dict[str, Any]]:
    """The values of each run that a file asks for, with paths from the root; one run for each layer."""
    values = loaded(path)
    with open(SCHEMA) as file:
        schema = json.load(file)
    faults = sorted({line for error in jsonschema.Draft7Validator(schema).iter_errors(values) for line in faults_of(error)})
    if faults:
        raise RefusedAll(faults)
    folder = os.path.dirname(os.path.abspath(path))
    for word in ("layout", "dpl"):
        if values.get(word):
            values[word] = os.path.join(folder, values[word])
    layers = values.pop("layers", None)
    if layers is None:
        return [values]
    return [{**values, **(layer if isinstance(layer, dict) else {"layer": layer})} for layer in layers]


def loaded(path: str) -> Any:
    try:
        with open(path) as file:
            return json.load(file, object_pairs_hook=once, parse_constant=no_number)
    except (OSError, ValueError, RecursionError) as error:
        raise Refused(f"{path}: {error}") from error


def once(pairs: list[tuple[str, Any]]) -> dict[str, Any]:
    words = [word for word, _ in pairs]
    twice = sorted({word for word in words if words.count(word) > 1})
    if twice:
        raise ValueError(f"{', '.join(twice)} stands twice")
    return dict(pairs)


def no_number(text: str) -> None:
    raise ValueError(f"{text} is no number")


def faults_of(error: Any) -> list[str]:
    """What is wrong by one error of the validator."""
    where = "".join(f" {place + 1}" if isinstance(place, int) else f" {place}" for place in error.absolute_path).strip()
    front = f"{where}: " if where else ""
    if not where and not isinstance(error.instance, dict):
        return ["the settings are no object of JSON"]
    if error.validator == "required":
        return [f"{front}{word} is missing" for word in error.validator_value if word not in error.instance]
    if error.validator == "additionalProperties":
        return [f"{front}{word} is no setting" for word in error.instance if word not in error.schema["properties"]]
    if error.validator == "oneOf":
        return ["layer and layers stand both" if "layer" in error.instance else "layer is missing"]
    shown = json.dumps(error.instance)
    shown = shown if len(shown) <= 60 else shown[:57] + ".."
    return [f"{where} is {shown}, and has to be {error.schema.get('description', error.message)}"]
