"""What guards a definition, or a field of a record: laws, contracts, tests and mutants, which name it or reach it.

A law or a contract names the definitions that its clauses have, and reaches those that these call. What the page cites is a law
too, though its body reads a range. A test names what the contracts of the functions name that it calls, and a mutant the
definition that it changes, or, where it changes a function, what the function's contract names; both reach what these call
in their own crates, since there the contract says it.

A law guards a field of a record that its clauses name, or of one that they reach where what they reach names the field. A test
or a mutant guards the fields of each record that it names or reaches.
"""

from __future__ import annotations

import functools
import os
import re
from typing import Collection, Dict, Iterable, Iterator, List, NamedTuple, Set, Tuple

from definitions import TOP, Function, Place, all_sources, crate_of, module, reached, reached_within, source, words_in
from planted import FILE, OLD, lines_of, planted

KINDS = ("law", "contract", "test", "mutant")
FIELD_KINDS = ("law", "test", "mutant")
SHOWN = 3


class Guard(NamedTuple):
    """A law, a contract, a test or a mutant, with what it names and what it reaches besides."""

    kind: str
    name: str
    named: Set[Place]
    found: Set[Place]


class Field(NamedTuple):
    """A field of a record."""

    record: Place
    name: str


def title(one: Function) -> str:
    return f"{crate_of(one.path)}::{one.name}"


def contracts() -> Dict[Tuple[str, str], Set[Place]]:
    """What the contract of each function names, by its file and its name."""
    return {
        (of.path, one.name): {place for place in of.named(one.contract()) if not place.is_type}
        for of in all_sources()
        for one in of.functions.values()
    }


def all_guards(cited: Collection[Tuple[str, str]]) -> Iterator[Guard]:
    """The guards; these functions are laws too, by their files and names, though they have a body that reads a range."""
    known = contracts()
    by_name: Dict[str, List[Tuple[str, str]]] = {}
    for path, name in known:
        by_name.setdefault(name, []).append((path, name))
    for of in all_sources():
        for one in of.functions.values():
            named = known[of.path, one.name]
            if one.is_test:
                yield by_crates("test", title(one), called(of.path, one, known, by_name))
            elif one.is_public and named:
                is_law = one.is_law or (one.path, one.name) in cited
                yield Guard("law" if is_law else "contract", title(one), named, reached(named)[0])
    for path in planted():
        yield by_crates("mutant", os.path.relpath(path, os.path.join(TOP, "crates")), changed(path, known))


def by_crates(kind: str, name: str, named: Set[Place]) -> Guard:
    """A guard that reaches no further than the crates of what it names."""
    return Guard(kind, name, named, {other for place in named for other in reached_within(place)})


def called(path: str, test: Function, known: Dict[Tuple[str, str], Set[Place]], by_name: Dict[str, List[Tuple[str, str]]]) -> Set[Place]:
    """What the contracts of the functions name that a test calls, also by functions of its own file, in crates that it imports."""
    found: Set[Place] = set()
    seen: Set[str] = set()
    left = [test.body]
    own = source(path).functions
    crates = set(re.findall(r"\bdpl_\w+(?=::)", source(path).text))
    while left:
        for word in set(words_in(left.pop().replace(".", " ").replace("::", " "))) - seen:
            seen.add(word)
            if word in own and not own[word].is_test:
                left.append(own[word].body)
            for other in by_name.get(word, ()):
                if crate_of(other[0]) in crates and not known[other] <= found:
                    found |= known[other]
    return found


def changed(path: str, known: Dict[Tuple[str, str], Set[Place]]) -> Set[Place]:
    """The definitions that a mutant changes, or that the contract of a function names in which it changes a line."""
    found: Set[Place] = set()
    file = ""
    for line in lines_of(path):
        if line.startswith(FILE):
            file = os.path.join(os.path.dirname(os.path.dirname(path)), line[len(FILE) :].strip())
        elif line.startswith(OLD):
            found |= touched(os.path.relpath(file, TOP), line[len(OLD) :], known)
    return found


def touched(path: str, text: str, known: Dict[Tuple[str, str], Set[Place]]) -> Set[Place]:
    if path.endswith(".antt"):
        return {Place(path, name) for name, block in module(path).blocks.items() if text in "\n".join(block)}
    own = source(path).functions.values()
    return {place for one in own if text in one.head + one.body for place in known[path, one.name]}


def listed(places: Iterable[Place], top: str, cited: Collection[Tuple[str, str]]) -> List[str]:
    """A line for each definition, and one for each kind of guard that it has; the contract of the top call reaches them all."""
    guards = sorted((guard for guard in all_guards(cited) if guard.name != top), key=lambda guard: len(guard.found))
    fields = of_fields(places, guards)
    lines: List[str] = []
    for place in sorted(places):
        lines.append(f"{place.name} of {place.path}")
        lines += guarding(place, guards) or [f"    nothing but {top}, and so the samples"]
        lines += [f"    its field {name}: {told_of(fields[Field(place, name)])}" for name in module(place.path).fields(place.name)]
    return [*lines, summary(set(places), guards), field_summary(fields)]


@functools.lru_cache(None)
def mentioned(place: Place) -> Set[str]:
    """The fields that a definition reads or gives, by their names: what stands behind a dot or before an equals sign."""
    pairs = re.findall(r"\.(\w+)|\b(\w+)(?= =)", "\n".join(module(place.path).code(place.name)))
    return {word for pair in pairs for word in pair if word}


def guarded_fields(guard: Guard, records: Iterable[Place]) -> Set[Field]:
    """The fields of these records that a law, a test or a mutant guards."""
    if guard.kind == "contract":
        return set()
    words = set().union(*map(mentioned, guard.found)) if guard.kind == "law" else set()
    return {
        Field(place, name)
        for place in records
        if place in guard.named or place in guard.found
        for name in module(place.path).fields(place.name)
        if guard.kind != "law" or place in guard.named or name in words
    }


def of_fields(places: Iterable[Place], guards: Iterable[Guard]) -> Dict[Field, List[Guard]]:
    """The guards of each field of the records among these definitions."""
    records = [place for place in sorted(places) if module(place.path).fields(place.name)]
    found: Dict[Field, List[Guard]] = {Field(place, name): [] for place in records for name in module(place.path).fields(place.name)}
    for guard in guards:
        for field in guarded_fields(guard, records):
            found[field].append(guard)
    return found


def told_of(found: Iterable[Guard]) -> str:
    """The guards of a field, some of each kind."""
    parts: List[str] = []
    for kind in KINDS:
        names = [guard.name for guard in found if guard.kind == kind]
        if names:
            parts.append(f"{kind} {', '.join(names[:SHOWN])}" + (f" and {len(names) - SHOWN} more" if len(names) > SHOWN else ""))
    return "; ".join(parts) or "nothing"


def field_summary(fields: Dict[Field, List[Guard]]) -> str:
    """How many fields have guards of each kind, and those that have none."""
    kinds = [{guard.kind for guard in found} for found in fields.values()]
    told = ", ".join(f"{sum(kind in one for one in kinds)} by a {kind}" for kind in FIELD_KINDS)
    bare = [f"{field.record.name}.{field.name}" for field, found in fields.items() if not found]
    return f"{len(fields)} fields of records: {told}, {len(bare)} by none of these" + (f": {', '.join(bare)}" if bare else "")


def guarding(place: Place, guards: Iterable[Guard]) -> List[str]:
    """A line for each kind: those that name the definition, and those that reach it, the fewest others first."""
    lines: List[str] = []
    for kind in KINDS:
        of_kind = [guard for guard in guards if guard.kind == kind]
        for word, names in (
            ("names it", [guard.name for guard in of_kind if place in guard.named]),
            ("reaches it", [guard.name for guard in of_kind if place in guard.found - guard.named]),
        ):
            if names:
                more = f" and {len(names) - SHOWN} more" if len(names) > SHOWN else ""
                lines.append(f"    {kind} that {word}: {', '.join(names[:SHOWN])}{more}")
    return lines


def summary(places: Set[Place], guards: Iterable[Guard]) -> str:
    """How many definitions guards of each kind name."""
    named: Dict[str, Set[Place]] = {kind: set() for kind in KINDS}
    for guard in guards:
        named[guard.kind] |= guard.named & places
    told = ", ".join(f"{len(named[kind])} named by a {kind}" for kind in KINDS)
    return f"{len(places)} definitions: {told}, {len(places - set().union(*named.values()))} by none of these"
