"""The definitions of `specs/`, the functions of `src/` with their contracts, and which of them a name stands for."""

from __future__ import annotations

import functools
import glob
import os
import re
from typing import Collection, Dict, Iterable, Iterator, List, NamedTuple, Optional, Sequence, Set, Tuple

TOP = os.path.dirname(os.path.dirname(os.path.abspath(__file__)))

HEADER = re.compile(r"(?:(?:abbrev|unfoldable|pattern)\s+)*(?:pub\s+)?(?:(record|data)\s+)?(?:pub\s+)?([^\s:(]+)\s*[:({]")
CONSTRUCTOR = re.compile(r"  (\w+) :")
FIELD = re.compile(r"  pub (\w+) :")
BINDERS = (
    re.compile(r"[({]([^(){}:∷]+) :(?!:)"),
    re.compile(r"λ ([^.]+)\."),
    re.compile(r"\blet (\w+)"),
    re.compile(r"(\w+) ←"),
)
ABOVE = r"^((?: *(?:///|#\[)[^\n]*\n)*)( *)(?:pub(?:\(\w+\))? )?(?:const )?fn (\w+)\b"
# with its contract, which ends where the body begins, on a line of its own; without one the body begins on the line that ends
# the parameters
WITH_CONTRACT = re.compile(ABOVE + r"([^\n]*\n(?:(?!\2\{|\2\}).*\n)*)\2\{(|\n(?:(?!\2\}).*\n)*\2)\}", re.M)
WITHOUT = re.compile(ABOVE + r"([^\n]*) \{(|[^\n]*|\n(?:(?!\2\}).*\n)*\2)\}$", re.M)
OVER_LINES = re.compile(ABOVE + r"([^\n]*\(\n(?:\2 .*\n)+\2\)[^\n]*) \{(\n(?:(?!\2\}).*\n)*\2)\}$", re.M)
CLAUSE = re.compile(r"^ *(?:ensures|requires) ", re.M)


class Place(NamedTuple):
    """What a word stands for: a definition of a file, or a type of the program with the file that has it."""

    path: str
    name: str
    is_type: bool = False


class Module:
    """One file of definitions: what it imports, and the lines of each definition with the comment above it."""

    def __init__(self, path: str) -> None:
        self.path = path
        self.imports: Dict[str, Tuple[str, str]] = {}
        self.aliases: Dict[str, str] = {}
        self.blocks: Dict[str, List[str]] = {}
        self.constructors: Dict[str, str] = {}
        self.fixities: Dict[str, str] = {}
        self.read(text_of(path).splitlines())

    def read(self, lines: Sequence[str]) -> None:
        name, kind = "", ""
        above: List[str] = []
        for line in lines:
            if line.startswith(("use ", "pub use ")):
                read_import(line.removeprefix("pub "), self.imports, self.aliases)
            elif line.startswith("--"):
                above.append(line)
            elif not line.strip() or line.startswith("pub mod "):
                # a comment alone is the head of a part of the file
                above = []
            elif line.startswith("infix"):
                self.fixities[line.split()[-1]] = line
            elif line.startswith(" "):
                self.blocks[name].append(line)
                found = CONSTRUCTOR.match(line) if kind == "data" else None
                if found:
                    self.constructors[found.group(1)] = name
            else:
                head = HEADER.match(line)
                if head and is_head(line, head, name):
                    kind, name = head.group(1) or "", head.group(2)
                    fixity = [self.fixities[name]] if name in self.fixities else []
                    self.blocks[name], above = above + fixity + [line], []
                else:
                    self.blocks[name] += above + [line]
                    above = []

    def fields(self, name: str) -> List[str]:
        """The fields of a record."""
        return [met.group(1) for met in map(FIELD.match, self.blocks[name]) if met]

    def code(self, name: str, without: Collection[str] = ()) -> List[str]:
        """The lines of a definition but for comments and the fields that are left out."""
        lines: List[str] = []
        is_out = False
        for line in self.blocks[name]:
            met = FIELD.match(line)
            if met:
                is_out = met.group(1) in without
            if not is_out and not line.lstrip().startswith(("--", "infix")):
                lines.append(line)
        return lines

    def words(self, name: str, without: Collection[str] = ()) -> List[str]:
        """The words of a definition that may name others: neither its comments nor the variables it binds."""
        block = self.code(name, without)
        text = "\n".join(block)
        bound = {word for binder in BINDERS for found in binder.findall(text) for word in found.split()}
        for line in block:
            if line.startswith(name + " ") and " = " in line + " ":
                left = line.split(" = ")[0].removesuffix(" =")
                bound |= {word for word in words_in(left) if word != name and not self.is_constructor(word)}
        found = [word for word in self.free_words(block) if word.split(".")[0] not in bound]
        return found + (["◌>>=◌"] if re.search(r">>=|\bdo$", text, re.M) else [])

    def free_words(self, block: Sequence[str]) -> List[str]:
        """The words of these lines but for those that name an earlier field of a record."""
        found: List[str] = []
        fields: Set[str] = set()
        field = ""
        for line in block:
            met = FIELD.match(line)
            if met:
                fields, field = fields | {field}, met.group(1)
                line = line[met.end() :]
            found += [word for word in words_in(line) if word.split(".")[0] not in fields]
        return found

    def is_constructor(self, word: str) -> bool:
        place = self.place_of(word)
        return place is not None and (place.is_type or place.name in module(place.path).constructors)

    def place_of(self, word: str) -> Optional[Place]:
        """What a word stands for; None where it is neither a definition nor a type of the program."""
        if word in self.blocks or word in self.constructors:
            return Place(self.path, word)
        return imported(word, self.imports, self.aliases)

    def called(self, name: str, without: Collection[str] = ()) -> List[Place]:
        """The definitions and the types that a definition names."""
        places = (self.place_of(word) for word in self.words(name, without))
        return [place for place in places if place]


class Function(NamedTuple):
    """A function of the program, with what stands above it, its contract and its body."""

    path: str
    name: str
    about: str
    head: str
    body: str
    is_public: bool

    @property
    def is_law(self) -> bool:
        return self.is_public and not self.body.strip() and "ensures " in self.head

    @property
    def is_test(self) -> bool:
        return "#[test]" in self.about

    def clauses(self) -> Iterator[str]:
        """Each clause of the contract, with its word in front."""
        for found in CLAUSE.finditer(self.head):
            start = self.head.index("{", found.end())
            yield self.head[found.start() : closed(self.head, start)]

    def clause(self, name: str) -> Optional[str]:
        """The clause of this name."""
        return next((clause for clause in self.clauses() if clause.split()[1] == name), None)

    def contract(self) -> str:
        return "\n".join(self.clauses())


class Source:
    """A file of the program: what its contracts import, and its functions."""

    def __init__(self, path: str) -> None:
        self.path = path
        self.text = text_of(path)
        self.imports: Dict[str, Tuple[str, str]] = {}
        self.aliases: Dict[str, str] = {}
        for line in re.findall(r"ghost use [^;]*;", self.text):
            read_import(line, self.imports, self.aliases)
        self.functions = {one.name: one for one in self.read()}

    def read(self) -> Iterator[Function]:
        for pattern in (WITHOUT, OVER_LINES, WITH_CONTRACT):
            for found in pattern.finditer(self.text):
                about, _, name, head, body = found.groups()
                is_public = found.group().removeprefix(about).lstrip().startswith("pub")
                yield Function(self.path, name, about, head, body, is_public)

    def named(self, text: str) -> List[Place]:
        """The definitions and the types that clauses name."""
        bound = {word for binder in BINDERS for found in binder.findall(text) for word in found.split()}
        places = (imported(word, self.imports, self.aliases) for word in words_in(text) if word.split(".")[0] not in bound)
        return [place for place in places if place]


def closed(text: str, start: int) -> int:
    """The place behind the brace that closes the one at a place."""
    depth = 0
    for place in range(start, len(text)):
        depth += {"{": 1, "}": -1}.get(text[place], 0)
        if not depth:
            return place + 1
    return len(text)


def is_head(line: str, head: re.Match[str], name: str) -> bool:
    if line.startswith(("abbrev", "unfoldable", "pattern", "pub ", "record ", "data ")):
        return True
    return head.group(2) != name and " = " not in line and not line.endswith("=")


def words_in(text: str) -> List[str]:
    return re.findall(r"[^\s(){}\[\];,]+", text)


def read_import(line: str, imports: Dict[str, Tuple[str, str]], aliases: Dict[str, str]) -> None:
    line = " ".join(line.rstrip(";").split())
    several = re.match(r"(?:ghost )?use (Rattle\.\S+)\.\{(.*)\}", line)
    if several:
        for part in several.group(2).split(","):
            known, _, name = part.strip().partition(" as ")
            if known:
                imports[name or known] = (several.group(1), known)
        return
    alias = re.match(r"(?:ghost )?use (Rattle\.\S+) as (\S+)", line)
    if alias:
        aliases[alias.group(2)] = alias.group(1)


def imported(word: str, imports: Dict[str, Tuple[str, str]], aliases: Dict[str, str]) -> Optional[Place]:
    """What a word stands for that a file imports."""
    first, _, rest = word.partition(".")
    if first in aliases and rest:
        return resolve(aliases[first], rest.split(".")[0])
    return resolve(*imports[first]) if first in imports else None


def of_kit(word: str, imports: Dict[str, Tuple[str, str]]) -> bool:
    """Whether a file imports the word from the kit."""
    return word in imports and not imports[word][0].split(".")[1].startswith("dpl_")


def resolve(source: str, name: str) -> Optional[Place]:
    """What a name of a module stands for; None for what is of the toolchain."""
    parts = source.split(".")
    if len(parts) < 4 or not parts[1].startswith("dpl_"):
        return None
    if parts[3] == "declared":
        folders = [part for part in parts[4:] if part[0].islower()]
        types = [part for part in parts[4:] if part[0].isupper() and not part.startswith("The")]
        return Place(f"crates/{parts[1]}/src/{'/'.join(folders) or 'lib'}.rt", (types + [name])[0], True)
    path = file_of(parts)
    found = module(path)
    if name not in found.blocks and name in found.imports:
        return resolve(*found.imports[name])
    return Place(path, found.constructors.get(name, name))


def file_of(parts: Sequence[str]) -> str:
    """The file of a module of specs/, which may stand in a folder; what follows its name is a type in it."""
    for last in range(len(parts), 3, -1):
        path = f"crates/{parts[1]}/specs/{'/'.join(parts[3:last])}.antt"
        if os.path.exists(os.path.join(TOP, path)):
            return path
    raise KeyError(".".join(parts))


@functools.lru_cache(None)
def module(path: str) -> Module:
    return Module(path)


@functools.lru_cache(None)
def source(path: str) -> Source:
    return Source(path)


def all_sources() -> Iterator[Source]:
    """Every file of the program."""
    for path in sorted(glob.glob(os.path.join(TOP, "crates", "*", "src", "**", "*.rt"), recursive=True)):
        yield source(os.path.relpath(path, TOP))


def text_of(path: str) -> str:
    with open(os.path.join(TOP, path), encoding="utf-8") as file:
        return file.read()


def crate_of(path: str) -> str:
    return path.split("/")[1]


def reached_within(root: Place) -> Set[Place]:
    """The definitions of its own crate that a definition reaches by these."""
    found: Set[Place] = set()
    left = [root]
    while left:
        place = left.pop()
        if crate_of(place.path) == crate_of(root.path) and not place.is_type and place not in found:
            if place.name in module(place.path).blocks:
                found.add(place)
                left += module(place.path).called(place.name)
    return found


def reached(roots: Iterable[Place]) -> Tuple[Set[Place], Set[Place]]:
    """The definitions that are reached, and the types of the program met."""
    found: Set[Place] = set()
    types: Set[Place] = set()
    left = list(roots)
    while left:
        place = left.pop()
        if place.is_type:
            types.add(place)
        elif place not in found and place.name in module(place.path).blocks:
            found.add(place)
            left += module(place.path).called(place.name)
    return found, types
