"""Reads CIF 2.0 as `dpl` does: commands, layers, and the figures of a layer after all calls.

What a command means stands in docs/cif.md. Lengths are grid units, of which a hundredth of a micron has two.
Nothing here is proved, and nothing here is part of the program: it serves the tools beside it.
"""

from __future__ import annotations

import re
from fractions import Fraction
from typing import Dict, FrozenSet, Iterator, List, NamedTuple, Optional, Tuple, Union

from forms import other_form

DIGITS = frozenset(b"0123456789")
UPPERS = frozenset(b"ABCDEFGHIJKLMNOPQRSTUVWXYZ")
MARKS = frozenset(b"-();")
NUMBER = re.compile(rb"-?[0-9]+")

RULES = {
    1: "it has no form of CIF 2.0, or it is a comment without its closing parenthesis",
    2: "a number has a magnitude of more than 1,000,000,000,000",
    3: "a definition starts inside a definition, ends outside of one, or the text ends inside one",
    4: "an earlier definition has this number",
    5: "a direction is (0, 0) or lies on no axis",
    6: "a figure stands where no layer is set",
    7: "two points that follow one another differ in both coordinates",
    8: "a corner or a translation lies off the grid of half a hundredth of a micron",
    9: "a round flash stands on the layer",
    10: "a definition is deleted",
    11: "a scale has a 0",
    12: "a call names a definition that is not there",
    13: "a call leads back to the definition that it stands in",
    14: "the text does not end with E",
}

Number = Union[int, Fraction]
Point = Tuple[Number, Number]
Placement = Tuple[Number, Number, Number, Number, Number, Number]

STAYS: Placement = (1, 0, 0, 1, 0, 0)


class Unreadable(Exception):
    """Why a text is of no use to a tool, in one line."""


def is_blank(byte: int) -> bool:
    return byte < 128 and byte not in DIGITS and byte not in UPPERS and byte not in MARKS


def commands(text: bytes) -> Tuple[List[Tuple[int, bytes]], int]:
    """The finished commands, each as its place and its bytes, and the place where the end command or the rest stands."""
    found: List[Tuple[int, bytes]] = []
    at = 0
    while True:
        while at < len(text) and is_blank(text[at]):
            at += 1
        if at == len(text) or text[at : at + 1] == b"E":
            return found, at
        end = end_of(text, at)
        if end is None:
            return found, at
        found.append((at, text[at:end]))
        at = end + 1


def end_of(text: bytes, at: int) -> Optional[int]:
    """The place of the semicolon that ends the command at a place."""
    if text[at : at + 1] == b"(":
        depth = 0
        while at < len(text):
            depth += {40: 1, 41: -1}.get(text[at], 0)
            at += 1
            if depth == 0:
                break
        else:
            return None
    end = text.find(b";", at)
    return None if end < 0 else end


def numbers(piece: bytes) -> List[int]:
    """The integers of a piece of a command, whatever separates them."""
    return [int(number) for number in NUMBER.findall(piece)]


MOST_SHOWN = 200


def shown(text: bytes, number: int) -> str:
    """The command of a number, from 1: its line, its column and its text."""
    found, end = commands(text)
    if not 1 <= number <= len(found) + 1:
        raise Unreadable(f"there are {len(found)} commands before the end")
    at, piece = found[number - 1] if number <= len(found) else (end, text[end:])
    line = text.count(b"\n", 0, at) + 1
    column = at - text.rfind(b"\n", 0, at)
    said = printable(b" ".join(piece[:MOST_SHOWN].split()))
    return f"line {line}, column {column}: {said or 'the text ends'}{' ..' if len(piece) > MOST_SHOWN else ''}"


def printable(text: bytes) -> str:
    """A text as a terminal may be given it: each byte that is no printed character of ASCII as its number."""
    return "".join(chr(byte) if 32 <= byte < 127 else f"\\x{byte:02x}" for byte in text)


class Polygon(List[Point]):
    """The points of a polygon."""


class Call(NamedTuple):
    """Which definition is called, and how it is placed."""

    number: int
    placed: Placement


class Item(NamedTuple):
    """What stands in a definition: a figure on a layer, or a call."""

    layer: Optional[str]
    what: Union[List[Point], Call]


class Layout:
    """Definitions by number, and the items outside of them, under None, in the order of the text.

    A figure is a list of corner points. A polygon counts as many times as it has points, anything else once.
    """

    def __init__(self, text: bytes) -> None:
        self.bodies: Dict[Optional[int], List[Item]] = {None: []}
        self.names: Dict[int, str] = {}
        said = other_form(text)
        if said:
            raise Unreadable(said)
        self.read(text)

    def read(self, text: bytes) -> None:
        found, end = commands(text)
        if text[end : end + 1] != b"E":
            raise Unreadable("the text does not end with E: it is cut off, or no CIF")
        self.owner: Optional[int] = None
        self.scale, self.layer, self.outer = Scale(2, 1), "", ""
        for number, (_, command) in enumerate(found, 1):
            try:
                self.take(command)
            except (IndexError, ValueError, ZeroDivisionError) as error:
                raise Unreadable(f"command {number} cannot be read: {printable(command[:40])}") from error

    def take(self, command: bytes) -> None:
        """Takes the next command in."""
        head, body = command[:1], self.bodies[self.owner]
        if head == b"L":
            self.layer = name_of(command)
        elif head == b"D":
            self.define(command)
        elif head == b"C":
            body.append(Item(None, call_of(command, self.scale)))
        elif head in (b"B", b"P", b"W"):
            body += [Item(self.layer, figure) for figure in figures_of(command, self.scale)]
        elif head == b"9" and self.owner is not None and is_blank(command[1]):
            self.names[self.owner] = command[1:].split()[0].decode("ascii", "replace")

    def define(self, command: bytes) -> None:
        """Begins or ends a definition."""
        kind = bytes(byte for byte in command[1:] if not is_blank(byte))[:1]
        if kind == b"S":
            parts = numbers(command)
            top, bottom = parts[1:3] if len(parts) > 2 else (1, 1)
            if not bottom:
                raise ZeroDivisionError
            self.owner, self.scale, self.outer, self.layer = parts[0], Scale(2 * top, bottom), self.layer, ""
            self.bodies.setdefault(self.owner, [])
        elif kind == b"F":
            self.owner, self.scale, self.layer = None, Scale(2, 1), self.outer

    def figures(self, layer: str, most: int = 1_000_000) -> List[List[Point]]:
        """The figures of a layer after all calls, in the order in which the calls are carried out."""
        found: List[List[Point]] = []
        inside: FrozenSet[int] = frozenset()
        stack: List[Tuple[Iterator[Item], Placement, FrozenSet[int]]] = [(iter(self.bodies[None]), STAYS, inside)]
        while stack:
            items, placed, inside = stack[-1]
            for name, item in items:
                if not isinstance(item, Call):
                    if name == layer:
                        found.append([move(placed, point) for point in item])
                    continue
                if item.number in inside or item.number not in self.bodies:
                    raise Unreadable(f"a call of {item.number} leads back or names no definition")
                if len(found) > most or len(stack) > 10_000:
                    raise Unreadable("the layout has too many figures for a tool")
                stack.append((iter(self.bodies[item.number]), after(placed, item.placed), inside | {item.number}))
                break
            else:
                stack.pop()
        return found

    def counts(self) -> Dict[str, int]:
        """How many primitives each layer has after all calls, as the limit on primitives counts them."""
        known: Dict[Optional[int], Dict[str, int]] = {}

        def of(owner: Optional[int], inside: FrozenSet[Optional[int]]) -> Dict[str, int]:
            if owner in known:
                return known[owner]
            if owner in inside or owner not in self.bodies:
                raise Unreadable(f"a call of {owner} leads back or names no definition")
            total: Dict[str, int] = {}
            for layer, item in self.bodies[owner]:
                if isinstance(item, Call):
                    for name, count in of(item.number, inside | {owner}).items():
                        total[name] = total.get(name, 0) + count
                elif layer:
                    total[layer] = total.get(layer, 0) + (len(item) if isinstance(item, Polygon) else 1)
            known[owner] = total
            return total

        return of(None, frozenset())

    def top(self) -> str:
        """The cell that holds all, by the name that KLayout gives it."""
        outside = self.bodies[None]
        call = outside[0].what if len(outside) == 1 else None
        return self.names.get(call.number, f"C{call.number}") if isinstance(call, Call) else "CIF_TOP"


def name_of(command: bytes) -> str:
    """The name that a layer command sets: digits and upper-case letters with blanks before and behind them alone."""
    name = bytes(b if not is_blank(b) else 32 for b in command[1:]).strip()
    if not 1 <= len(name) <= 32 or not all(b in DIGITS or b in UPPERS for b in name):
        raise ValueError("no layer is named")
    return name.decode()


class Scale(NamedTuple):
    """By what the numbers of a definition are multiplied and divided, to be grid units."""

    top: int
    bottom: int

    def of(self, number: int) -> Number:
        whole, rest = divmod(number * self.top, self.bottom)
        return Fraction(number * self.top, self.bottom) if rest else whole

    def half(self) -> Scale:
        return Scale(self.top, 2 * self.bottom)


def call_of(command: bytes, scale: Scale) -> Call:
    """The number of a call and its placement, the transformations in the order written."""
    placed = STAYS
    at = 1
    start = at
    while at < len(command) and command[at : at + 1] not in (b"T", b"M", b"R"):
        at += 1
    number = numbers(command[start:at])[0]
    while at < len(command):
        kind = command[at : at + 1]
        at += 1
        if kind == b"M":
            while is_blank(command[at]):
                at += 1
            placed = after((-1, 0, 0, 1, 0, 0) if command[at : at + 1] == b"X" else (1, 0, 0, -1, 0, 0), placed)
            at += 1
        elif kind in (b"T", b"R"):
            start = at
            while at < len(command) and command[at : at + 1] not in (b"T", b"M", b"R"):
                at += 1
            x, y = numbers(command[start:at])[:2]
            if kind == b"T":
                placed = after((1, 0, 0, 1, scale.of(x), scale.of(y)), placed)
            else:
                cos, sin = (x > 0) - (x < 0), (y > 0) - (y < 0)
                placed = after((cos, -sin, sin, cos, 0, 0), placed)
    return Call(number, placed)


def move(placed: Placement, point: Point) -> Point:
    a, b, c, d, e, f = placed
    x, y = point
    return (a * x + b * y + e, c * x + d * y + f)


def after(outer: Placement, inner: Placement) -> Placement:
    """The placement that places by `inner` and then by `outer`."""
    a, b, c, d, _, _ = outer
    p, q, r, s, t, u = inner
    e, f = move(outer, (t, u))
    return (a * p + b * r, a * q + b * s, c * p + d * r, c * q + d * s, e, f)


def box(scale: Scale, x1: int, y1: int, x2: int, y2: int) -> List[Point]:
    left, low, right, high = map(scale.of, (x1, y1, x2, y2))
    return [(left, low), (right, low), (right, high), (left, high)]


def figures_of(command: bytes, scale: Scale) -> List[List[Point]]:
    """The boxes and the polygon of a command."""
    parts = numbers(command)
    half = scale.half()
    if command[:1] == b"P":
        return [Polygon((scale.of(x), scale.of(y)) for x, y in zip(parts[::2], parts[1::2]))]
    if command[:1] == b"B":
        length, width, x, y = parts[:4]
        if len(parts) > 4 and parts[4] == 0:
            length, width = width, length
        if length == 0 or width == 0:
            return []
        return [box(half, 2 * x - length, 2 * y - width, 2 * x + length, 2 * y + width)]
    width, points = parts[0], list(zip(parts[1::2], parts[2::2]))
    if width == 0:
        return []
    pairs = list(zip(points, points[1:])) or [(points[0], points[0])]
    return [
        box(
            half,
            2 * min(p[0], q[0]) - width,
            2 * min(p[1], q[1]) - width,
            2 * max(p[0], q[0]) + width,
            2 * max(p[1], q[1]) + width,
        )
        for p, q in pairs
    ]


def text_of(path: str) -> bytes:
    try:
        with open(path, "rb") as file:
            return file.read()
    except OSError as error:
        raise Unreadable(f"{path}: {error.strerror}") from error
