#!/usr/bin/env python3
"""Tries the command `refine` where links cross: bench/refine.py [BINARY] [LAYOUT:LAYER:SPACE:OVERLAP..].

--layouts N random layouts (200), numbered from --from SEED (0), two thirds of them with weights of their own, some with a
keep layer: boxes in a shaken grid whose diagonals are close too, wires on tracks of which the second next is close, and bent
wires. Each, and each layer that is named, is split and refined, the latter twice:

- both runs of `refine` write the same bytes, and `check` says yes to them, with the cost and the bound of the report;
- the cost is that of the masks, at most that of `split`, and no piece can be turned over alone to cost less;
- the bound is at least that of `split`; where nothing is set aside, both commands write the same bytes;
- where no component has more than 14 pieces, all pairs of masks are tried, component by component: the cost is no less
  than the least, and half the bound no more.

Printed are, of each that is named, cost, half bound and seconds of processor time of both commands; then how many had
something set aside, sums over these, sums over those whose least cost is known, and the slowest run of `refine`. Ends with
1 where something is wrong. No part of the gate.
"""

from __future__ import annotations

import argparse
import os
import random
import sys
import tempfile
from collections import Counter
from typing import Any, Dict, List, Tuple

sys.path.insert(0, os.path.dirname(os.path.abspath(__file__)))
import run
from edits import Program, layout_of, some_box
from hostile import timed
from net import Classes, Report, edges_of, weight

Box = Tuple[int, int, int, int]
Tally = Dict[Any, Any]
# what two pieces cost together, on one mask and on two
Pairs = Dict[Tuple[int, int], List[int]]

MOST_PIECES = 14

# most layouts are small enough to try all masks
SIDES = [2, 2, 3, 3, 4, 5, 8, 13]


# ---- random layouts; corners are in grid units of half a hundredth of a micron


def shaken(chance: random.Random) -> tuple[int, list[Box]]:
    """A spacing, and boxes in a grid, some of them joined, some left out: four in a square are all close to one another."""
    across, up = chance.choice(SIDES), chance.choice(SIDES)
    size, by = chance.choice([40, 80, 120]), chance.choice([0, 10, 30])
    pitch = size + chance.choice([80, 100, 120, 140])
    boxes = []
    for k in range(across * up):
        x = pitch * (k % across) + chance.randint(-by, by)
        y = pitch * (k // across) + chance.randint(-by, by)
        if chance.random() < 0.15:
            continue
        boxes.append((x, y, x + size + pitch * (chance.random() < 0.1), y + size + pitch * (chance.random() < 0.1)))
    return 100, boxes


def tracks(chance: random.Random) -> tuple[int, list[Box]]:
    """A spacing, and level wires of random ends on tracks, with upright ones between some: the second next track is close."""
    pitch, wide = 160, chance.choice([40, 60, 80])
    reach = chance.choice([pitch + 20, 2 * pitch - wide, 2 * pitch - wide + 20, 2 * pitch + 20])
    boxes = []
    for track in range(chance.choice(SIDES)):
        x, y = chance.randrange(0, 400, 20), pitch * track
        for _ in range(chance.choice(SIDES) - 1):
            end = x + chance.randrange(80, 900, 20)
            boxes.append((x, y, end, y + wide))
            if chance.random() < 0.3:
                at = chance.randrange(x, end - wide + 1, 20)
                boxes.append((at, y, at + wide, y + wide + pitch * chance.randrange(1, 3)))
            x = end + chance.randrange(80, 500, 20)
    return reach // 2, boxes


def bends(chance: random.Random) -> tuple[int, list[Box]]:
    """A spacing, and wires of two arms."""
    count = chance.choice(SIDES) * chance.choice(SIDES)
    side = int(count**0.5 * chance.choice([160, 200, 240, 300]))
    boxes = []
    for _ in range(count):
        x, y = chance.randrange(0, side, 20), chance.randrange(0, side, 20)
        to_right, to_top = chance.randrange(-200, 201, 20), chance.randrange(-200, 201, 20)
        boxes.append((min(x, x + to_right), y, max(x, x + to_right) + 40, y + 40))
        boxes.append((x, min(y, y + to_top), x + 40, max(y, y + to_top) + 40))
    return chance.choice([100, 150, 200]), boxes


class Case:
    """A random layout with its options."""

    def __init__(self, seed: int) -> None:
        chance = random.Random(seed)
        space, self.boxes = chance.choice([shaken, tracks, bends])(chance)
        self.words, kept = ["--layer", "M", "--space", str(space), "--overlap", chance.choice(["5", "10", "20"])], []
        if chance.random() < 0.67:
            self.words += ["--stitch", chance.choice("159"), "--conflict", chance.choice(["3", "7", "10", "100"])]
            self.words += ["--corner", chance.choice("128")]
        if chance.random() < 0.15:
            kept = [some_box(chance, 1_000) for _ in range(10)]
            self.words += ["--keep", "K"]
        self.layout = layout_of(self.boxes, kept)


# ---- components; a pair of pieces has what it costs on one mask and on two


class Pieces:
    """The pieces of a report's net, their masks, and what each two of them cost together."""

    def __init__(self, report: Report) -> None:
        edges = edges_of(report)
        pieces, self.parts = Classes(len(report.fragments)), Classes(len(report.fragments))
        for edge in edges:
            self.parts.join(edge.first, edge.second)
            if edge.kind == "bond":
                pieces.join(edge.first, edge.second)
        self.masks = {pieces.root(node): mask for node, mask in enumerate(report.letters)}
        self.agree = all(self.masks[pieces.root(node)] == mask for node, mask in enumerate(report.letters))
        self.pairs: Pairs = {}
        for number, edge in enumerate(edges):
            p, q = sorted((pieces.root(edge.first), pieces.root(edge.second)))
            cost = weight(report, edges, number)
            if p != q and cost is not None:
                costs = self.pairs.setdefault((p, q), [0, 0])
                costs[edge.kind == "stitch"] += cost

    def cost(self) -> int:
        """What the masks cost."""
        return sum(costs[self.masks[p] != self.masks[q]] for (p, q), costs in self.pairs.items())

    def most_won(self) -> int:
        """The most that any piece wins where it alone is turned over."""
        won: Counter[int] = Counter()
        for (p, q), costs in self.pairs.items():
            differ = self.masks[p] != self.masks[q]
            won[p] += costs[differ] - costs[not differ]
            won[q] += costs[differ] - costs[not differ]
        return max(won.values(), default=0)

    def components(self) -> list[Pairs]:
        """The pairs of each component."""
        found: dict[int, Pairs] = {}
        for (p, q), costs in self.pairs.items():
            found.setdefault(self.parts.root(p), {})[p, q] = costs
        return list(found.values())


def least(pairs: Pairs) -> int:
    """What the best masks of a component cost, by all of them: in each step one piece is turned over."""
    places = {p: k for k, p in enumerate(sorted({p for pair in pairs for p in pair}))}
    beside: list[list[tuple[int, int]]] = [[] for _ in places]
    for (p, q), (same, differ) in pairs.items():
        beside[places[p]].append((places[q], differ - same))
        beside[places[q]].append((places[p], differ - same))
    turned = [False] * len(places)
    best = cost = sum(same for same, _ in pairs.values())
    for number in range(1, 1 << (len(places) - 1)):
        k = (number & -number).bit_length() - 1
        cost += sum(more if turned[k] == turned[other] else -more for other, more in beside[k])
        turned[k] = not turned[k]
        best = min(best, cost)
    return best


def optimum(pieces: Pieces) -> int | None:
    """What the best masks cost, or None where a component has too many pieces to try them all."""
    components = pieces.components()
    if any(len({p for pair in pairs for p in pair}) > MOST_PIECES for pairs in components):
        return None
    return sum(map(least, components))


# ---- judging


def judged(split: Report, refined: Report) -> tuple[list[str], int | None]:
    """What is wrong with a refined report, beside that of a split, and the least cost where it is known."""
    cost, bound = refined.values["cost"], refined.values["bound"]
    pieces = Pieces(refined)
    best = optimum(pieces)
    told = []
    if not pieces.agree or pieces.cost() != cost:
        told.append("cost %d, and the masks cost %d" % (cost, pieces.cost()))
    if pieces.most_won() > 0:
        told.append("a piece wins %d" % pieces.most_won())
    if cost > split.values["cost"]:
        told.append("cost %d, and a split has %d" % (cost, split.values["cost"]))
    if bound < split.values["bound"]:
        told.append("bound %d, and a split has %d" % (bound, split.values["bound"]))
    if best is not None and not bound <= 2 * best <= 2 * cost:
        told.append("cost %d, bound %d, and the least cost is %d" % (cost, bound, best))
    return told, best


def try_layout(program: Program, words: list[str], layout: bytes, seen: Tally) -> list[str]:
    """What is wrong with the answers to one layout."""
    splits, seconds, _ = timed(program.binary, ["split", *words], layout)
    runs = [timed(program.binary, ["refine", *words], layout) for _ in range(2)]
    least_of_both = min(took for _, took, _ in runs)
    seen["layouts"] += 1
    seen["split", "seconds"] += seconds
    seen["refined", "seconds"] += least_of_both
    seen["slowest"] = max(seen["slowest"], least_of_both)
    refined = runs[0][0].stdout
    if any((ran.returncode, ran.stderr) != (0, b"") for ran in (splits, *(ran for ran, _, _ in runs))):
        return ["split ended %d, refine %d" % (splits.returncode, runs[0][0].returncode)]
    told = [] if runs[1][0].stdout == refined else ["two runs write other bytes"]
    split, report = Report(splits.stdout), Report(refined)
    if not split.aside:
        return told if refined == splits.stdout else [*told, "nothing is set aside, and refine writes other bytes"]
    verdict = program.run(["check", *words], layout, refined)
    if verdict != (0, b"yes cost %d bound %d\n" % (report.values["cost"], report.values["bound"]), ""):
        told.append("check says %r" % (verdict,))
    wrong, best = judged(split, report)
    count(seen, "aside", split, report)
    if best is not None:
        count(seen, "known", split, report)
        seen["least cost"] += best
        seen["least reached"] += best == report.values["cost"]
    return told + wrong


def count(seen: Tally, kind: str, split: Report, report: Report) -> None:
    seen[kind] += 1
    for name, one in (("split", split), ("refined", report)):
        seen[kind, name, "cost"] += one.values["cost"]
        seen[kind, name, "bound"] += one.values["bound"]


def sums(seen: Tally, kind: str) -> str:
    both = (("%s: cost %d, half bound %.1f" % (name, seen[kind, name, "cost"], seen[kind, name, "bound"] / 2)) for name in ("split", "refined"))
    return ", ".join(both)


def tell_layer(name: str, seen: Tally) -> None:
    took = "%.2f and %.2f s" % (seen["split", "seconds"], seen["refined", "seconds"])
    print("%-30s %s" % (name, ", ".join([sums(seen, "aside") if seen["aside"] else "nothing is set aside", took])), flush=True)


def tell(seen: Tally, wrong: int) -> None:
    print("%d layouts, %d of them with something set aside, %d wrong" % (seen["layouts"], seen["aside"], wrong))
    print("of these %s" % sums(seen, "aside"))
    print("the least cost is known of %d, %d in all, and reached in %d" % (seen["known"], seen["least cost"], seen["least reached"]))
    print("of these %s" % sums(seen, "known"))
    print("the slowest refine took %.2f s" % seen["slowest"])


def try_all(program: Program, asked: argparse.Namespace) -> int:
    """How many things are wrong with the answers to all layouts."""
    wrong = 0
    seen: Tally = Counter()
    for name, layout, words in run.layers(asked.layers):
        one: Tally = Counter()
        told = try_layout(program, words, layout, one)
        tell_layer(name, one)
        for what in told:
            print("%s: %s" % (name, what), flush=True)
        wrong += len(told)
    for seed in range(asked.first, asked.first + asked.layouts):
        case = Case(seed)
        told = try_layout(program, case.words, case.layout, seen)
        for what in told:
            print("seed %d: %s" % (seed, what), flush=True)
        wrong += len(told)
    tell(seen, wrong)
    return wrong


def main() -> int:
    parser = argparse.ArgumentParser(description="Tries the command `refine` where links cross.")
    parser.add_argument("binary", nargs="?", default=os.path.join(run.TOP, "crates", "dpl", "out", "dpl"))
    parser.add_argument("layers", nargs="*", metavar="LAYOUT:LAYER:SPACE:OVERLAP")
    parser.add_argument("--layouts", type=int, default=200)
    parser.add_argument("--from", type=int, default=0, dest="first")
    asked = parser.parse_intermixed_args()
    with tempfile.TemporaryDirectory() as folder:
        return 1 if try_all(Program(asked.binary, folder), asked) else 0


if __name__ == "__main__":
    sys.exit(main())
