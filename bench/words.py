#!/usr/bin/env python3
"""Compares the launcher's table of words with the built program on random command lines: bench/words.py [N] [BINARY].

Where no program stands the launcher judges the words by tools/words.py, so both must name the same rule. No part of the
gate.
"""

from __future__ import annotations

import os
import random
import re
import subprocess
import sys

TOP = os.path.dirname(os.path.dirname(os.path.abspath(__file__)))
sys.path.insert(0, os.path.join(TOP, "tools"))
from words import COMMANDS, OPTIONS, wrong_in

GOOD = {"NAME": ["M", "0", "MET1", "A" * 31], "N": ["1", "5", "0007", "200"], "FILE": ["/nowhere", "x y"]}
ODD = ["", "0", "-1", "m", "M_1", "A" * 32, "201", "100001", "1000001", "1000000000000", "1000000000001", "0" * 14, "=", "a=b", "é", "١"]
NAMES = [*OPTIONS, "", "lay", "Layer", "-", "--"]


def words_of(chance: random.Random) -> list[str]:
    """A random command line, most of them nearly right."""
    command = chance.choice([*COMMANDS, *COMMANDS, "splt", "", "-h", "--layer"])
    options = [chance.choice(NAMES) for _ in range(chance.randrange(4))]
    if command in COMMANDS:
        known = COMMANDS[command]
        options = [*known.needed, *(name for name in known.free if chance.random() < 0.3)]
        if chance.random() < 0.15:
            options.append(chance.choice(NAMES))
        if chance.random() < 0.1:
            options.pop(chance.randrange(len(options)))
        chance.shuffle(options)
    words = [command]
    for name in options:
        shown = OPTIONS[name].shown if name in OPTIONS else "NAME"
        value = chance.choice(GOOD[shown] if chance.random() < 0.9 else ODD)
        words += [f"--{name}={value}"] if chance.random() < 0.5 else [f"--{name}", value]
    if chance.random() < 0.05:
        words.insert(chance.randrange(len(words) + 1), chance.choice(ODD))
    return words[: chance.randrange(len(words) + 1)] if chance.random() < 0.03 else words


def kind_of(program: str, words: list[str]) -> int | None:
    """The rule by which the program refuses the words, or None."""
    ran = subprocess.run([program, *words], stdin=subprocess.DEVNULL, capture_output=True, check=False)
    found = re.fullmatch(rb"dpl: usage (\d)\n", ran.stderr)
    return int(found[1]) if found else None


def main(count: str | int = 2_000, program: str = os.path.join(TOP, "crates", "dpl", "out", "dpl")) -> None:
    differ = 0
    for seed in range(int(count)):
        words = words_of(random.Random(seed))
        wrong = wrong_in(words)
        if (wrong.kind if wrong else None) != kind_of(program, words):
            differ += 1
            print(f"differs: {words}: {wrong}")
    print(f"{count} command lines, {differ} differ")
    sys.exit(1 if differ else 0)


if __name__ == "__main__":
    main(*sys.argv[1:])
