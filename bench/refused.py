#!/usr/bin/env python3
"""Refuses each allocation of the built program in turn: bench/refused.py [BINARY].

Over the split of `samples/stitch.cif`, the check of its report and two edits of it: run K gets no memory at its call K of
malloc or realloc, until a run asks for less. A run is right where it gives the whole answer, or ends with status 7, nothing on
the standard output and `dpl: no memory` on the error output. Printed: how many were tried and how they ended.
Needs `cc`; no part of the gate.
"""

from __future__ import annotations

import collections
import os
import subprocess
import sys
import tempfile
from typing import Tuple

TOP = os.path.dirname(os.path.dirname(os.path.abspath(__file__)))

# a run that is wrong: its number, its status, and how its outputs begin
Wrong = Tuple[int, int, bytes, bytes]

# Counts the calls for memory, refuses one, and tells by a file whether it came to that call.
SHIM = """
#define _GNU_SOURCE
#include <dlfcn.h>
#include <fcntl.h>
#include <stdlib.h>
#include <unistd.h>
static long count, refused = -1;
static int is_refused(void) {
    if (refused < 0) { const char *n = getenv("REFUSED"); refused = n ? atol(n) : 0; }
    if (refused == 0 || ++count != refused) return 0;
    int f = open(getenv("REACHED"), O_CREAT | O_WRONLY, 0600);
    if (f >= 0) close(f);
    return 1;
}
void *malloc(size_t n) {
    static void *(*real)(size_t);
    if (!real) real = dlsym(RTLD_NEXT, "malloc");
    return is_refused() ? NULL : real(n);
}
void *realloc(void *p, size_t n) {
    static void *(*real)(void *, size_t);
    if (!real) real = dlsym(RTLD_NEXT, "realloc");
    return is_refused() ? NULL : real(p, n);
}
"""


def built(folder: str) -> str:
    """The shim, compiled."""
    source, library = os.path.join(folder, "shim.c"), os.path.join(folder, "shim.so")
    with open(source, "w") as file:
        file.write(SHIM)
    subprocess.run(["cc", "-O1", "-shared", "-fPIC", "-o", library, source, "-ldl"], check=True)
    return library


def tried(binary: str, words: list[str], layout: str, library: str, folder: str) -> tuple[int, collections.Counter[str], list[Wrong]]:
    """How the runs ended, and which of them were wrong."""
    with open(layout, "rb") as file:
        text = file.read()
    whole = subprocess.run([binary] + words, input=text, capture_output=True)
    ended: collections.Counter[str] = collections.Counter()
    wrong: list[Wrong] = []
    number = 0
    while True:
        number += 1
        reached = os.path.join(folder, "reached")
        if os.path.exists(reached):
            os.remove(reached)
        around = dict(os.environ, LD_PRELOAD=library, REFUSED=str(number), REACHED=reached)
        run = subprocess.run([binary] + words, input=text, capture_output=True, env=around)
        if not os.path.exists(reached):
            return number - 1, ended, wrong
        answer = (run.returncode, run.stdout, run.stderr)
        if answer == (7, b"", b"dpl: no memory\n"):
            ended["no memory"] += 1
        elif answer == (whole.returncode, whole.stdout, whole.stderr):
            ended["the answer"] += 1
        else:
            wrong.append((number, run.returncode, run.stdout[:80], run.stderr[:80]))


def main() -> int:
    binary = sys.argv[1] if len(sys.argv) > 1 else os.path.join(TOP, "crates", "dpl", "out", "dpl")
    options = ["--layer", "M", "--space", "100", "--overlap", "20"]
    layout = os.path.join(TOP, "samples", "stitch.cif")
    failed = False
    with tempfile.TemporaryDirectory() as folder:
        library = built(folder)
        report = os.path.join(folder, "report")
        with open(layout, "rb") as file, open(report, "wb") as out:
            subprocess.run([binary, "split"] + options, stdin=file, stdout=out, check=True)
        script = os.path.join(folder, "script")
        with open(script, "w") as file:
            file.write("add -400 0 -200 200\nremove 0\n")
        for words in (["split"] + options, ["check"] + options + ["--report", report], ["edit"] + options + ["--script", script]):
            count, ended, wrong = tried(binary, words, layout, library, folder)
            told = ", ".join("%d with %s" % (n, how) for how, n in sorted(ended.items()))
            print("%s: %d refused, ended %s, %d wrong" % (words[0], count, told, len(wrong)))
            for one in wrong[:10]:
                print("  refused %d: status %d, %r, %r" % one)
            failed |= bool(wrong)
    return 1 if failed else 0


if __name__ == "__main__":
    sys.exit(main())
