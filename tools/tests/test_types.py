"""The types of the tools, of KLayout's menu, of the benchmarks and of chip/, by mypy, and names that nothing uses, by pyflakes,
where these are installed."""

from __future__ import annotations

import glob
import os
import shutil
import unittest
from typing import List

from common import TOOLS, TOP, ran

BENCH = os.path.join(TOP, "bench")
CHIP = os.path.join(TOP, "chip")
TESTS = os.path.join(TOOLS, "tests")
STRICT = ("mypy", "--strict", "--scripts-are-modules")

# has the name of the module of tools that it tries, and so is judged by itself, by its place from the top
ALONE = os.path.join(BENCH, "words.py")


def modules(*place: str) -> List[str]:
    return sorted(glob.glob(os.path.join(TOP, *place, "*.py")))


def scripts(*place: str) -> List[str]:
    """Those in Python that have no ending."""
    paths = (path for path in glob.glob(os.path.join(TOP, *place, "*")) if "." not in os.path.basename(path))
    return sorted(path for path in paths if os.path.isfile(path) and is_python(path))


def is_python(path: str) -> bool:
    with open(path, "rb") as file:
        first = file.readline()
    return first.startswith(b"#!") and b"python" in first


TOOL_MODULES, MENU = [*modules("tools"), *modules("tools", "tests")], modules("klayout", "dpl_menu")
BENCHMARKS = [path for path in modules("bench") if path != ALONE]
# has a module planted.py as the tools have, and so is judged by itself, with its own folder first
OF_CHIP = modules("chip")


class Types(unittest.TestCase):
    @unittest.skipUnless(shutil.which("mypy"), "no mypy here")
    def test_strict(self) -> None:
        for files in (TOOL_MODULES, MENU, BENCHMARKS, *([path] for path in scripts("tools"))):
            with self.subTest(files=files):
                done = ran(*STRICT, *files, folder=TOOLS, MYPYPATH=f"{TOOLS}:{TESTS}:{BENCH}")
                self.assertEqual(done.status, 0, done.out.decode())

    @unittest.skipUnless(shutil.which("mypy"), "no mypy here")
    def test_chip(self) -> None:
        for files in (OF_CHIP, *([path] for path in scripts("chip"))):
            with self.subTest(files=files):
                done = ran(*STRICT, *files, folder=CHIP, MYPYPATH=f"{CHIP}:{TOOLS}")
                self.assertEqual(done.status, 0, done.out.decode())

    @unittest.skipUnless(shutil.which("mypy"), "no mypy here")
    def test_alone(self) -> None:
        done = ran(*STRICT, "--namespace-packages", "--explicit-package-bases", ALONE, folder=TOP, MYPYPATH=TOOLS)
        self.assertEqual(done.status, 0, done.out.decode())

    @unittest.skipUnless(shutil.which("pyflakes3"), "no pyflakes here")
    def test_names(self) -> None:
        named = [*scripts("tools"), *scripts("samples"), *scripts("chip")]
        done = ran("pyflakes3", *TOOL_MODULES, *MENU, *modules("bench"), *OF_CHIP, *named)
        self.assertEqual(done.status, 0, done.out.decode())


if __name__ == "__main__":
    unittest.main()
