"""What is told of a mutant that does not fit its source any more."""

from __future__ import annotations

import glob
import os
import tempfile
import unittest
from typing import List

from common import TOP

import planted

SOURCE = "fn one() {\n    x\n    y\n}\nfn two() {\n    x\n}\n"


class Planted(unittest.TestCase):
    def misfits(self, *lines: str) -> List[str]:
        """Those of a fault in a crate with one source."""
        with tempfile.TemporaryDirectory() as crate:
            for folder, name, text in (("src", "lib.rt", SOURCE), ("mutants", "one.edit", "\n".join([*lines, ""]))):
                os.mkdir(os.path.join(crate, folder))
                with open(os.path.join(crate, folder, name), "w", encoding="utf-8") as file:
                    file.write(text)
            return list(planted.misfits(os.path.join(crate, "mutants", "one.edit")))

    def test_all_are_found(self) -> None:
        there = glob.glob(os.path.join(os.path.realpath(TOP), "crates", "*", "*", "*.edit"))
        self.assertEqual(planted.planted(), sorted(there))

    def test_fits(self) -> None:
        self.assertEqual(self.misfits("file: src/lib.rt", "old:     y", "new:     z"), [])

    def test_not_there(self) -> None:
        self.assertEqual(self.misfits("file: src/lib.rt", "old:     z", "new:     y"), ["stands 0 times: z"])

    def test_twice(self) -> None:
        self.assertEqual(self.misfits("file: src/lib.rt", "old:     x", "new:     y"), ["stands 2 times: x"])

    def test_no_file(self) -> None:
        self.assertEqual(self.misfits("file: src/main.rt")[0], "there is no src/main.rt")

    def test_one_after_another(self) -> None:
        lines = ("old:     y", "new:     z", "old:     z", "new:     y")
        self.assertEqual(self.misfits("file: src/lib.rt", *lines), [])


if __name__ == "__main__":
    unittest.main()
