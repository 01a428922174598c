"""What `tools/papers` says of papers in which one thing is not so."""

from __future__ import annotations

import importlib.machinery
import importlib.util
import os
import unittest
from typing import Any, Dict

from common import TOOLS


def load(name: str) -> Any:
    """A tool, which has no ending, as a module."""
    loader = importlib.machinery.SourceFileLoader(name, os.path.join(TOOLS, name))
    spec = importlib.util.spec_from_loader(name, loader)
    assert spec
    module = importlib.util.module_from_spec(spec)
    loader.exec_module(module)
    return module


tool = load("papers")


def added(name: str, line: str) -> Dict[str, Any]:
    """The papers as they stand, with one line more in one of them."""
    papers: Dict[str, Any] = tool.all_papers()
    papers[name] = tool.Paper(name, [*papers[name].lines, line])
    return papers


class Planted(unittest.TestCase):
    def check(self, what: str, name: str, line: str) -> None:
        before = list(tool.CHECKS[what](tool.all_papers()))
        self.assertGreater(len(list(tool.CHECKS[what](added(name, line)))), len(before), line)

    def test_counts(self) -> None:
        self.check("counts", tool.MAP, "The house has 3 crates.")
        self.check("counts", tool.PROVED, "There are 1,000,000 definitions.")

    def test_paths(self) -> None:
        self.check("paths", tool.MAP, "See `docs/nowhere.md`.")

    def test_states(self) -> None:
        self.check("states", tool.SPEED, "The state before took twice as long.")

    def test_decisions(self) -> None:
        self.check("decisions", tool.DECISIONS, "- " + "word " * 81)

    def test_lines(self) -> None:
        papers = tool.all_papers()
        papers[tool.SPEED] = tool.Paper(tool.SPEED, [""] * 91)
        self.assertTrue([line for line in tool.long_papers(papers) if line.startswith(tool.SPEED)])

    def test_tables(self) -> None:
        papers = tool.all_papers()
        papers[tool.MAP] = tool.Paper(tool.MAP, [line for line in papers[tool.MAP].lines if "dpl_cuts" not in line])
        self.assertTrue([line for line in tool.tabled(papers) if "dpl_cuts" in line])


if __name__ == "__main__":
    unittest.main()
