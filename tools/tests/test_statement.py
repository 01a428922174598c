"""The page of what one must believe: how definitions, contracts and the table are read, and what the rules refuse."""

from __future__ import annotations

import unittest
from typing import Any, List

from common import tool as ran_tool
from test_papers import load

import definitions
import guards

tool = load("statement")

CELLS = definitions.Place("crates/dpl_cell/specs/Layers.antt", "is_cell")
BOX = definitions.Place("crates/dpl_cell/specs/Layers.antt", "is_in_box")


def table(*lines: str) -> Any:
    """A table of these lines, with its definitions placed."""
    made = tool.Table([*lines, "@ rest"])
    made.place({CELLS, BOX, *definitions.reached([CELLS])[0]})
    return made


class Reading(unittest.TestCase):
    def test_definition(self) -> None:
        called = definitions.module(CELLS.path).called(CELLS.name)
        self.assertEqual({place.name for place in called if not place.is_type}, {"is_cell", "Outline", "is_in_outline"})

    def test_fields_left_out(self) -> None:
        whole = definitions.module("crates/dpl_links/specs/Nets.antt")
        self.assertIn("HasPorts", whole.words("IsNet"))
        self.assertNotIn("HasPorts", whole.words("IsNet", {"ports"}))

    def test_contract(self) -> None:
        laws = definitions.source("crates/dpl_cell/src/laws.rt").functions
        self.assertTrue(laws["tiles_are_one"].is_law)
        clause = laws["rectangles_may_be_moved"].clause("gap")
        self.assertTrue(clause and clause.startswith("    ensures gap {") and clause.endswith("}"))
        run = definitions.source("crates/dpl_run/src/running.rt").functions["run"]
        self.assertFalse(run.is_law)
        self.assertIn("answer", [clause.split()[1] for clause in run.clauses()])

    def test_imports_over_lines(self) -> None:
        law = definitions.source("crates/dpl_boxes/src/written.rt")
        named = law.named(law.functions["layouts_are_read"].contract())
        self.assertIn("LayoutsAreRead", [place.name for place in named])


class Rules(unittest.TestCase):
    def faults(self, *lines: str) -> List[str]:
        class Shown:
            pass

        shown: Any = Shown()
        shown.table = table(*lines)
        shown.part_of = lambda: {place: part for part in shown.table.parts for place in part.own}
        return list(tool.undeclared(shown))

    def test_needs(self) -> None:
        parts = ("part boxes Boxes", "@ dpl_cell/Places", "@ dpl_cell/Outlines", "@ dpl_cell/Layers: is_within is_in_box")
        layers = "@ dpl_cell/Layers"
        self.assertEqual(self.faults(*parts, "part layers Layers", "needs boxes", layers), [])
        self.assertTrue(any("does not name" in fault for fault in self.faults(*parts, "part layers Layers", layers)))
        idle = self.faults(*parts, layers, "part layers Layers", "needs boxes")
        self.assertEqual(idle, ["the part layers names the part boxes, and calls nothing of it"])

    def test_law(self) -> None:
        told = tool.told_in
        self.assertTrue(told(["### A", "", "{law dpl_cell/laws tiles_are_one}"], "A"))
        self.assertTrue(told(["### A", "No law is needed."], "A"))
        self.assertFalse(told(["### A", "", "### B", "No law is needed."], "A"))

    def test_doubles(self) -> None:
        class Shown:
            def shown(self) -> List[definitions.Place]:
                return [BOX, BOX._replace(path="elsewhere"), CELLS]

        self.assertEqual(list(tool.doubles(Shown())), [f"is_in_box is defined in {BOX.path} and elsewhere"])

    def test_words(self) -> None:
        made = tool.Table(["word + -: of naturals", "@ rest"])
        self.assertEqual(made.words, {"+": "of naturals", "-": ""})


class Guards(unittest.TestCase):
    def test_kinds(self) -> None:
        box = guards.Guard("law", "boxes", {BOX}, {BOX})
        cells = guards.Guard("contract", "cells", {CELLS}, {CELLS, BOX})
        self.assertEqual(guards.guarding(BOX, [box, cells]), ["    law that names it: boxes", "    contract that reaches it: cells"])
        self.assertEqual(guards.guarding(CELLS, [box]), [])
        told = "2 definitions: 1 named by a law, 1 named by a contract, 0 named by a test, 0 named by a mutant, 0 by none of these"
        self.assertEqual(guards.summary({BOX, CELLS}, [box, cells]), told)

    def test_fields(self) -> None:
        corners = definitions.Place("crates/dpl_cell/specs/Places.antt", "Corners")
        field = guards.Field(corners, "x1")
        law = guards.Guard("law", "boxes", {BOX}, {BOX, corners})
        self.assertIn("x1", guards.mentioned(BOX))
        self.assertIn(field, guards.guarded_fields(law, [corners]))
        self.assertEqual(guards.guarded_fields(law._replace(found={corners}), [corners]), set())
        self.assertEqual(guards.guarded_fields(law._replace(kind="contract"), [corners]), set())
        found = guards.of_fields({corners, BOX}, [law._replace(kind="test")])
        self.assertEqual(guards.told_of(found[field]), "test boxes")
        told = "4 fields of records: 0 by a law, 4 by a test, 0 by a mutant, 0 by none of these"
        self.assertEqual(guards.field_summary(found), told)

    def test_parameters_over_lines(self) -> None:
        self.assertIn("compare_pairs", definitions.source("crates/dpl_graph_tests/src/plain.rt").functions)

    def test_mutant_of_a_definition(self) -> None:
        line = next(line for line in definitions.module(BOX.path).blocks[BOX.name] if line.startswith("is_in_box"))
        self.assertEqual(guards.touched(BOX.path, line, {}), {BOX})


class Page(unittest.TestCase):
    def test_up_to_date(self) -> None:
        done = ran_tool("statement", "--check")
        self.assertEqual(done.status, 0, done.told)


if __name__ == "__main__":
    unittest.main()
