"""What `tools/map` refuses to draw, and that the pictures are up to date."""

from __future__ import annotations

import unittest

from common import tool as ran_tool
from test_papers import load

from cif import Unreadable

tool = load("map")


class Rooms(unittest.TestCase):
    def rooms(self, *crates: str) -> object:
        return [tool.room(str(number), 0, number, "", names) for number, names in enumerate(crates)]

    def test_arrows_leave_ways_out(self) -> None:
        below = {"dpl_a": [], "dpl_b": ["dpl_a"], "dpl_c": ["dpl_a", "dpl_b"]}
        self.assertEqual(tool.arrows(self.rooms("a", "b", "c"), below), [("1", "0"), ("2", "1")])

    def test_each_crate_has_a_room(self) -> None:
        below = {"dpl_a": [], "dpl_b": ["dpl_a"]}
        for crates in (["a"], ["a", "b", "a"], ["a", "b", "c"]):
            with self.subTest(crates=crates), self.assertRaises(Unreadable):
                tool.arrows(self.rooms(*crates), below)

    def test_no_room_stands_on_itself(self) -> None:
        with self.assertRaises(Unreadable):
            tool.arrows(self.rooms("a c", "b"), {"dpl_a": [], "dpl_b": ["dpl_a"], "dpl_c": ["dpl_b"]})

    def test_pictures(self) -> None:
        self.assertEqual(ran_tool("map", "--check").status, 0)


if __name__ == "__main__":
    unittest.main()
