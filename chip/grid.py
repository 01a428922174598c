"""Boxes found by place."""

from collections.abc import Iterable, Iterator, Sequence

Corners = Sequence[float]


class Grid:
    """Boxes by the squares that they meet."""

    def __init__(self, boxes: Sequence[Corners]) -> None:
        self.boxes = boxes
        sides = sorted(max(b[2] - b[0], b[3] - b[1]) for b in boxes)
        self.side = max(1, sides[len(sides) // 2] * 2) if sides else 1
        self.squares: dict[tuple[int, int], list[int]] = {}
        self.long: list[int] = []
        for k, box in enumerate(boxes):
            squares = list(self.squares_of(box, most=64))
            if not squares:
                self.long.append(k)
            for square in squares:
                self.squares.setdefault(square, []).append(k)

    def squares_of(self, box: Corners, most: int) -> Iterator[tuple[int, int]]:
        """The squares of a box, none where it has more than so many."""
        left, bottom, right, top = (int(v // self.side) for v in box)
        if (right - left + 1) * (top - bottom + 1) > most:
            return
        for x in range(left, right + 1):
            for y in range(bottom, top + 1):
                yield x, y

    def meeting(self, box: Corners) -> list[int]:
        """The numbers of the boxes that meet a box, also at an edge or a corner."""
        squares = list(self.squares_of(box, most=4096))
        if squares:
            near: Iterable[int] = set(self.long).union(*(self.squares.get(square, ()) for square in squares))
        else:
            near = range(len(self.boxes))
        return sorted(k for k in near if meets(self.boxes[k], box))


def meets(a: Corners, b: Corners) -> bool:
    return a[0] <= b[2] and b[0] <= a[2] and a[1] <= b[3] and b[1] <= a[3]
