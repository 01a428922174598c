"""Classes under pairs."""


class Classes:
    """The classes of numbers under pairs; the least member stands for its class."""

    def __init__(self, count: int) -> None:
        self.up = list(range(count))

    def root(self, i: int) -> int:
        while self.up[i] != i:
            self.up[i] = self.up[self.up[i]]
            i = self.up[i]
        return i

    def join(self, i: int, j: int) -> None:
        i, j = self.root(i), self.root(j)
        self.up[max(i, j)] = min(i, j)
