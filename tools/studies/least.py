"""The search for the least value that meets a requirement, by halves."""

PARTS = 8


class Search:
    """Which values to try next. Values are numbered from the least, 0."""

    def __init__(self, count: int) -> None:
        self.count = count
        self.met: dict[int, bool] = {}

    def learn(self, index: int, is_met: bool) -> None:
        self.met[index] = is_met

    @property
    def found(self) -> int | None:
        """The least value that was tried and does."""
        return min((index for index, is_met in self.met.items() if is_met), default=None)

    def wanted(self) -> tuple[int, ...]:
        """The values to try now; none at the end."""
        return self.untried({0, self.count - 1}) or self.beyond_ends()

    def beyond_ends(self) -> tuple[int, ...]:
        found = self.found
        if found is None:
            return self.untried({(self.count - 1) * part // PARTS for part in range(1, PARTS)})
        below = max((index for index in self.met if index < found), default=-1)
        if found - below > 1:
            return ((below + found) // 2,)
        return self.untried({found - 2, found - 1, found + 1, found + 2})

    def untried(self, indices: set[int]) -> tuple[int, ...]:
        return tuple(sorted(index for index in indices if 0 <= index < self.count and index not in self.met))

    def falls(self) -> list[tuple[int, int]]:
        """Neighbours among the tried values of which the lower one does and the higher one doesn't."""
        tried = sorted(self.met)
        return [(low, high) for low, high in zip(tried, tried[1:]) if self.met[low] and not self.met[high]]
