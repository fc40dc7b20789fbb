"""A bar on standard error, where that is a terminal."""
import sys
import time

WIDTH = 30
PAUSE = 0.1


class Progress:
    """How many points have ended."""

    def __init__(self, total: int | None) -> None:
        self.total, self.count = total, 0
        self.begun = self.drawn_at = time.monotonic()
        self.is_shown, self.is_drawn = sys.stderr.isatty(), False

    def step(self) -> None:
        self.count += 1
        now = time.monotonic()
        if self.is_shown and (now - self.drawn_at >= PAUSE or self.count == self.total):
            self.drawn_at, self.is_drawn = now, True
            self.write(self.line(now - self.begun))

    def line(self, seconds: float) -> str:
        if self.total is None:
            return f"{self.count} points, {seconds:.0f} s"
        filled = WIDTH * self.count // max(1, self.total)
        rest = seconds / self.count * (self.total - self.count)
        return f"[{'#' * filled}{'.' * (WIDTH - filled)}] {self.count} of {self.total} points, {rest:.0f} s left"

    def write(self, text: str) -> None:
        sys.stderr.write(f"\r\x1b[K{text}")
        sys.stderr.flush()

    def clear(self) -> None:
        """Takes the bar away, until the next step."""
        if self.is_drawn:
            self.is_drawn = False
            self.write("")
