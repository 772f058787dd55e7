"""How much of something is done in a second."""

from __future__ import annotations

import time


class Pace:
    """So much at once, and then so much in a second, however it comes."""

    def __init__(self, most: int, rate: int) -> None:
        self.left: float
        self.most, self.rate, self.left, self.last = most, rate, most, time.monotonic()

    def pause(self, count: int) -> float | int:
        """Counts so much more; how many seconds it has to wait."""
        now = time.monotonic()
        self.left = min(self.most, self.left + (now - self.last) * self.rate) - count
        self.last = now
        return max(0, -self.left / self.rate)
