"""A line on a terminal that shows how far something is."""

import sys
import time
from collections.abc import Iterable, Iterator

WIDTH = 30
SECONDS_BETWEEN = 0.2


def human(size: float) -> str:
    """A count of bytes as people read it."""
    unit = min(max(int(size).bit_length() - 1, 0) // 10, 4)
    return f"{size / 1_024**unit:.{min(unit, 1)}f} {'BKMGT'[unit]}"


class Progress:
    """Counts bytes, and shows them with their rate where standard error is a terminal."""

    def __init__(self, whole: int):
        self.whole, self.done, self.begun, self.shown = whole, 0, time.monotonic(), 0.0
        self.is_shown = sys.stderr.isatty()

    def close(self) -> None:
        if self.is_shown:
            self.show("\n")

    def counted(self, parts: Iterable[bytes]) -> Iterator[bytes]:
        """The same parts, each of which is counted once it is taken."""
        for part in parts:
            yield part
            self.done += len(part)
            if self.is_shown and time.monotonic() - self.shown >= SECONDS_BETWEEN:
                self.show("")

    def show(self, end: str) -> None:
        self.shown = time.monotonic()
        rate = self.done / max(self.shown - self.begun, 0.001)
        bar = "#" * round(WIDTH * min(self.done / max(self.whole, 1), 1.0))
        told = f"[{bar:<{WIDTH}}] {human(self.done)} of {human(self.whole)}, {human(rate)}/s"
        print(f"\r{told}\x1b[K", end=end, file=sys.stderr, flush=True)
