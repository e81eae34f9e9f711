"""How far a study is, in a line on standard error: cells done of all, and about how long the rest takes."""

import sys
import time
from pathlib import Path

# On a terminal the line is written anew each second; elsewhere there is a line now and then, and none of a study that
# is over before.
EACH, NOW_AND_THEN = 1.0, 60.0


def clock(seconds: float) -> str:
    """`3 min 05 s`, `2 h 10 min`."""
    minutes, rest = divmod(int(seconds), 60)
    return f"{minutes // 60} h {minutes % 60:02} min" if minutes >= 60 else f"{minutes} min {rest:02} s"


class Progress:
    """The line of a study that has so many cells to do."""

    def __init__(self, whole: int):
        self.whole, self.done = whole, 0
        self.began = self.told = time.monotonic()
        self.read: dict[Path, int] = {}
        self.is_terminal = sys.stderr.isatty()

    def look(self, files: list[Path]) -> None:
        """Counts the rows that were written to these files since it last looked."""
        for path in files:
            with path.open("rb") as file:
                file.seek(self.read.get(path, 0))
                new = file.read()
            self.read[path] = self.read.get(path, 0) + len(new)
            self.done += new.count(b"\n")
        self.tell()

    def line(self) -> str:
        """What is told now."""
        spent = time.monotonic() - self.began
        left = (f", about {clock(spent * (self.whole - self.done) / self.done)} left" if 0 < self.done < self.whole
                else "")
        return f"study: {self.done:,} of {self.whole:,} cells are done{left}"

    def tell(self) -> None:
        """Tells it, where it is time."""
        now = time.monotonic()
        if now - self.told >= (EACH if self.is_terminal else NOW_AND_THEN):
            self.told = now
            print(f"\r\x1b[K{self.line()}" if self.is_terminal else self.line(), end="" if self.is_terminal else "\n",
                  file=sys.stderr, flush=True)

    def end(self) -> None:
        """Takes the line of a terminal away."""
        if self.is_terminal:
            print("\r\x1b[K", end="", file=sys.stderr, flush=True)
