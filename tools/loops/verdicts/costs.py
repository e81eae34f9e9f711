"""Up to which cost of communication a loop takes fewer steps than in order."""

from collections.abc import Callable
from dataclasses import dataclass

from loops.gains import Gain

# The highest cost of each action that is tried, as by `gain --even-at`
MOST_TRIED = 60
# Unasked they are tried of a loop that takes at most so many steps on one core. At the rates of bench/even that takes
# seconds, and no minutes.
SHORT = 20_000
# What the loop gains where each action costs so many steps more
Tried = Callable[[int], Gain]


@dataclass(frozen=True)
class Dearest:
    """The highest cost of each action at which the loop takes fewer steps than in order, and the higher ones of which
    that isn't known."""
    at: int | None                      # none where it doesn't where nothing costs either
    full: list[int]                     # from high to low: here its history was full


def is_short(one: Gain) -> bool:
    """Whether the costs are tried unasked, by the run on one core."""
    return one.steps is not None and one.steps <= SHORT


def dearest(tried: Tried) -> Dearest:
    """Tries each cost, from the highest on, since dearer turns may take fewer steps."""
    full = []
    for cost in range(MOST_TRIED, -1, -1):
        run = tried(cost)
        if run.full:
            full.append(cost)
        elif run.count("steps") < run.count("order"):
            return Dearest(cost, full)
    return Dearest(None, full)
