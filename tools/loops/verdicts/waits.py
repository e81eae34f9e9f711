"""Which one load would have to wait: what the loop gains where it waits until its epoch is the first."""

from collections.abc import Callable
from dataclasses import dataclass

from loops.gains import Gain

from .losses import Losses

MOST_LOADS = 3
# What the loop gains where the load at this address waits
Tried = Callable[[int], Gain]


@dataclass(frozen=True)
class Waited:
    """What the loop gains where the load at this address waits until its epoch is the first."""
    load: int
    run: Gain


def waited(losses: Losses, tried: Tried) -> list[Waited]:
    """Of the loads that lost most since a store hit them, what each gains that waits."""
    loads = dict.fromkeys(pair.victim for pair, _ in losses.pairs if not pair.full)
    return [Waited(load, tried(load)) for load in list(loads)[:MOST_LOADS]]
