"""The same loop over caches of other sizes: where what it gains hangs on them."""

from collections.abc import Callable, Iterator
from dataclasses import dataclass, replace

from loops.gains import Gain
from loops.stores import LARGE, MOST_SETS, Machine

# Gains are alike that differ by no more hundredths.
ALIKE = 5
# What the loop gains over caches, by the machine
Tried = Callable[[Machine], Gain]


@dataclass(frozen=True)
class Sized:
    """What the loop gains over caches of some size."""
    machine: Machine
    run: Gain


@dataclass(frozen=True)
class Sizes:
    """What it gains over large caches; and where it gains over the plain store alone, the first caches that gain as
    much."""
    large: Sized
    is_tried: bool = False
    enough: Sized | None = None


def is_enough(run: Gain, other: Gain) -> bool:
    """Whether a run gains as much as another one, within some hundredths."""
    return run.gain is not None and other.gain is not None and 100 * run.gain >= (100 - ALIKE) * other.gain


def are_alike(run: Gain, other: Gain) -> bool:
    """Whether two runs gain the same, within some hundredths; also where it isn't known what one gains."""
    return run.gain is None or other.gain is None or is_enough(run, other) and is_enough(other, run)


def larger_than(machine: Machine) -> Machine | None:
    """The large caches, with the lines of these; None where these have as many."""
    large = replace(machine, **LARGE)
    return large if large.lines > machine.lines else None


def doubled(first: int, end: int) -> Iterator[int]:
    """`4, 8, 16`: powers of two up to the last one below the end."""
    while first < end:
        yield first
        first *= 2


def enough(machine: Machine, large: Sized, plain: Gain, tried: Tried) -> Sized | None:
    """The first caches that gain as the plain store does, with twice as many sets each; None where those with the most
    sets don't. The ways and the buffer are those of the large caches."""
    last = large
    if is_enough(large.run, plain):
        first = next(sets for sets in doubled(1, large.machine.sets + 1) if sets * large.machine.ways > machine.lines)
    else:
        first, most = 2 * large.machine.sets, replace(large.machine, sets=MOST_SETS)
        last = Sized(most, tried(most))
        if not is_enough(last.run, plain):
            return None
    between = (Sized(one, tried(one)) for sets in doubled(first, last.machine.sets)
               for one in [replace(large.machine, sets=sets)])
    return next((one for one in between if is_enough(one.run, plain)), last)
