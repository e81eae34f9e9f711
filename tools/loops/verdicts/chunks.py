"""Neighbours of one array that share lines of the caches: how many iterations an epoch should have, so that it has
whole lines."""

from collections import Counter
from dataclasses import dataclass

from loops import Image
from loops.gains import Gain
from loops.pictures.words import stored_at

from .losses import Losses

# Fewer hundredths of what a loop loses aren't worth a proposal.
LEAST_SHARE = 50


@dataclass(frozen=True)
class Chunk:
    """A proposal: so many iterations an epoch, and on what it rests."""
    array: str
    apart: int                  # bytes from an iteration's element to that of the next
    size: int                   # iterations of an epoch
    lost: int                   # instructions, in rollbacks of neighbours in one line
    of: int                     # instructions lost in all


@dataclass(frozen=True)
class Measured:
    """What the loop gains with so many iterations an epoch."""
    size: int
    one: Gain
    caches: Gain


def apart(losses: Losses) -> Counter[tuple[str, int, int]]:
    """The instructions lost in false sharing between two epochs in one array, by the array, by how far neighbours lie
    apart in it, and by where that of epoch 0 would be."""
    found: Counter[tuple[str, int, int]] = Counter()
    for violation in losses.violations:
        stored = stored_at(losses, violation)
        if (violation.kind != "false" or violation.first is None or stored is None
            or violation.epoch == violation.by_epoch):
            continue
        mine, other = losses.image.variable_of(violation.first), losses.image.variable_of(stored)
        stride, rest = divmod(violation.first - stored, violation.epoch - violation.by_epoch)
        if mine is not None and mine == other and not rest and 0 < stride < losses.machine.line:
            found[mine.name, stride, violation.first - stride * violation.epoch] += violation.lost
    return found


def maker_of(image: Image) -> str:
    """The tool that made an image: the first remark of loops-of says which loop it is."""
    return "loops-of" if image.remarks and image.remarks[0].startswith(" The loop at ") else "image-of"


def proposal(losses: Losses) -> Chunk | None:
    """How many iterations an epoch should have, where it is neighbours of one array that lose most of what is lost."""
    found = apart(losses).most_common(1)
    if not found or 100 * found[0][1] < LEAST_SHARE * losses.lost:
        return None
    (array, stride, _), lost = found[0]
    size = losses.machine.line // stride
    # whole lines, as far as elements begin with one
    return Chunk(array, stride, size, lost, losses.lost) if size > 1 else None
