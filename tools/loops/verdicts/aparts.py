"""Which variable would have to lie apart: what the loop gains where each piece of it has a line of its own."""

from collections import Counter
from collections.abc import Callable
from dataclasses import dataclass, replace

from loops.aparts import WORD, apart_of
from loops.gains import Gain
from loops.images import Variable, there
from loops.stores import Apart, Machine

from .chunks import apart as neighbours
from .losses import Losses

MOST_LINES = 2
# What the loop gains over caches, by the machine
Tried = Callable[[Machine], Gain]


@dataclass(frozen=True)
class Parted:
    """What the loop gains where each piece of a variable has a line of its own."""
    name: str
    apart: Apart
    run: Gain


def lines_of(losses: Losses) -> list[int]:
    """The lines that lost most by false sharing, by their addresses."""
    found: Counter[int] = Counter()
    for violation in losses.violations:
        if violation.kind == "false" and violation.first is not None:
            found[violation.first // losses.machine.line * losses.machine.line] += violation.lost
    return [line for line, _ in found.most_common(MOST_LINES)]


def variables_of(losses: Losses, line: int) -> list[Variable]:
    """The variables that were hit in a line, those that lost most first; without a name the line itself."""
    found: Counter[str] = Counter()
    named: dict[str, Variable] = {}
    for violation in losses.violations:
        if violation.kind != "false" or violation.first not in range(line, line + losses.machine.line):
            continue
        one = losses.image.variable_of(there(violation.first)) or Variable(f"{line:08x}", line, losses.machine.line)
        found[one.name] += violation.lost
        named[one.name] = one
    return [named[name] for name, _ in found.most_common()]


def piece_of(losses: Losses, variable: Variable) -> int:
    """How far the elements of neighbouring epochs lie apart, where that is whole words that fit into a line; else a
    word."""
    strides = (stride for (name, stride, _), _ in neighbours(losses).most_common() if name == variable.name)
    return next((stride for stride in strides if stride % WORD == 0 and stride <= losses.machine.line), WORD)


def parted(losses: Losses, tried: Tried) -> list[Parted]:
    """Of the variable that lost most in each of the lines that lost most by false sharing, what the loop gains where it
    lies apart."""
    variables = {one.name: one for line in lines_of(losses) for one in variables_of(losses, line)[:1]}
    parts = [(one.name, apart_of(one, piece_of(losses, one))) for one in variables.values()]
    return [Parted(name, part, tried(replace(losses.machine, apart=part))) for name, part in parts]
