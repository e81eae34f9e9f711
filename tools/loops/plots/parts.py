"""Where the steps of a run's cores went: the parts of its bar, from below, each with how it is drawn."""

from dataclasses import dataclass

from loops.gains import NOT_ALWAYS, Gain


@dataclass(frozen=True)
class Part:
    """A part of a bar. Its hatch tells it without its colour."""
    name: str                           # the field of `gain` that has it
    says: str
    colour: str
    hatch: str


USEFUL = Part("useful", "useful: attempts that committed", "#a9d6e5", "")
# Where turns cost, these stand in its place.
COSTS = [
    Part("busy", "busy: instructions of attempts that committed", "#a9d6e5", ""),
    Part("handling", "handling: their begins, restarts, commits and lines", "#7fb8d0", "-/"),
    Part("memory", "memory: their misses and upgrades", "#9bb7e0", "|\\"),
    Part("queue", "queue: their waits for the bus, and for a commit", "#b7c4ea", "+-"),
]
# Lost steps are shared out over the kinds by how many violations each has.
KINDS = [
    Part("true", "lost, true sharing", "#f4a6a8", "////"),
    Part("silent", "lost, silent stores", "#d8bfe8", "\\\\\\\\"),
    Part("false", "lost, false sharing", "#fbd3a0", "xxxx"),
    Part("buffer", "lost, full buffers", "#c9ced3", "++++"),
]
REST = [
    Part("dropped", "dropped: attempts that an exit cancelled, or the end cut off", "#e3e3e3", "...."),
    Part("nothomefree", "waiting to be the first epoch", "#eef3c4", "----"),
    Part("noway", "waiting for a way in a full set", "#d9ecc0", "||||"),
    Part("orbfull", "waiting for room in the own buffer", "#cfe8dc", "oo"),
    Part("orbbusy", "waiting for another's buffer", "#c3dff0", "OO"),
    Part("held", "held at a load that waits", "#cbe9ee", "**"),
    Part("idle", "idle: without an epoch", "#ffffff", "\\"),
]
PARTS = [USEFUL, *COSTS, *KINDS, *REST]


def amounts(run: Gain) -> dict[Part, float]:
    """The steps of each part; those of all parts are cores x steps."""
    violations = sum(run.count(part.name) for part in KINDS)
    counted = (part for part in (USEFUL, *COSTS, *REST)
               if part.name not in NOT_ALWAYS or getattr(run, part.name) is not None)
    found = {part: float(run.count(part.name)) for part in counted}
    lost = run.count("lost")
    found |= {part: lost * run.count(part.name) / violations if violations else 0.0 for part in KINDS}
    return found


def shares(run: Gain) -> list[tuple[Part, float]]:
    """The parts that occur, from below, each as its share of all steps."""
    found, whole = amounts(run), run.cores * run.count("steps")
    return [(part, found[part] / whole) for part in PARTS if found.get(part)]
