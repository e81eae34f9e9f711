"""A panel for each loop, and in it a row for each pair of instructions that dependences join: from when an epoch stores
to when a later one loads; as SVG that is the same from the same lines."""

import io
import logging
from dataclasses import dataclass
from typing import Any

# it tells that it makes its list of fonts, once on each machine
logging.getLogger("matplotlib").setLevel(logging.ERROR)
import matplotlib  # noqa: E402
from matplotlib.lines import Line2D  # noqa: E402

from loops import Dependences, Image, Joined, OverStore  # noqa: E402

from .bars import PALE, STYLE  # noqa: E402

Axes = Any              # matplotlib's, which has no types
# So many pairs of a loop have a row; of more the last row has those that are left together.
MOST_ROWS = 12
WIDTH, ROW, HEAD = 7.4, 0.42, 0.46
LATE, EARLY = "#b5482a", "#2a6f97"
BAR, APART = 0.16, 0.42
NOTE = ("Each row is a store and a load that dependences of the run in order join: the upper bar is the epoch that "
        "stores, the lower one the one that loads, of\n"
        "the first such dependence, each from its first instruction to its last. An arrow that leads back is stored "
        "later in its epoch than it is loaded: run at\n"
        "a time, the load comes too early. Right of it: how often, how many epochs later, and the two instructions.")


@dataclass
class Flow:
    """The dependences of a loop, with its name, and its image where that is known."""
    name: str
    found: Dependences
    image: Image | None = None

    def said(self, pc: int) -> str:
        """An instruction's line in the source, or its address."""
        return (self.image.sources.get(pc) if self.image else None) or f"{pc:08x}"

    def place(self, pair: Joined) -> str:
        """The variables from the lowest byte to the highest, or the lowest byte."""
        names = [one.name for one in self.image.variables_in(pair.at.first, pair.at.length)] if self.image else []
        return ", ".join(names[:3]) + (" .." if len(names) > 3 else "") or f"{pair.at.first:08x}"


def verdict(told: OverStore) -> str:
    """What is told of a store, in few words."""
    if told.verdict == "never":
        return f"{told.store}: never on up to {told.cores} cores"
    return f"{told.store}: {'rolls back' if told.verdict == 'from' else 'open'} from {told.cores} cores on"


def distance(pair: Joined) -> str:
    least, most = pair.least_distance, pair.most_distance
    return f"{least} later" if least == most else f"{least} to {most} later"


def row(axes: Axes, flow: Flow, pair: Joined, y: float) -> None:
    """The two epochs of a pair, the arrow between them, and what is said of it."""
    late = pair.stored.share > pair.loaded.share
    for offset in (APART / 2, -APART / 2):
        axes.barh(y + offset, 1, BAR, color="#e9edf1", edgecolor=PALE, linewidth=0.5)
    arrow = {"arrowstyle": "-|>", "color": LATE if late else EARLY, "linestyle": "-" if late else "--",
             "linewidth": 1.3, "shrinkA": 0, "shrinkB": 0}
    drawn_arrow = axes.annotate("", (pair.loaded.share, y - APART / 2), (pair.stored.share, y + APART / 2),
                                arrowprops=arrow)
    drawn_arrow.arrow_patch.set_gid(f"{flow.name}-{pair.store:08x}-{pair.load:08x}")
    axes.text(-0.015, y + APART / 2, f"epoch {pair.first_causer}", ha="right", va="center", size=6)
    axes.text(-0.015, y - APART / 2, f"epoch {pair.first_victim}", ha="right", va="center", size=6)
    axes.text(1.03, y + APART / 2, f"{pair.times:,} times, {distance(pair)}: {flow.place(pair)}", ha="left",
              va="center", size=6.2)
    axes.text(1.03, y - APART / 2, f"{flow.said(pair.store)} to {flow.said(pair.load)}", ha="left", va="center",
              size=6.2, color=PALE)


def rows_of(found: Dependences) -> tuple[list[Joined], list[Joined]]:
    """The pairs that have a row of their own, and those that have one together."""
    pairs = found.pairs
    return (pairs, []) if len(pairs) <= MOST_ROWS else (pairs[:MOST_ROWS - 1], pairs[MOST_ROWS - 1:])


def height(found: Dependences) -> int:
    """How many rows a panel has."""
    alone, together = rows_of(found)
    return max(1, len(alone) + bool(together))


def panel(axes: Axes, flow: Flow) -> None:
    """The rows of a loop."""
    alone, together = rows_of(flow.found)
    count = height(flow.found)
    for place, pair in enumerate(alone):
        row(axes, flow, pair, count - 1 - place)
    if together:
        near = min(pair.least_distance for pair in together)
        axes.text(0, 0,
                  f"{len(together)} more pairs, {sum(pair.times for pair in together):,} times, at least {near} later",
                  ha="left", va="center", size=6.2, color=PALE)
    if not flow.found.pairs:
        axes.text(0, 0, "no epoch reads what another one stored", ha="left", va="center", size=6.5, color=PALE)
    axes.set_title(flow.name, size=8.5, weight="bold", loc="left", pad=3)
    axes.set_title("; ".join(verdict(one) for one in flow.found.stores), size=6.8, loc="right", pad=3)
    axes.set_xlim(-0.14, 1.95)
    axes.set_ylim(-0.55, count - 0.45)
    axes.set_axis_off()


def legend() -> list[Line2D]:
    return [Line2D([], [], color=LATE, label="stored later in its epoch than it is loaded"),
            Line2D([], [], color=EARLY, linestyle="--", label="stored before: forwarded, it would be there in time")]


def drawn(flows: list[Flow]) -> str:
    """The plot of these loops."""
    matplotlib.use("svg")
    from matplotlib import pyplot

    with matplotlib.rc_context(STYLE):
        heights = [height(flow.found) for flow in flows]
        below, whole = 0.85, ROW * sum(heights) + HEAD * len(flows) + 0.85
        figure, grid = pyplot.subplots(len(flows), 1, figsize=(WIDTH, whole), squeeze=False,
                                       gridspec_kw={"height_ratios": heights})
        figure.subplots_adjust(left=0.01, right=0.995, top=1 - 0.25 / whole, bottom=below / whole,
                               hspace=(HEAD - 0.12) * len(flows) / (ROW * sum(heights)))
        for axes, flow in zip(grid.flat, flows):
            panel(axes, flow)
        figure.legend(handles=legend(), loc="lower left", ncol=2, frameon=False, fontsize=6.8,
                      bbox_to_anchor=(0.0, 0.5 / whole), borderaxespad=0.2)
        figure.text(0.006, 0.08 / whole, NOTE, size=6.5, color=PALE, va="bottom", linespacing=1.35)
        made = io.StringIO()
        figure.savefig(made, format="svg", facecolor="white", metadata={"Date": None, "Creator": None})
        pyplot.close(figure)
    return made.getvalue()
