"""A panel for each loop, and in it for each number of cores a bar for each store, as caches and the plain store; as SVG
that is the same from the same lines."""

import io
import logging
import textwrap
from dataclasses import dataclass
from typing import Any

# it tells that it makes its list of fonts, once on each machine
logging.getLogger("matplotlib").setLevel(logging.ERROR)
import matplotlib  # noqa: E402
from matplotlib.patches import Patch  # noqa: E402

from loops.gains import Gain, Gains  # noqa: E402
from loops.stores import USUAL  # noqa: E402

from .parts import PARTS, shares  # noqa: E402

Axes = Any              # matplotlib's, which has no types
MOST_COLUMNS, PANEL_WIDTH, PANEL_HEIGHT = 3, 3.1, 1.8
MOST_TICKS = 5
# So wide are the bars of a number of cores together, and so far are they apart at most.
WIDTH, GAP, INK, PALE = 0.88, 0.04, "#1d2733", "#6b7785"
# So many inches stand left of the bars, and so much wider are panels apart than that of their width, where the words
# of the ticks have up to three digits; and what each further digit takes of both.
LEFT, APART, DIGIT_LEFT, DIGIT_APART = 0.4, 0.16, 0.06, 0.03
# So many letters of the note fit in an inch, and so high is a line of it.
LETTERS, NOTE_LINE = 21, 0.12
NOTE = ("Each bar is all steps of all cores of a run at even speed, one instruction a step and {pace}; above it "
        "stands the gain over one core.\n"
        "{stores}, below them the cores. Lost steps are shared out over the kinds by their violations.")
# How fast turns are, and what a hundred hundredths are, by whether turns cost anything
PACES = {False: "no latency", True: "what turns cost"}
WHOLES = {False: "on one core", True: "in order"}
SIGNS = {"caches": "c: over caches", "plain": "p: over a plain store of bytes", "held caches": "hc: held over caches",
         "held plain": "hp: held over a plain store"}
STYLE = {"svg.fonttype": "none", "text.parse_math": False, "svg.hashsalt": "gain", "font.size": 7.0,
         "hatch.linewidth": 0.5, "hatch.color": PALE, "text.color": INK,
         "axes.edgecolor": PALE, "xtick.color": INK, "ytick.color": PALE, "font.family": "sans-serif",
         "font.sans-serif": ["DejaVu Sans"]}


@dataclass
class Loop:
    """The runs of a loop, with its name."""
    name: str
    gains: Gains


def is_costed(loop: Loop) -> bool:
    """Turns cost something in some run of the loop."""
    return any(run.order is not None for run in loop.gains.runs)


class Scale:
    """How high bars are, and what stands above them: here all are as high, below their gains."""
    note = NOTE

    def height(self, loop: Loop, run: Gain) -> float | None:
        """How high the bar of a run is; none where it has no bar."""
        return None if run.full else 1.0

    def top(self, loop: Loop) -> float:
        """How high the axis of a loop is."""
        return 1.0

    def said(self, loop: Loop, run: Gain) -> str:
        """What stands above a bar."""
        return "full" if run.full else "-" if run.gain is None else f"{run.gain:.2f}"

    def mark(self, axes: Axes, loop: Loop, cores: int, place: int, stores: "Stores") -> None:
        """What is drawn over the bars of a number of cores: nothing."""

    def marks_told(self, loops: list[Loop]) -> str:
        """What the note says of that."""
        return ""


class Stores:
    """The stores of all loops, in the order in which they come: where their bars stand, and the sign below each."""

    def __init__(self, loops: list[Loop]) -> None:
        words = list(dict.fromkeys(run.word for loop in loops for run in loop.gains.runs))
        numbered = [word for word in words if word not in SIGNS]
        self.words = [*USUAL] if set(words) <= set(USUAL) else words
        self.gap = min(GAP, WIDTH / len(self.words) / 4)
        self.wide = (WIDTH - (len(self.words) - 1) * self.gap) / len(self.words)
        self.says = {word: SIGNS.get(word) or f"{numbered.index(word) + 1}: over {word}" for word in self.words}

    def place(self, store: str) -> float:
        """How far right of the middle its bar is."""
        return (self.words.index(store) - (len(self.words) - 1) / 2) * (self.wide + self.gap)

    def are_many(self) -> bool:
        """There are more than the usual ones, so the gains above the bars are upright."""
        return len(self.words) > len(USUAL)

    def sign(self, store: str) -> str:
        return self.says[store].partition(":")[0]


def bar(axes: Axes, loop: Loop, run: Gain, x: float, stores: Stores, scale: Scale) -> None:
    """A bar at a place: its parts, and what is said above it."""
    base, height, top = 0.0, scale.height(loop, run), scale.top(loop)
    parts = [] if height is None else [(part, share * height) for part, share in shares(run)]
    for part, high in parts:
        drawn = axes.bar(x, high, stores.wide, base, color=part.colour, hatch=part.hatch, edgecolor=PALE,
                         linewidth=0.5)
        drawn[0].set_gid(f"{loop.name}-{run.word.replace(' ', '-')}-{run.cores}-{part.name}")
        base += high
    size = 6.2 if len(stores.words) < 6 else 5.0
    axes.text(x, base + 0.03 * top, scale.said(loop, run), ha="center", va="bottom", size=size,
              rotation=90 if run.full or stores.are_many() else 0,
              weight="bold" if run.word == "caches" else "normal")
    axes.text(x, -0.04 * top, stores.sign(run.word), ha="center", va="top", size=6.2, color=PALE)


def ticks_up_to(top: float) -> list[float]:
    """The ticks of an axis: halves up to a few, then as many wholes apart as leave room for the words beside them."""
    apart = 0.5 if top < 2 else -(-int(top) // MOST_TICKS)
    return [apart * place for place in range(int(top / apart) + 1)]


def words_up_to(top: float) -> list[str]:
    """The words beside these ticks."""
    return ["0", *(f"{100 * tick:.0f} %" for tick in ticks_up_to(top)[1:])]


def further_digits(loops: list[Loop], scale: Scale) -> int:
    """How many digits more than three the longest word of a tick has."""
    return max([0, *(len(words_up_to(scale.top(loop))[-1]) - len("100 %") for loop in loops)])


def panel(axes: Axes, loop: Loop, stores: Stores, scale: Scale) -> None:
    """The bars of a loop."""
    cores, top = sorted({run.cores for run in loop.gains.runs}), scale.top(loop)
    for run in loop.gains.runs:
        bar(axes, loop, run, cores.index(run.cores) + stores.place(run.word), stores, scale)
    for place, count in enumerate(cores):
        scale.mark(axes, loop, count, place, stores)
    axes.set_title(loop.name, size=8.5, weight="bold", loc="left", pad=20 if stores.are_many() else 15)
    axes.set_xlim(-0.6, max(len(cores), 3) - 0.4)
    axes.set_ylim(0, top)
    axes.set_xticks(range(len(cores)), [f"{count} core{'s' if count > 1 else ''}" for count in cores], size=6.8)
    axes.tick_params(axis="x", length=0, pad=9)
    axes.set_yticks(ticks_up_to(top), words_up_to(top), size=6.2)
    axes.spines[["top", "right"]].set_visible(False)


def noted(loops: list[Loop], stores: Stores, scale: Scale, columns: int) -> str:
    """The note below so many columns of panels, in lines that fit."""
    are_costed = any(map(is_costed, loops))
    note = scale.note.format(stores=", ".join(stores.says.values()), pace=PACES[are_costed], whole=WHOLES[are_costed])
    note += scale.marks_told(loops)
    return "\n".join(textwrap.fill(line, int(columns * PANEL_WIDTH * LETTERS), break_on_hyphens=False)
                     for line in note.split("\n"))


def drawn(loops: list[Loop], scale: Scale = Scale()) -> str:
    """The plot of these loops."""
    matplotlib.use("svg")
    from matplotlib import pyplot

    stores = Stores(loops)
    with matplotlib.rc_context(STYLE):
        columns = min(MOST_COLUMNS, max(2, len(loops)))
        note = noted(loops, stores, scale, columns)
        more = NOTE_LINE * (note.count("\n") - 1)
        rows = -(-len(loops) // columns)
        occur = {part for loop in loops for run in loop.gains.runs if not run.full for part, _ in shares(run)}
        told = [Patch(facecolor=part.colour, hatch=part.hatch, edgecolor=PALE, linewidth=0.5, label=part.says)
                for part in PARTS if part in occur]
        below = 0.5 + 0.16 * -(-len(told) // columns) + more
        height = rows * PANEL_HEIGHT + below + 0.1
        figure, grid = pyplot.subplots(rows, columns, figsize=(columns * PANEL_WIDTH, height), squeeze=False)
        digits = further_digits(loops, scale)
        figure.subplots_adjust(left=(LEFT + DIGIT_LEFT * digits) / (columns * PANEL_WIDTH), right=0.995,
                               top=1 - 0.42 / height, bottom=(below + 0.35) / height, hspace=0.68,
                               wspace=APART + DIGIT_APART * digits)
        panels = list(grid.flat)
        for axes, loop in zip(panels, loops):
            panel(axes, loop, stores, scale)
        for axes in panels[len(loops):]:
            axes.set_visible(False)
        figure.legend(handles=told, loc="lower left", ncol=columns, frameon=False, fontsize=6.8,
                      bbox_to_anchor=(0.0, (0.34 + more) / height), handlelength=2.4,
                      handleheight=1.1, columnspacing=1.6, labelspacing=0.35, borderaxespad=0.2)
        figure.text(0.006, 0.08 / height, note, size=6.5, color=PALE, va="bottom", linespacing=1.35)
        made = io.StringIO()
        figure.savefig(made, format="svg", facecolor="white", metadata={"Date": None, "Creator": None})
        pyplot.close(figure)
    return made.getvalue()
