"""A panel for each loop, and in it a line for each number of cores: what it gains over caches of more and more lines,
and over the plain store; as SVG that is the same from the same lines."""

import io
from typing import Any

import matplotlib

from loops import Unreadable
from loops.stores import Machine, counted

from .bars import INK, PALE, STYLE, Loop

Axes = Any              # matplotlib's, which has no types
COLUMNS, PANEL_WIDTH, PANEL_HEIGHT = 2, 3.6, 2.0
# Lines are told by their marks and dashes, without their colours too.
LOOKS = [("#2a6f97", "o", "-"), ("#b5482a", "s", "--"), ("#5b7f2b", "^", "-."), ("#6d4b91", "D", ":"), (INK, "v", "-")]
NOTE = ("The gain at even speed over one core, by the lines of a core's cache{}.\n"
        "Right of the gap: over a plain store of bytes.")


def machines_of(loops: list[Loop]) -> list[Machine]:
    """The caches of all loops, each once and smaller ones first."""
    words = {run.store for loop in loops for run in loop.gains.runs} - {"plain"}
    found = sorted({Machine.of_word(word) for word in words}, key=lambda one: (one.lines, one.sets))
    if len({one.lines for one in found}) < len(found) or len(found) < 2:
        raise Unreadable("the sizes of caches are wanted: lines of gain over two caches or more, each with another "
                         "number of lines")
    return found


def alike(machines: list[Machine]) -> str:
    """In what the caches don't differ, for people."""
    ways, buffers = ({getattr(one, key) for one in machines} for key in ("ways", "buffer"))
    told = [counted(min(ways), "way")] if len(ways) == 1 else []
    told += [f"a buffer of {counted(min(buffers), 'line')}"] if len(buffers) == 1 else []
    return f" ({' and '.join(told)})" if told else ""


def panel(axes: Axes, loop: Loop, machines: list[Machine], most: float) -> None:
    """The lines of a loop."""
    cores = sorted({run.cores for run in loop.gains.runs if run.cores > 1})
    places = {one.lines: place for place, one in enumerate(machines)}
    for (colour, mark, dashes), count in zip(LOOKS, reversed(cores)):
        runs = {Machine.of_word(run.store).lines: run for run in loop.gains.runs
                if run.cores == count and run.word == run.store != "plain"}
        known = [(places[lines], run.gain) for lines, run in sorted(runs.items()) if run.gain is not None]
        drawn, = axes.plot(*zip(*known), color=colour, marker=mark, linestyle=dashes, markersize=3.5, linewidth=1.1,
                           label=counted(count, "core"))
        drawn.set_gid(f"{loop.name}-{count}")
        plain = loop.gains.of("plain", count)
        if plain and plain.gain is not None:
            axes.plot([len(machines) + 0.4], [plain.gain], color=colour, marker=mark,
                      markersize=3.5)[0].set_gid(f"{loop.name}-{count}-plain")
    axes.set_title(loop.name, size=8.5, weight="bold", loc="left", pad=4)
    axes.set_xticks([*range(len(machines)), len(machines) + 0.4], [*(f"{one.lines:,}" for one in machines), "plain"],
                    size=6.5)
    axes.axvline(len(machines) - 0.3, color=PALE, linewidth=0.4)
    axes.set_ylim(0, most)
    axes.tick_params(axis="both", length=2, labelsize=6.5)
    axes.axhline(1, color=PALE, linewidth=0.5, linestyle=":")
    axes.spines[["top", "right"]].set_visible(False)


def drawn(loops: list[Loop]) -> str:
    """The plot of these loops."""
    matplotlib.use("svg")
    from matplotlib import pyplot

    machines = machines_of(loops)
    most = 1.08 * max([run.gain for loop in loops for run in loop.gains.runs if run.gain is not None] + [1.0])
    with matplotlib.rc_context(STYLE):
        rows = -(-len(loops) // COLUMNS)
        wide, height = COLUMNS * PANEL_WIDTH, rows * PANEL_HEIGHT + 0.6
        figure, grid = pyplot.subplots(rows, COLUMNS, figsize=(wide, height), squeeze=False)
        figure.subplots_adjust(left=0.36 / wide, right=0.99, top=1 - 0.26 / height, bottom=0.86 / height, hspace=0.42,
                               wspace=0.12)
        panels = list(grid.flat)
        for axes, loop in zip(panels, loops):
            panel(axes, loop, machines, most)
        for axes in panels[len(loops):]:
            axes.set_visible(False)
        figure.legend(*panels[0].get_legend_handles_labels(), loc="lower left", ncol=4, frameon=False, fontsize=6.8,
                      bbox_to_anchor=(0.0, 0.36 / height),
                      borderaxespad=0.2, handlelength=3.2)
        figure.text(0.006, 0.08 / height, NOTE.format(alike(machines)), size=6.5, color=PALE, va="bottom",
                    linespacing=1.35)
        made = io.StringIO()
        figure.savefig(made, format="svg", facecolor="white", metadata={"Date": None, "Creator": None})
        pyplot.close(figure)
    return made.getvalue()
