"""The same bars as high as the time that a run takes, as papers of the field draw them: in hundredths of the loop on
one core, or where turns cost, of the loop in order; with the times that its dependences allow as marks."""

from typing import Any

from loops.gains import Gain, Limit

from .bars import INK, WIDTH, Loop, Scale, Stores, is_costed

Axes = Any              # matplotlib's, which has no types
# The marks of a number of cores: in which field of a limit each stands, and how it is drawn
MARKS = {"commit": "-", "forward": ":"}
WAYS = "where a load waits for the commit (whole) or for the store (dotted)"
# How far a line goes beyond the bars of a number of cores
BEYOND = 0.03


def may_be_marked(run: Gain) -> bool:
    """Whether limits may stand over a bar. They are of turns that cost nothing; so the loop in order, by which a bar
    is measured, has to take a step an instruction too: no miss of it costs anything."""
    return not run.full and (run.order is None or run.order == run.busy)


class Times(Scale):
    """Bars as high as their run's steps to those on one core, or in order where turns cost, below that number."""
    note = ("Each bar is the time of a run at even speed, one instruction a step and {pace}, in hundredths of the "
            "loop {whole}; its parts are where the steps of all cores went.\n"
            "{stores}, below them the cores. Lost steps are shared out over the kinds by their violations.")

    def height(self, loop: Loop, run: Gain) -> float | None:
        whole = self.whole(loop, run)
        return None if run.full or not whole else run.count("steps") / whole

    def whole(self, loop: Loop, run: Gain) -> int | None:
        """The steps of a hundred hundredths. None where they aren't known."""
        one = loop.gains.of(run.store, 1)
        return run.order if run.order is not None else None if one is None else one.steps

    def top(self, loop: Loop) -> float:
        return max([1.0, *(height for run in loop.gains.runs for height in [self.height(loop, run)] if height)])

    def said(self, loop: Loop, run: Gain) -> str:
        height = self.height(loop, run)
        return "full" if run.full else "-" if height is None else f"{100 * height:.0f}"

    def mark(self, axes: Axes, loop: Loop, cores: int, place: int, stores: Stores) -> None:
        """A line at each limit over the bars, in the steps that the loop takes on one core; where turns cost, over each
        bar that may have one, in those that it takes in order."""
        one, limit = loop.gains.limit(1), loop.gains.limit(cores)
        if one is None or limit is None:
            return
        if not is_costed(loop):
            line(axes, f"{loop.name}-{cores}", limit, one, place, WIDTH / 2 + BEYOND)
            return
        for run in (run for run in loop.gains.runs if run.cores == cores and may_be_marked(run)):
            order = run.count("busy")
            line(axes, f"{loop.name}-{run.word.replace(' ', '-')}-{cores}", limit, Limit(1, order, order),
                 place + stores.place(run.word), stores.wide / 2)

    def marks_told(self, loops: list[Loop]) -> str:
        """What the note says of these lines, where there are limits."""
        limited = [loop for loop in loops if loop.gains.limits]
        if not any(map(is_costed, limited)):
            return f" Lines: what dependences allow, {WAYS}." if limited else ""
        marked = [may_be_marked(run) for loop in limited for run in loop.gains.runs if not run.full]
        if not any(marked):
            return (" What dependences allow isn't drawn: it is of turns that cost nothing, and here the loop in order "
                    "pays for its misses.")
        return (f" Lines: what dependences allow of turns that cost nothing, {WAYS}"
                + ("." if all(marked) else "; none where the loop in order pays for its misses."))


def line(axes: Axes, name: str, limit: Limit, whole: Limit, middle: float, half: float) -> None:
    """The lines of a limit in hundredths of a whole, over what is so wide."""
    for field, dashes in MARKS.items():
        height = getattr(limit, field) / getattr(whole, field)
        axes.plot((middle - half, middle + half), [height, height], color=INK, linewidth=0.9, linestyle=dashes,
                  zorder=5)[0].set_gid(f"{name}-{field}")
