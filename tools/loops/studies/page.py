"""The page of a study: a table of what loops gained, seeds taken together, a table of all runs, and the plot. Both
tables sort by each column."""

from collections.abc import Iterable
from html import escape
from pathlib import Path
from statistics import median

from loops.texts import shown

from .kept import Row
from .plans import Plan

HERE = Path(__file__).resolve().parent
KEYS = ["loop", "version", "store", "cores", "schedule"]
SHOWN = [*KEYS, "apart", "costs", "seed", "ending", "steps", "gain", "order", "busy", "handling", "memory", "queue",
         "held", "committed", "useful", "rollbacks", "lost", "dropped", "true", "silent", "false", "buffer"]
# Those that are there where some run has them: of runs in which a variable lies apart, turns cost something, or loads
# wait
WHERE_THERE = {"apart", "costs", "order", "busy", "handling", "memory", "queue", "held"}
# Of these the least, the middle and the most over the seeds.
SPREAD = ["steps", "gain", "rollbacks", "lost"]
# A word is sorted as a word, and these are numbers.
ORDER = "The order is what the loop takes in order, where turns cost as much. "
WORDS = {"loop", "store", "schedule", "apart", "costs", "ending"}


def said(value: object) -> str:
    """A value in a cell."""
    return "" if value is None else escape(shown(str(value)))


def spread(values: list[float | None]) -> list[object]:
    """The least, the middle and the most of what is known; of the middle two the mean."""
    known = sorted(float(value) for value in values if value is not None)
    return [f"{value:.2f}".removesuffix(".00")
            for value in (known[0], median(known), known[-1])] if known else [None] * 3


def seeded(rows: list[Row]) -> list[list[object]]:
    """A row for each loop, version, store and number of cores that has seeds."""
    groups: dict[tuple[object, ...], list[Row]] = {}
    for row in rows:
        if row["schedule"] == "seeded":
            groups.setdefault(tuple(row[name] for name in KEYS), []).append(row)
    return [[*key, len(of), *(one for name in SPREAD for one in spread([row.get(name) for row in of]))]
            for key, of in groups.items()]


def table(name: str, heads: list[str], rows: Iterable[list[object]]) -> str:
    """A table whose heads are buttons that sort it."""
    head = "".join(f'<th scope="col"{" data-words" if one in WORDS else ""}><button '
                   f'type="button">{said(one)}</button></th>' for one in heads)
    body = "".join("<tr>" + "".join(f"<td>{said(one)}</td>" for one in row) + "</tr>\n" for row in rows)
    return f'<table id="{name}"><thead><tr>{head}</tr></thead>\n<tbody>\n{body}</tbody></table>\n'


def seeds_table(rows: list[Row]) -> str:
    """The table of seeds, where there are some."""
    found = seeded(rows)
    heads = [*KEYS, "seeds", *(f"{name}, {what}" for name in SPREAD for what in ("min", "median", "max"))]
    return f"<h2>Over all seeds</h2>\n{table('seeds', heads, found)}" if found else ""


def shown_names(rows: list[Row]) -> list[str]:
    """The columns of the table of all runs."""
    return [name for name in SHOWN if name not in WHERE_THERE or any(row.get(name) is not None for row in rows)]


def plots_told(plots: list[tuple[str | None, str]]) -> str:
    """The plots, each at its costs."""
    return "\n".join(plot if costs is None else f"<h2>Where turns cost {said(costs)}</h2>\n{plot}"
                     for costs, plot in plots if plot)


def page(plan: Plan, rows: list[Row], plots: list[tuple[str | None, str]]) -> str:
    """The whole page, which stands alone. The plots have the costs at which they are."""
    title = (f"A study of {len(plan.loops)} loop{'s' * (len(plan.loops) != 1)}, {len(rows):,} "
             f"run{'s' * (len(rows) != 1)}")
    names = shown_names(rows)
    stopped = "".join(f"<p>{said(row['loop'])} on {row['cores']} cores, {row['schedule']}"
                      f"{f' at {said(costs)}' if costs else ''}: {said(row['stopped'])}</p>\n"
                      for row in rows if row["stopped"] for costs in [row["costs"]])
    style, script = ((HERE / name).read_text(encoding="utf-8") for name in ("page.css", "page.js"))
    return ('<!DOCTYPE html>\n<html lang="en"><head><meta charset="utf-8"><meta name="viewport" '
            f'content="width=device-width"><title>{title}</title>\n'
            f"<style>\n{style}</style></head><body>\n<h1>{title}</h1>\n"
            '<p><a href="runs.csv">runs.csv</a>, <a href="pairs.csv">pairs.csv</a>, <a '
            f'href="manifest.json">manifest.json</a></p>\n{plots_told(plots)}\n{stopped}'
            f"{seeds_table(rows)}<h2>All runs</h2>\n<p>Steps at even speed are those of <code>gain</code>, an "
            "instruction a step and what turns cost; by other schedules they are the turns "
            "of a run shared out over its cores. The gain is how many times more one core alone takes. "
            f"{ORDER if 'order' in names else ''}A click on a head sorts by it.</p>\n"
            f"{table('runs', names, ([row.get(name) for name in names] for row in rows))}<script>\n{script}</script>\n"
            "</body></html>\n")
