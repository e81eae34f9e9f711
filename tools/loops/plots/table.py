"""The lines of `gain`, or the lines `dep` of `depends`, as CSV: a row for each, with the name of its loop."""

import csv
import io
from dataclasses import fields

from loops import Dependences, Joined
from loops.gains import COSTED, Gain, Gains

NAMES = [one.name for one in fields(Gain)]
# The columns that are there where some run has them, and those of yes and no
WHERE_THERE, ARE_ASKED = {"waits", "held", *COSTED}, ("full", "waits")
PAIR_NAMES = ("store load times least_distance most_distance at bytes first_causer first_victim stored stored_of "
              "loaded loaded_of").split()


def word_of(run: Gain, name: str) -> str:
    value: str | float | None = getattr(run, name)
    if value is None:
        return ""
    return f"{value:.2f}" if name == "gain" else str(int(value)) if name in ARE_ASKED else str(value)


def has(run: Gain, name: str) -> bool:
    """The run has a figure of this name, or is so."""
    value: bool | float | None = getattr(run, name)
    return value is not None and value is not False


def table(named: list[tuple[str, Gains]]) -> str:
    """The rows, below a row of names. What a run hasn't is empty; full and waits are 0 or 1. waits, held and what turns
    cost are there where some run has them."""
    names = [name for name in NAMES
             if name not in WHERE_THERE or any(has(run, name) for _, gains in named for run in gains.runs)]
    made = io.StringIO()
    rows = csv.writer(made, lineterminator="\n")
    rows.writerow(["loop", *names])
    rows.writerows([name, *(word_of(run, field) for field in names)] for name, gains in named for run in gains.runs)
    return made.getvalue()


def pair_words(pair: Joined) -> list[str | int]:
    """The fields of a pair of instructions; addresses have eight hexadecimal digits."""
    return [f"{pair.store:08x}", f"{pair.load:08x}", pair.times, pair.least_distance, pair.most_distance,
            f"{pair.at.first:08x}", pair.at.length,
            pair.first_causer, pair.first_victim, pair.stored.done, pair.stored.of, pair.loaded.done, pair.loaded.of]


def pair_table(named: list[tuple[str, Dependences]]) -> str:
    """The same of the pairs of instructions that dependences join."""
    made = io.StringIO()
    rows = csv.writer(made, lineterminator="\n")
    rows.writerow(["loop", *PAIR_NAMES])
    rows.writerows([name, *pair_words(pair)] for name, found in named for pair in found.pairs)
    return made.getvalue()
