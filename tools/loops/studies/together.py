"""What a study comes to: of each cell the work that it needs, and from the rows of that runs.csv, pairs.csv and
manifest.json."""

import csv
import json
import subprocess
from dataclasses import asdict, replace
from functools import cache, cached_property
from pathlib import Path

from loops.gains import Gain, Gains, read_gains
from loops.images import MOST_CORES, read_image
from loops.programs import IN_TREE, TREE
from loops.stores import USUAL
from loops.texts import shown, text_in

from .kept import USES, Kept, Row, Work
from .plans import PACED, Cell, Plan

# `gain` runs on these numbers of cores besides the one that it is asked for, as far as they are fewer.
POWERS = (1, 2, 4, 8)
# Where the steps of all cores of a run at even speed went, as `gain` has it: a column of runs.csv each. Those that
# `why` counts too, in instructions, are called steps.
STEPS = {"order": "order", "useful": "useful_steps", "busy": "busy", "handling": "handling", "memory": "memory",
         "queue": "queue", "lost": "lost_steps", "dropped": "dropped_steps", "waiting": "waiting", "held": "held",
         "idle": "idle"}


class Study:
    """A plan with the digests of its images and of the programs, and the rows that are there."""

    def __init__(self, plan: Plan, images: dict[str, str], programs: dict[str, str]):
        self.plan, self.images, self.programs = plan, images, programs
        self.rows: dict[Work, Row] = {}

    def with_programs(self, work: Work) -> Work:
        """A piece of work, with the digests of the programs that it takes."""
        return replace(work, programs=tuple((name, self.programs[name]) for name in sorted(USES[work.schedule])))

    def run_of(self, cell: Cell) -> Work:
        """The run of a cell."""
        return self.with_programs(Work(self.images[cell.loop], cell.version, cell.cores, cell.schedule, cell.store,
                                       cell.seed, cell.costs))

    def alone(self, cell: Cell) -> Work:
        """The run on one core that a cell's gain is measured by. On one core all schedules are the same."""
        return self.with_programs(Work(self.images[cell.loop], cell.version, 1, "even", cell.store))

    def gains_of(self, cell: Cell) -> Work | None:
        """Of a cell at even speed what `gain` is asked; None where it hasn't so many cores."""
        most = max((cores for cores in self.plan.cores if cores <= MOST_CORES[cell.version]), default=0)
        if cell.cores > most:
            return None
        return self.gains(self.images[cell.loop], cell.version, most if cell.cores in POWERS else cell.cores,
                          cell.store, cell.costs)

    def gains(self, image: str, version: int, cores: int, store: str, costs: str | None) -> Work:
        """What `gain` is asked over a store: it is asked for caches and the plain store together, and for runs in which
        loads wait beside the others."""
        return self.with_programs(Work(image, version, cores, "gain", None if store in USUAL else store, costs=costs,
                                       held=self.plan.held))

    def plotted(self, costs: str | None) -> dict[str, list[Work]]:
        """What `gain` is asked of each loop for the plot at these costs, in the version of its image."""
        return ({} if not self.plan.gain
                else {loop: self.plotted_of(image, read_image(text_in(self.plan.texts[loop])).version, costs)
                      for loop, image in self.images.items()})

    def plotted_of(self, image: str, version: int, costs: str | None) -> list[Work]:
        return list(dict.fromkeys(self.gains(image, version, self.plan.gain, store, costs)
                                  for store in self.plan.stores))

    def plotted_lines(self, works: list[Work]) -> str:
        """What `gain` printed over the stores of the plan, in their order; nothing where it was stopped."""
        runs = [run for work in works for run in gains_in(self.rows[work].get("gain", "")).runs]
        return "".join(run.text() for store in self.plan.stores for run in runs if run.store == store)

    @cached_property
    def cells(self) -> list[Cell]:
        return self.plan.cells()

    def needed(self) -> list[Work]:
        """All that the tables and the plot are made of, each once."""
        found: dict[Work, None] = {}
        for cell in self.cells:
            found[self.run_of(cell)] = None
            more = self.gains_of(cell) if cell.schedule in PACED else self.alone(cell)
            if more:
                found[more] = None
        return list(found | dict.fromkeys(work for costs in self.plan.all_costs()
                                          for works in self.plotted(costs).values() for work in works))

    def gained(self, cell: Cell) -> Gain | None:
        """What `gain` said of a run at even speed."""
        work, word = self.gains_of(cell), f"held {cell.store}" if cell.schedule == "held" else cell.store
        told = self.rows[work].get("gain") if work else None
        return gains_in(told).of(word, cell.cores) if told else None

    def speed(self, cell: Cell, row: Row) -> Row:
        """How many steps a cell took, and how many times fewer these are than on one core: at even speed as `gain`
        says, with where the steps of all cores went, else its turns shared out over the cores."""
        if cell.schedule in PACED:
            found = self.gained(cell)
            return {"steps": found and found.steps,
                    "gain": found.told("gain") if found and found.gain is not None else None,
                    **{column: found and getattr(found, name) for name, column in STEPS.items()}}
        one, turns = self.rows[self.alone(cell)]["run"].get("turns"), row.get("turns")
        steps = None if turns is None else -(-turns // cell.cores)
        return {"steps": steps, "gain": f"{one * cell.cores * 100 // turns / 100:.2f}" if one and turns else None}

    def run_rows(self) -> list[Row]:
        """The rows of runs.csv."""
        found = []
        for cell in self.cells:
            work = self.run_of(cell)
            row, programs = self.rows[work]["run"], dict(work.programs)
            found.append({**asdict(cell), **row, **self.speed(cell, row), "image_sha256": work.image,
                          "runner_sha256": programs[USES[cell.schedule][0]], "why_sha256": programs["why"]})
        return found

    def pair_rows(self) -> list[Row]:
        """The rows of pairs.csv."""
        return [{**asdict(cell), **pair} for cell in self.cells for pair in self.rows[self.run_of(cell)]["pairs"]]

    def manifest(self, kept: Kept) -> Row:
        """By what the rows were made: the same from the same plan, images and programs."""
        works = {cell: self.run_of(cell) for cell in self.cells}
        images = {cell.loop: work.image for cell, work in works.items()}
        programs = dict(sorted(one for work in self.needed() for one in work.programs))
        return {"commit": commit(), "plan": self.plan.text(), "images": images,
                "made": {loop: made_from(kept.image(name)) for loop, name in images.items()}, "programs": programs}


@cache
def gains_in(text: str) -> Gains:
    """What `gain` printed, read once."""
    return read_gains(text)


def commit() -> str:
    """The commit of the tree that this file stands in, or nothing."""
    if not IN_TREE:
        return ""
    try:
        return subprocess.run(["git", "-C", str(TREE), "rev-parse", "HEAD"], capture_output=True, text=True,
                              check=False).stdout.strip()
    except OSError:
        return ""


def made_from(text: bytes) -> str | None:
    """What the remarks of an image say that it was made from."""
    found = (line[1:].strip() for line in text_in(text).split("\n") if line.startswith("# Made from"))
    return next(map(shown, found), None)


def write_rows(path: Path, rows: list[Row]) -> None:
    """A table as CSV."""
    names = list(dict.fromkeys(name for row in rows for name in row))
    with path.open("w", newline="", encoding="utf-8", errors="backslashreplace") as file:
        writer = csv.DictWriter(file, names, lineterminator="\n")
        writer.writeheader()
        writer.writerows(rows)


def write_tables(study: Study, kept: Kept, rows: list[Row]) -> None:
    """runs.csv, pairs.csv and manifest.json."""
    write_rows(kept.folder / "runs.csv", rows)
    write_rows(kept.folder / "pairs.csv", study.pair_rows())
    (kept.folder / "manifest.json").write_text(json.dumps(study.manifest(kept), indent=1) + "\n", encoding="ascii")
