"""Runs, and what they come to: the rows of a chunk of work, made in one process."""

import json
import os
import signal
import sys
from collections.abc import Iterable, Iterator
from dataclasses import asdict
from functools import lru_cache
from pathlib import Path
from typing import TextIO

from loops import Image, Stopped, read_conflicts, read_image, read_output
from loops.costs import costs_words
from loops.programs import call, why_words
from loops.texts import shown, text_in

from .kept import USES, Kept, Row, Work, digest, line_of, rows_in, work_of

KINDS = ("true", "silent", "false", "buffer", "other")
# The lines of the report of `why` that a row needs; those of each violation are many.
SUMS = ("pair ", "kind ", "total ")
# Entries that belong to the turn of the entry below.
OF_OTHERS = ("hurt", "cancel", "publish")


class Failed(Exception):
    """A run that gave no row: the machine stopped it, and not what was asked."""


def stamp(path: Path) -> tuple[int, int, int]:
    """What another file in this place has otherwise."""
    told = path.stat()
    return told.st_mtime_ns, told.st_size, told.st_ino


class Runner:
    """The programs of a study, which stay the same while it runs."""

    def __init__(self, kept: Kept, programs: dict[str, Path]):
        self.kept, self.programs = kept, programs
        self.stamps = {name: stamp(path) for name, path in programs.items()}
        self.digests = {name: digest(path.read_bytes()) for name, path in programs.items()}
        self.image = lru_cache(maxsize=4)(self.read)

    def read(self, name: str, version: int) -> tuple[Image, str]:
        """An image as one of that version, and its text."""
        image = read_image(text_in(self.kept.image(name)))
        image.version = version
        return image, image.text()

    def check(self, work: Work) -> None:
        """Refuses work that other programs are asked for."""
        for name, wanted in work.programs:
            if self.digests.get(name) != wanted or stamp(self.programs[name]) != self.stamps[name]:
                raise Failed(f"the program {name} changed while the study ran; run it again")

    def row(self, work: Work) -> Row:
        """The row of a piece of work. What a program refuses is a row too, but not what the machine stopped."""
        self.check(work)
        try:
            return self.gains(work) if work.schedule == "gain" else self.run(work)
        except Stopped as stopped:
            if stopped.status != 2 and "HistoryFull" not in stopped.line:
                raise Failed(f"{work.says()}: {stopped.line.strip() or f'status {stopped.status}'}") from None
            return {"run": {"stopped": stopped.line.strip()}, "pairs": []}

    def gains(self, work: Work) -> Row:
        """What `gain` prints of an image."""
        _, text = self.image(work.image, work.version)
        return {"gain": call(self.programs["gain"], gain_words(work), text)}

    def run(self, work: Work) -> Row:
        """A run, its sums and its pairs of instructions."""
        image, text = self.image(work.image, work.version)
        printed = call(self.programs[USES[work.schedule][0]], words_of(work), text)
        above, _, trace = printed.partition("\ntrace ")
        head, _, rest = above.partition("\n")
        turns = head.count(" ") if head.startswith("turns ") else turns_in(trace)
        output = read_output(rest if head.startswith("turns ") else above)
        report = call(self.programs["why"], why_words(work.store), f"{text}trace {trace}", (0,))
        conflicts = read_conflicts("\n".join(line for line in report.split("\n") if line.startswith(SUMS)))
        kinds = {kind: sum(one.rollbacks for one in conflicts.kinds if one.kind == kind) for kind in KINDS}
        run = {"stopped": None, "ending": output.report.ending, "end_epoch": output.report.epoch,
               "entries": trace.count("\n") - 1, **asdict(output.counts),
               **asdict(conflicts.total), **kinds, "turns": turns}
        pairs = [{"causer": f"{pair.causer:08x}", "victim": f"{pair.victim:08x}",
                  "causer_line": image.sources.get(pair.causer),
                  "victim_line": image.sources.get(pair.victim),
                  "name": image.name_of(pair.at.first) if pair.at else None, "rollbacks": pair.rollbacks,
                  "lost": pair.lost, **asdict(pair.kinds)} for pair in conflicts.pairs]
        return {"run": run, "pairs": pairs}


def words_of(work: Work) -> list[str]:
    """How the program of a run is called."""
    if work.schedule == "threads":
        return ["run", "--cores", str(work.cores), "--trace"]
    drawn = ["seeded", str(work.seed)] if work.schedule == "seeded" else [work.schedule]
    return [*drawn, str(work.store), str(work.cores), *cost_words(work)]


def gain_words(work: Work) -> list[str]:
    """How `gain` is called."""
    return [str(work.cores), *([work.store] if work.store else []), *["--held"] * work.held, *cost_words(work)]


def cost_words(work: Work) -> list[str]:
    """The words of what turns cost."""
    return [] if work.costs is None else costs_words(work.costs)


def turns_in(trace: str) -> int:
    """The turns of a trace, from behind its word: of each entry that isn't another's."""
    return sum(line.split(" ")[1] not in OF_OTHERS for line in trace.split("\n")[1:] if line)


def made(runner: Runner, work: Iterable[Work], file: TextIO, reasons: TextIO) -> Iterator[bool]:
    """Makes rows, each written as soon as it is there. Of each whether it was made; where it wasn't a line says why."""
    for one in work:
        try:
            file.write(line_of(one, runner.row(one)))
            file.flush()
            yield True
        except (Failed, ValueError, OSError) as wrong:
            print(f"study: {shown(str(wrong))}", file=reasons, flush=True)
            yield False


def run_chunk(path: Path) -> int:
    """Makes the rows of a chunk that aren't there. How many were not made; why stands in a file beside the chunk's,
    since a cluster may show nobody what a job says."""
    told = json.loads(path.read_text(encoding="utf-8"))
    runner = Runner(Kept(Path(told["folder"])), {name: Path(at) for name, at in told["programs"].items()})
    rows = Path(told["rows"])
    there = {work for work, _ in rows_in(rows)} if rows.is_file() else set()
    with rows.open("a", encoding="utf-8") as file, path.with_suffix(".failed").open("w", encoding="utf-8") as reasons:
        file.write("\n" if rows.stat().st_size else "")     # where an earlier try was cut off
        left = [work for work in map(work_of, told["work"]) if work not in there]
        return sum(not good for good in made(runner, left, file, reasons))


def main() -> int:
    """What a job calls, with the file of its chunk."""
    os.chdir("/")
    signal.signal(signal.SIGINT, signal.SIG_DFL)
    return 1 if run_chunk(Path(sys.argv[1])) else 0
