"""Runs a study: loops x cores x versions x stores x schedules, many runs a job, by Snakemake (Debian's package
snakemake), here or on a cluster.

Usage: tools/study FILE.toml [--out FOLDER] [--jobs N] [--chunk N] [-- SNAKEMAKE-WORD ..]

FILE.toml has, for example:

    cores = [1, 2, 4]
    versions = [1, 2]
    stores = ["caches", "caches:sets=64,ways=4,buffer=16", "plain"]
    schedules = ["even", "seeded"]      # and "threads", whose figures differ from run to run
    seeds = [1, 2, 3]
    held = true                         # at even speed also where loads wait for what earlier epochs store
    costs = ["bus=10", "miss=20,line=20,hold=5"]    # and also where turns cost so much
    apart = ["bins:4"]                  # and over caches where each 4 bytes of this variable have a line of their own
    gain = 8                            # plots of what each loop gains on up to 8 cores
    [loops]
    histogram = "histogram.image"

The folder gets runs.csv, pairs.csv, manifest.json and page.html. Each row is kept with the digests of the image and of
the programs by which it was made, and a row that is there isn't made again: a study that was stopped goes on where it
was, and one whose table, images or programs changed runs what is new. A few runs are tried first, so that a job takes
some 20 seconds; --chunk says how many runs a job has. Words behind `--` are Snakemake's, as `--profile
tools/loops/studies/profiles/slurm` of a cluster. Needs Debian's python3-jsonschema; the status is 2 where the table is
refused, and 1 where a run failed.
"""

import argparse
import fcntl
import os
import signal
import subprocess
import sys
from os import cpu_count
from pathlib import Path

from loops.endings import tool
from loops import Programs, Stopped
from loops.programs import add_build, built
from loops.start import words_of
from loops.texts import shown
from loops.studies.jobs import SNAKEFILE, Wishes, make_rows, unquotable
from loops.studies.kept import USES, Kept, Row, digest
from loops.studies.page import page
from loops.studies.plans import BadPlan, Plan, read_plan
from loops.studies.together import Study, write_tables
from loops.version import add_version


def number(word: str) -> int:
    """A number of jobs or runs."""
    if not word.isdecimal() or not 1 <= int(word) <= 100_000:
        raise argparse.ArgumentTypeError(f"{word!r} isn't a number from 1 to 100000")
    return int(word)


def given_words(words: list[str]) -> argparse.Namespace:
    """The words of the command line; those behind `--` are Snakemake's, wherever it stands."""
    parser = argparse.ArgumentParser(description="Runs a study of loops, many runs a job, by Snakemake.",
                                     epilog="Words behind -- are Snakemake's, as a profile of a cluster.")
    parser.add_argument("plan", type=Path, metavar="FILE.toml",
                        help="the loops, cores, versions, stores, schedules and seeds")
    parser.add_argument("--out", type=Path, default=Path("study"), metavar="FOLDER",
                        help="where all of it goes (study)")
    parser.add_argument("--jobs", type=number, default=cpu_count(), metavar="N",
                        help="as many jobs side by side (one for each processor)")
    parser.add_argument("--chunk", type=number, metavar="N",
                        help="so many runs a job (as many as take some 20 seconds, by a trial)")
    add_build(parser)
    add_version(parser)
    at = words.index("--") if "--" in words else len(words)
    given = parser.parse_args(words[:at])
    given.words = words[at + 1:]
    return given


def programs_of(plan: Plan) -> dict[str, Path]:
    """Where the programs are that a study runs. Those that aren't built are built first with --build, and refused
    without."""
    names = {name for schedule in plan.schedules for name in USES[schedule]} | ({"gain"} if plan.gain
                                                                                or "even" in plan.schedules else set())
    names |= set(USES["even"])
    return {name: Path(built(Programs().folder / name)).resolve(strict=True) for name in sorted(names)}


def locked(folder: Path) -> int:
    """Locks a folder, as long as this program or one that it began runs; OSError where another has."""
    held = os.open(folder / "lock", os.O_CREAT | os.O_RDWR, 0o644)
    try:
        fcntl.flock(held, fcntl.LOCK_EX | fcntl.LOCK_NB)
    except BlockingIOError:
        raise OSError(f"{folder}: another study runs in this folder") from None
    return held


def plot(study: Study, folder: Path, place: int, costs: str | None) -> str:
    """The plot of what loops gain at these costs, which is kept as gains.svg too, or with the costs' place."""
    if not study.plan.gain:
        return ""
    lines_in = folder / "gains" / str(place)
    lines_in.mkdir(parents=True, exist_ok=True)
    words = []
    for number, (loop, works) in enumerate(study.plotted(costs).items()):
        lines = study.plotted_lines(works)
        if lines:
            (lines_in / f"{number}.txt").write_text(lines, encoding="ascii")
            words.append(f"{loop}=gains/{place}/{number}.txt")
    if not words:
        return ""
    done = subprocess.run([*words_of("commands.plot"), *words], cwd=folder, stdout=subprocess.PIPE, check=False)
    if done.returncode:
        raise OSError("there is no plot of the gains")
    (folder / f"gains{f'-{place}' if place else ''}.svg").write_bytes(done.stdout)
    return done.stdout.decode("utf-8").partition("<svg")[2].join(["<svg", ""])


def put_together(study: Study, kept: Kept) -> None:
    """The tables and the page."""
    rows: list[Row] = study.run_rows()
    write_tables(study, kept, rows)
    for left in kept.folder.glob("gains-*.svg"):        # at costs that aren't asked for any more
        left.unlink()
    plots = [(costs, plot(study, kept.folder, place, costs)) for place, costs in enumerate(study.plan.all_costs())]
    (kept.folder / "page.html").write_text(page(study.plan, rows, plots), encoding="utf-8",
                                           errors="backslashreplace")


def studied(given: argparse.Namespace, plan: Plan) -> str | None:
    """Runs a study. Answers why it isn't complete, or None."""
    programs, kept = programs_of(plan), Kept(given.out)
    kept.begin()
    lock = locked(given.out)
    study = Study(plan, {loop: kept.keep_image(text) for loop, text in plan.texts.items()},
                  {name: digest(path.read_bytes()) for name, path in programs.items()})
    needed, there = study.needed(), kept.all_rows()
    left = [work for work in needed if work not in there]
    wrong = make_rows(kept, programs, left, Wishes(given.jobs, given.chunk, given.words), lock) if left else None
    study.rows = kept.all_rows() if left else there
    missing = sum(work not in study.rows for work in needed)
    if missing:
        return (f"{missing:,} of {len(needed):,} runs have no row{f': {wrong}' if wrong else ''}; called again, the "
                "study goes on with these")
    put_together(study, kept)
    return None


def answer(words: list[str]) -> int:
    """What the tool does with the words of its command line, and its status."""
    given = given_words(words)
    for sign in (signal.SIGINT, signal.SIGTERM):
        signal.signal(sign, lambda number, _: sys.exit(128 + number))
    for path in (given.out.absolute(), SNAKEFILE):
        bad = unquotable(path)
        if bad:
            print(f"study: {shown(str(path))}: the path has the character {bad!r}, which Snakemake would hand to a "
                  "shell", file=sys.stderr)
            return 2
    try:
        plan = read_plan(given.plan)
    except (BadPlan, OSError) as bad_plan:
        where = f"{shown(str(given.plan))}: " if isinstance(bad_plan, BadPlan) else ""
        for line in str(bad_plan).splitlines():
            print(f"study: {where}{line}", file=sys.stderr)
        return 2
    try:
        wrong = studied(given, plan)
    except Stopped as stopped:
        wrong = str(stopped)
    except (OSError, ValueError) as failed:
        wrong = str(failed)
    if wrong:
        print(f"study: {shown(wrong)}", file=sys.stderr)
    return 1 if wrong else 0


@tool
def main() -> int:
    return answer(sys.argv[1:])
