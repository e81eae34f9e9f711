"""The jobs of a study: the work that is left is shared out over chunks, each a job of Snakemake's, which runs it here
or on a cluster."""

import json
import os
import shutil
import signal
import subprocess
import sys
import tempfile
import time
from dataclasses import dataclass
from pathlib import Path

from .kept import Kept, Work
from .progress import Progress
from .runs import Runner, made

SNAKEFILE = Path(__file__).resolve().parent / "Snakefile"
# A job takes so many seconds, by what the work of a first few takes, each tried here.
SECONDS_A_JOB, SECONDS_OF_TRIAL, MOST_A_JOB = 20.0, 2.0, 5000
SECONDS_TO_END, MOST_REASONS = 30, 20
# How the folder's name begins in which Snakemake works.
ROOM = ".study-jobs-"
# What Snakemake hands to a shell in the scripts of cluster jobs isn't quoted against these.
UNQUOTED = set("'\"\\$`!")


@dataclass
class Wishes:
    """How jobs are to be run."""
    jobs: int                           # so many side by side
    chunk: int | None                   # so many pieces of work in each, or as many as take some seconds
    words: list[str]                    # further words of Snakemake's


def unquotable(path: Path) -> str | None:
    """The first character of a path that Snakemake would hand to a shell unquoted, or None."""
    return next((one for one in str(path) if one in UNQUOTED or not one.isprintable()), None)


def tried(runner: Runner, work: list[Work], rows: Path) -> float:
    """Makes rows for some seconds here, taken from all over the work, and gives the seconds that one takes."""
    step = max(1, len(work) // 50)
    began, count = time.monotonic(), 0
    with rows.open("a", encoding="utf-8") as file:
        for _ in made(runner, [one for start in range(step) for one in work[start::step]], file, sys.stderr):
            count += 1
            if time.monotonic() - began > SECONDS_OF_TRIAL:
                break
    return (time.monotonic() - began) / max(1, count)


def chunks(work: list[Work], size: int) -> list[list[Work]]:
    """The work in as many chunks as chunks of this size need; neighbours, which take about as long, are in different
    ones. In each those of an image stand together."""
    count = -(-len(work) // size)
    return [sorted(work[start::count], key=lambda one: (one.image, one.version)) for start in range(count)]


def size_of_chunks(seconds: float, count: int, jobs: int) -> int:
    """How many pieces of work a job has, where one takes so long: those of some 20 seconds, and fewer where jobs would
    be without any."""
    return max(1, min(MOST_A_JOB, int(SECONDS_A_JOB / max(seconds, 1e-6)), -(-count // max(1, jobs))))


def write_chunks(room: Path, kept: Kept, run: int, programs: dict[str, Path], parts: list[list[Work]]) -> list[Path]:
    """The files of the chunks, and those to which their rows will be written."""
    rows = [kept.rows.absolute() / f"{run:04}-{number + 1:05}.jsonl" for number in range(len(parts))]
    for number, (part, path) in enumerate(zip(parts, rows)):
        told = {"folder": str(kept.folder.absolute()), "programs": {name: str(at) for name, at in programs.items()},
                "rows": str(path), "work": [one.text() for one in part]}
        (room / f"{number}.json").write_text(json.dumps(told), encoding="utf-8")
    return rows


def ended(process: subprocess.Popen[bytes]) -> None:
    """Asks a process and all that it began to end, and makes them. Who asks for this again is not heard."""
    for sign in (signal.SIGINT, signal.SIGTERM) if process.poll() is None else ():
        signal.signal(sign, signal.SIG_IGN)
    for sign, seconds in ((signal.SIGINT, SECONDS_TO_END), (signal.SIGKILL, SECONDS_TO_END)):
        try:
            os.killpg(process.pid, sign)
            process.wait(seconds)
        except ProcessLookupError:
            return
        except subprocess.TimeoutExpired:
            continue


def with_whole_paths(words: list[str]) -> list[str]:
    """Snakemake's words with the whole path of a profile that is there: it looks for the profile here, and for the
    scripts of it where it works."""
    before = ["", *words]
    told = [("--profile=", word.removeprefix("--profile=")) if word.startswith("--profile=") else ("", word)
            for word in words]
    is_path = [lead or last == "--profile" for (lead, _), last in zip(told, before)]
    return [lead + (os.path.abspath(path) if is_one and os.path.exists(path) else path)
            for (lead, path), is_one in zip(told, is_path)]


def snakemake(room: Path, wishes: Wishes, rows: list[Path], progress: Progress, lock: int) -> int:
    """Runs Snakemake over the chunks of a folder, and answers its status. The folder stays locked while any of it
    runs. No job needs another one, so that it needs no solver to say which begin."""
    own = ["--snakefile", str(SNAKEFILE), "--directory", str(room), "--cores", str(wishes.jobs), "--force-use-threads",
           "--scheduler", "greedy", "--keep-going", "--quiet", "all", "--nolock"]
    # Python takes no module from the folder that a job is called in, nor writes beside the tree's
    env = {**os.environ, "PYTHONSAFEPATH": "1", "PYTHONDONTWRITEBYTECODE": "1"}
    process = subprocess.Popen(["snakemake", *own, *with_whole_paths(wishes.words)], env=env, start_new_session=True,
                               pass_fds=[lock], stdout=sys.stderr)
    try:
        while process.poll() is None:
            progress.look([path for path in rows if path.exists()])
            time.sleep(0.2)
    finally:
        ended(process)
    progress.look([path for path in rows if path.exists()])
    return process.returncode


def tell_reasons(room: Path) -> None:
    """Tells why rows were not made, each reason once."""
    reasons = list(dict.fromkeys(line for path in sorted(room.glob("*.failed"))
                                 for line in path.read_text(encoding="utf-8", errors="replace").splitlines()))
    for line in reasons[:MOST_REASONS]:
        print(line, file=sys.stderr)
    if len(reasons) > MOST_REASONS:
        print(f"study: and {len(reasons) - MOST_REASONS} more reasons", file=sys.stderr)


def make_rows(kept: Kept, programs: dict[str, Path], work: list[Work], wishes: Wishes, lock: int) -> str | None:
    """Makes the rows of this work. Answers why it can't, or None."""
    run, progress, size = kept.next_run(), Progress(len(work)), wishes.chunk
    if size is None:
        path = kept.rows / f"{run:04}-00000.jsonl"
        seconds = tried(Runner(kept, programs), work, path)
        progress.look([path])
        there = kept.all_rows()
        work = [one for one in work if one not in there]
        size = size_of_chunks(seconds, len(work), wishes.jobs)
    if not work:
        return None
    if not shutil.which("snakemake"):
        return "snakemake is not installed: Debian's package snakemake"
    for left in kept.folder.glob(f"{ROOM}*"):       # by a study that was killed
        shutil.rmtree(left, ignore_errors=True)
    room = Path(tempfile.mkdtemp(prefix=ROOM, dir=kept.folder.absolute()))
    try:
        status = snakemake(room, wishes, write_chunks(room, kept, run, programs, chunks(work, size)), progress, lock)
    finally:
        progress.end()
        tell_reasons(room)
        shutil.rmtree(room, ignore_errors=True)
    return f"snakemake ended with status {status}" if status else None
