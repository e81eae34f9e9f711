"""A page that steps through a run turn by turn, with the caches at each turn, on standard output. It stands alone and
asks nothing of the network.

Usage: tools/view [--store STORE] [--apart NAME:BYTES] [--cores N] [--from TURN] [--to TURN] [--why COMMAND]
                  < INPUT > RUN.html

Standard input is what `./replay steps` takes: an image, and below it the trace of a run, or lines of turns, which need
--cores. STORE is `plain`, `caches`, or caches of another size, as `caches:sets=64,ways=4`; with --apart each BYTES of
the variable NAME have lines of their own. A page has at most 10,000 turns: of a longer run --from and --to say which,
and the page says what it leaves out. What `./why`, or COMMAND, says of a rollback stands beside its turn. Remarks of
the image, as tools/image-of writes them, name variables and source lines. Where a program refuses the input, its line
comes on standard error, and its status is that of this program.
"""

import argparse
import sys
import tempfile
from collections.abc import Iterable, Iterator
from itertools import takewhile
from pathlib import Path

from loops.aparts import add_apart, store_apart
from loops.endings import tool
from loops import Entry, Programs, Stopped, Unreadable, Violation, iter_steps, read_image
from loops.conflicts import Attempt
from loops.images import there
from loops.programs import add_build, ended
from loops.runs import cores_of, entry_of
from loops.stores import Store, add_store
from loops.texts import iter_lines, keep_input, text_out
from loops.version import add_version
from loops.views import page
from loops.views.data import Told, Turns, page_data
from loops.views.lanes import Lanes

MOST_TURNS = 10_000


def image_in(lines: Iterable[str]) -> str:
    """The text of the image above the trace or the lines of turns."""
    return "".join(takewhile(lambda line: not line.startswith(("turns ", "trace ")), lines))


def keep_trace(path: Path, image: str, lines: Iterator[str]) -> int:
    """Writes an image with the trace that is below a run's report, and answers how many cores it is of."""
    cores = next(cores for cores in map(cores_of, lines) if cores is not None)
    with path.open("wb") as kept:
        kept.write(text_out(f"{ended(image)}trace {cores}\n"))
        kept.writelines(text_out(line + "\n") for line in lines)
    return cores


def named_entries(path: Path, violations: Iterable[Violation]) -> dict[int, Entry]:
    """The entries of a trace that hit the victims of these violations."""
    wanted = {violation.causers.entry for violation in violations if violation.causers}
    lines = iter_lines(path) if wanted else iter(())
    any(cores_of(line.rstrip("\n")) for line in lines)
    return {place: entry_of(place, line.rstrip("\n")) for place, line in enumerate(lines) if place in wanted}


def shown(programs: Programs, given: argparse.Namespace, room: Path) -> str:
    """The page of the run on standard input; files that it needs meanwhile are in a room of their own."""
    source, traced = room / "input", room / "traced"
    keep_input(source)
    image = image_in(iter_lines(source))
    store = there(store_apart(given.store, given.apart, lambda: read_image(image)))
    turns, lines = Turns(given.first, given.last, MOST_TURNS), programs.step_lines(source, store, given.cores)
    for step in iter_steps(lines):
        turns.take(step)
    turns.end()
    cores = keep_trace(traced, image, lines)
    hurts = {entry.place for one in turns.shown for entry in one.step.entries if entry.what == "hurt"}
    violations: dict[int, Violation] = {}
    lanes = Lanes(turns.moments, *turns.bounds)
    for one in programs.iter_why(traced, store, attempts=True):
        if isinstance(one, Violation) and one.place in hurts:
            violations[one.place] = one
        elif isinstance(one, Attempt):
            lanes.take(one)
    told = read_image(image)
    run = Told(told, Store.of_word(store, told.version), named_entries(traced, violations.values()))
    return page(page_data(run, turns, lanes, cores, violations))


@tool
def main() -> int:
    parser = argparse.ArgumentParser(description="A page that steps through a run turn by turn, with the caches at "
                                                 "each turn.")
    add_store(parser, "the store that the run is over, caches without it", "caches")
    add_apart(parser)
    parser.add_argument("--cores", type=int, metavar="N",
                        help="how many cores the lines of turns are for; a trace says it itself")
    parser.add_argument("--from", type=int, default=0, metavar="TURN", dest="first",
                        help="the first turn that is shown")
    parser.add_argument("--to", type=int, metavar="TURN", dest="last", help="the last turn that is shown")
    parser.add_argument("--why", metavar="COMMAND", help="the program that says which conflicts rolled back (./why)")
    add_build(parser)
    add_version(parser)
    given = parser.parse_args()
    try:
        with tempfile.TemporaryDirectory(prefix="view-") as room:
            told = shown(Programs(why_command=given.why), given, Path(room))
    except Stopped as stopped:
        sys.stderr.write(stopped.line)
        return stopped.status
    except Unreadable as wrong:
        print(f"view: {wrong}", file=sys.stderr)
        return 2
    sys.stdout.write(told)
    return 0
