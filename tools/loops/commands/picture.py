"""Draws a run and its rollbacks, as SVG on standard output.

Usage: tools/picture [--overview] [--perfetto] [--turns FIRST-LAST] [--store STORE] [--apart NAME:BYTES]
                     [--why COMMAND] < IMAGE_AND_TRACE > PICTURE.svg

Standard input is what `./why` reads: an image, and below it a trace (tools/trace makes it of a run). Which conflicts
rolled back is what `./why`, or COMMAND, says of it. Up to 300 entries it draws a lane for each core, with each load and
store; a longer run, or any with --overview, by epochs. --perfetto writes the events that https://ui.perfetto.dev shows
instead. Above 2,000 entries both are gathered: of the cores a column for each pixel, and of the events counts for each
of up to a thousand parts of the run; with --turns FIRST-LAST --perfetto writes all events of these turns. Remarks of
the image, as tools/image-of writes them, name variables and source lines. --store says over what the run was, as
`caches:sets=64,ways=4`: the picture says it too; with --apart each BYTES of the variable NAME had lines of their own.
Where `why` refuses the input, its line comes on standard error, and its status is that of this program.
"""

import argparse
import gc
import sys

from loops.aparts import add_apart, store_apart
from loops.endings import tool
from loops import Programs, Stopped, Unreadable, read_traced
from loops.programs import add_build
from loops.stores import add_store, store_of
from loops.texts import read_input
from loops.pictures import lanes, overview, perfetto
from loops.pictures.attempts import Run
from loops.version import add_version

MOST_ENTRIES = 300


def turns_of(word: str) -> tuple[int, int]:
    first, _, last = word.partition("-")
    return int(first), int(last)


@tool
def main() -> int:
    parser = argparse.ArgumentParser(description="Draws a run and its rollbacks, as SVG on standard output.")
    parser.add_argument("--overview", action="store_true", help="by epochs, however short the run is")
    parser.add_argument("--perfetto", action="store_true", help="events for ui.perfetto.dev in the place of SVG")
    parser.add_argument("--turns", type=turns_of, metavar="FIRST-LAST",
                        help="with --perfetto: all events of these turns, however long the run is")
    add_store(parser, "what the run was over")
    add_apart(parser)
    parser.add_argument("--why", metavar="COMMAND", help="the program that says which conflicts rolled back (./why)")
    add_build(parser)
    add_version(parser)
    given = parser.parse_args()
    gc.disable()        # nothing that is made here goes before the end
    text = read_input()
    try:
        store = store_apart(given.store, given.apart, lambda: read_traced(text).image)
        conflicts = Programs(why_command=given.why).why(text, store, attempts=True)
    except Stopped as stopped:
        sys.stderr.write(stopped.line)
        return stopped.status
    except Unreadable as wrong:
        print(f"picture: {wrong}", file=sys.stderr)
        return 2
    traced = read_traced(text)
    run = Run(traced, conflicts, store_of(store, traced.image.version))
    form = overview if given.overview or len(run.entries) > MOST_ENTRIES else lanes
    sys.stdout.write(perfetto.draw(run, given.turns) if given.perfetto else form.draw(run))
    return 0
