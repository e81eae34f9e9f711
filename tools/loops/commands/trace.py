"""Runs a loop on threads, and writes its image with the trace of the run below it: what `./why`, `./trace_cli audit`
and tools/picture read.

Usage: tools/trace IMAGE CORES > TRACED.txt

Three commands lead from a C loop to its picture:

    tools/image-of loop.c > loop.image
    tools/trace loop.image 4 > traced.txt
    tools/picture < traced.txt > loop.svg

Where the run is refused or stopped, its line comes on standard error, and its status is that of this program.
"""

import argparse
import sys
from pathlib import Path

from loops.endings import tool
from loops import Programs, Stopped, with_trace
from loops.images import there
from loops.programs import add_build
from loops.texts import text_in, write_output
from loops.version import add_version


@tool
def main() -> int:
    parser = argparse.ArgumentParser(description="Runs a loop on threads, and writes its image with the trace of the "
                                                 "run below it.")
    parser.add_argument("image", type=Path, metavar="IMAGE", help="the text of the loop")
    parser.add_argument("cores", type=int, metavar="CORES",
                        help="how many cores run it, each a thread: 1 to 16, in version 1 of an image to 8")
    add_build(parser)
    add_version(parser)
    given = parser.parse_args()
    text = text_in(given.image.read_bytes())
    try:
        output = Programs().run(text, given.cores)
    except Stopped as stopped:
        sys.stderr.write(stopped.line)
        return stopped.status
    write_output(with_trace(text, there(output.trace)))
    return 0
