"""Plots what loops gain and where the steps of their cores went, from what `./gain CORES` printed; or what their epochs
need of one another, from what `./depends CORES` printed. The plot is SVG on standard output.

Usage: tools/plot [--csv] [--sizes | --times] [--images FOLDER] [NAME=FILE ..] > GAINS.svg

Each FILE has the lines of one loop, called NAME, or without `NAME=` after the file; without a FILE standard input is
read. --csv writes a row for each run in the place of the plot, of `depends` for each line `dep`. --sizes draws what
loops gain by the size of the caches, of lines over several stores. --times draws the time of each run in hundredths of
the loop on one core, and what its dependences allow, of lines of `gain --limits`; of lines of `gain --costs`, in
hundredths of the loop in order, and what dependences allow only where that pays for no miss. Where FOLDER has
NAME.image, its remarks name variables and lines of dependences. The same lines give the same bytes. The plot needs
Debian's python3-matplotlib. What is no line of either program is refused with a line on standard error and status 2.
"""

import argparse
import importlib.util
import os
import sys
from pathlib import Path

from loops.endings import tool
from loops import Dependences, Image, Unreadable, read_dependences, read_image
from loops.documents import form_of
from loops.gains import Gains, read_gains
from loops.start import words_of
from loops.texts import shown, text_in
from loops.version import add_version


DEBIANS = "/usr/bin/python3"
# What was printed of the loops, by their names: all by one program
Printed = list[tuple[str, str]]


def find_matplotlib() -> None:
    """Runs this program anew by Debian's Python, where the one that runs it has no matplotlib."""
    if importlib.util.find_spec("matplotlib") is None and Path(DEBIANS).exists() and DEBIANS != sys.executable:
        os.execv(DEBIANS, [*words_of("commands.plot", DEBIANS), *sys.argv[1:]])


def named(word: str) -> tuple[str, str]:
    """The name and the text of a word NAME=FILE."""
    name, is_given, file = word.rpartition("=")
    return shown(name if is_given else Path(file).stem), Path(file).read_text(encoding="ascii")


def is_of_depends(printed: Printed) -> bool:
    return all(text.strip() and form_of(text) == "dependences" for _, text in printed)


def image_of(folder: Path | None, name: str) -> Image | None:
    """The image of a loop, where there is one."""
    path = None if folder is None else folder / f"{name}.image"
    return read_image(text_in(path.read_bytes())) if path and path.is_file() else None


def plot_flows(flows: list[tuple[str, Dependences]], folder: Path | None, as_table: bool) -> str:
    """What epochs need of one another."""
    if as_table:
        from loops.plots.table import pair_table
        return pair_table(flows)
    from loops.plots.flows import Flow, drawn
    return drawn([Flow(name, found, image_of(folder, name)) for name, found in flows])


def plot_gains(found: list[tuple[str, Gains]], given: argparse.Namespace) -> str:
    """What loops gain."""
    if not all(gains.runs for _, gains in found):
        raise Unreadable("there is no line of gain")
    if given.csv:
        from loops.plots.table import table
        return table(found)
    from loops.plots import bars, sizes, times
    loops = [bars.Loop(*one) for one in found]
    if given.sizes:
        return sizes.drawn(loops)
    return bars.drawn(loops, times.Times() if given.times else bars.Scale())


def plotted(printed: Printed, given: argparse.Namespace) -> str:
    if is_of_depends(printed):
        return plot_flows([(name, read_dependences(text)) for name, text in printed], given.images, given.csv)
    return plot_gains([(name, read_gains(text)) for name, text in printed], given)


@tool
def main() -> int:
    parser = argparse.ArgumentParser(description="Plots what loops gain and where the steps of their cores went, or "
                                                 "what their epochs need of one another, as SVG on "
                                                 "standard output.")
    parser.add_argument("--csv", action="store_true", help="a row for each line, in the place of the plot")
    form = parser.add_mutually_exclusive_group()
    form.add_argument("--sizes", action="store_true", help="what loops gain by the size of the caches")
    form.add_argument("--times", action="store_true",
                      help="the time of each run in hundredths of the loop on one core, and what dependences allow")
    parser.add_argument("--images", type=Path, metavar="FOLDER",
                        help="has NAME.image, whose remarks name variables and lines of dependences")
    parser.add_argument("files", nargs="*", metavar="NAME=FILE",
                        help="what gain or depends printed of a loop (standard input)")
    add_version(parser)
    given = parser.parse_args()
    if not given.csv:
        find_matplotlib()
    try:
        sys.stdout.write(plotted([named(word) for word in given.files] or [("loop", sys.stdin.read())], given))
    except BrokenPipeError:
        raise
    except (Unreadable, UnicodeError, OSError) as wrong:
        print(f"plot: {wrong}", file=sys.stderr)
        return 2
    except ModuleNotFoundError as missing:
        print(f"plot: {missing.name} is not installed: Debian's package python3-{missing.name}", file=sys.stderr)
        return 2
    return 0
