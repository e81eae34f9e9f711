"""Makes the images of the loops of a program in C or C++, as it is: the iterations of a loop are the epochs, and memory
is as an entry into the loop found it.

Usage: tools/loops-of [OPTION ..] SOURCE [SOURCE ..]                               lists the loops
       tools/loops-of --loop FILE:LINE [OPTION ..] SOURCE [SOURCE ..] > NAME.image
       tools/loops-of --loop all --out FOLDER [OPTION ..] SOURCE [SOURCE ..]      all of them, for tools/study

`--help` explains each option. The program is compiled by clang for RV32I with picolibc, and runs on Unicorn, with
standard input from a file and no other files. A pass of LLVM makes the iteration of one loop the function `unsigned
loops_body(unsigned epoch)`. What follows from the epoch's number is computed from it; what is carried from one
iteration to the next is in memory, a variable and a line of the caches each.

Each image is checked: with the loop taken out, the program has to give the output, the status, the variables and the
heap that it gives without that, and `seq` of the image has to make of the memory what the program made of it. What
fails is told, WRONG or DIFFERENT, and not written.

It ends with 0 where all is written, with 1 where a loop is refused, with 2 where the program can't be built or run,
with 3 where a check failed. Needs Debian's clang, lld, llvm-14-dev, python3-unicorn, python3-pyelftools,
picolibc-riscv64-unknown-elf and gcc-riscv64-unknown-elf (for its libgcc). The plug-in of LLVM is built once.
"""

import argparse
import re
import shlex
import sys
import tempfile
from pathlib import Path
from typing import NoReturn

from loops.endings import tool
from loops.image_of.reasons import Refused as NoProgram
from loops import Stopped
from loops.images import there
from loops.loops_of.build import Builder, Layout, Loop, kit_of
from loops.loops_of.counting import Counted, Counting
from loops.loops_of.emulator import Given, unicorn
from loops.loops_of.images import LIMIT
from loops.loops_of.making import Choice, Maker
from loops.loops_of.reasons import NOT_ENTERED, Otherwise, Refused, Unusable, iteration, too_long
from loops.loops_of.starts import ROOM, ROOM_OF_CHUNKS
from loops.version import add_version

ALL_WRITTEN, SOME_REFUSED, UNUSABLE, FAULTY = range(4)
MOST_NAMED = 12
FEW_LOOPS = 8
STUDY = ('cores = [1, 2, 4]\nversions = [{version}]\nstores = ["caches", "plain"]\nschedules = ["even"]\ngain = 4\n'
         '[loops]\n')


class Options(argparse.Namespace):
    """The options, as the parser leaves them."""
    sources: list[Path]
    loop: str | None
    out: Path | None
    entry: int | None
    first: int
    epochs: int | None
    chunk: int | None
    args: list[str]
    input: Path | None
    define: list[str]
    include: list[str]
    cflags: list[str]
    version: int
    heap: int
    stack: int
    seconds: int
    flags: list[str]                            # of all of these, those of the compiler
    given: Given


class Parser(argparse.ArgumentParser):
    def error(self, message: str) -> NoReturn:
        raise Unusable(f"{message}; --help explains the options")


def parser() -> Parser:
    made = Parser(prog="loops-of", allow_abbrev=False,
                  description="Lists the loops of a program in C or C++, and makes the images of them: their "
                              "iterations are the epochs.")
    made.add_argument("--loop", metavar="FILE:LINE",
                      help="the loop whose image goes to standard output, as the listing names it; or all, with --out")
    made.add_argument("--out", type=Path, metavar="FOLDER", help="where the images go, and study.toml")
    made.add_argument("--entry", type=int, metavar="K",
                      help="which entry into the loop, counted from 1 (the one with most iterations)")
    made.add_argument("--first", type=int, default=0, metavar="J", help="the iteration that becomes epoch 0 (0)")
    made.add_argument("--epochs", type=int, metavar="N", help="at most so many iterations (all, in up to 65535 epochs)")
    made.add_argument("--chunk", type=int, metavar="N",
                      help="so many iterations an epoch; the last one has what is left (1)")
    made.add_argument("--args", type=shlex.split, default=[], metavar="WORDS",
                      help="the program's command line, as one word: --args='-d 3'")
    made.add_argument("--input", type=Path, metavar="FILE", help="the program's standard input (nothing)")
    made.add_argument("-D", dest="define", action="append", default=[], metavar="NAME[=VALUE]", help="defines a macro")
    made.add_argument("-I", dest="include", action="append", default=[], metavar="FOLDER",
                      help="looks for headers there")
    made.add_argument("--cflags", type=shlex.split, action="extend", default=[], metavar="FLAGS",
                      help="further flags for clang, as one word: --cflags='-std=c99'")
    made.add_argument("--version", type=int, default=2, choices=(1, 2),
                      help="version of the images: 1 has up to 65536 bytes of memory, 2 up to 1048576 (2)")
    add_version(made, "-V")
    made.add_argument("--heap", type=int, default=262_144, metavar="BYTES", help="memory for malloc (262144)")
    made.add_argument("--stack", type=int, default=131_072, metavar="BYTES",
                      help="memory for the program's stack (131072)")
    made.add_argument("--seconds", type=int, default=30, metavar="N",
                      help="how long a run of the program may take (30)")
    made.add_argument("sources", type=Path, nargs="+", metavar="SOURCE", help="all sources of the program")
    return made


def options_of(words: list[str]) -> Options:
    options = parser().parse_args(words, Options())
    for name, least, most in (("entry", 1, 1 << 20), ("first", 0, 1 << 20), ("epochs", 1, 1 << 20),
                              ("chunk", 1, 65_535),
                              ("heap", 0, 1 << 20), ("stack", 1024, 1 << 20), ("seconds", 1, 1 << 20)):
        value: int | None = getattr(options, name)
        if value is not None and not least <= value <= most:
            raise Unusable(f"--{name} takes {least} to {most}")
    if options.chunk and not options.loop:
        raise Unusable("--chunk N goes with --loop")
    if options.loop == "all" and not options.out:
        raise Unusable("--loop all needs --out FOLDER")
    if options.out and options.loop != "all":
        raise Unusable("--out FOLDER goes with --loop all")
    if unicorn is None:
        raise Unusable("not installed, of Debian's packages: python3-unicorn")
    options.flags = [*(f"-D{name}" for name in options.define), *(f"-I{folder}"
                                                                  for folder in options.include), *options.cflags]
    options.given = Given(options.args, options.input.read_bytes() if options.input else b"", options.seconds,
                          options.stack)
    return options


# --- The listing -----------------------------------------------------------------

def row(loop: Loop, counted: Counted, total: int) -> str:
    """A loop in a line."""
    head = f"{loop.place} {loop.function} depth {loop.depth}"
    if loop.refused:
        return f"{head} | refused {loop.refused}"
    if not counted.entries:
        return f"{head} not entered"
    head += (f" entries {counted.entries} iterations {counted.iterations} steps {counted.steps} share "
             f"{100 * counted.steps / max(total, 1):.0f}%")
    long = (too_long(loop.line, iteration(counted.iterated.longest_number), LIMIT) if counted.iterated.longest > LIMIT
            else None)
    refused = counted.system or long
    return f"{head} | " + (f"refused {refused}" if refused else loop.told.text() or "carries nothing")


def listing(builder: Builder, options: Options) -> int:
    """Prints the loops, those that the run doesn't enter last."""
    run = Counting(builder.counted(), options.given, len(builder.loops), builder.kit)
    total = run.counted()
    for loop, counted in sorted(zip(builder.loops, run.loops), key=lambda pair: not pair[1].entries):
        print(row(loop, counted, total))
    return SOME_REFUSED if any(loop.refused for loop in builder.loops) else ALL_WRITTEN


# --- Images ------------------------------------------------------------------------

def choice_of(options: Options) -> Choice:
    return Choice(options.entry, options.first, options.epochs, options.version, options.chunk or 1)


def there_are(loops: list[Loop], file: str) -> str:
    """Which loops there are: those of a file, or of all where it has none; not more than a line's."""
    places = [one.place for one in loops if one.place.startswith(f"{file}:")] or [one.place for one in loops]
    more = [f"and {len(places) - MOST_NAMED} more"] if len(places) > MOST_NAMED else []
    return "there are: " + ", ".join(places[:MOST_NAMED] + more) if places else "there are none"


def one_image(builder: Builder, options: Options) -> int:
    """Prints the image of a loop."""
    wanted = there(options.loop)
    place = Path(wanted).name
    loop = next((one for one in builder.loops if one.place == place), None)
    if loop is None:
        raise Unusable(f"there is no loop at {wanted}; " + there_are(builder.loops, place.rpartition(":")[0]))
    try:
        text, told = Maker(builder, options.given, choice_of(options)).made(loop)
    except Refused as why:
        print(f"{loop.place} {loop.function} refused {why}", file=sys.stderr)
        return SOME_REFUSED
    print(f"{loop.place} {loop.function} {told}", file=sys.stderr)
    sys.stdout.write(text)
    return ALL_WRITTEN


def name_of(loop: Loop, taken: set[str]) -> str:
    """A name for a loop's image: letters, digits and _."""
    stem = (re.sub(r"\W", "_", Path(loop.place.rpartition(":")[0]).stem, flags=re.ASCII) + "_"
            + loop.place.rpartition(":")[2].replace(".", "_"))
    name = next(one for one in [stem, *(f"{stem}_{number}" for number in range(2, len(taken) + 3))] if one not in taken)
    taken.add(name)
    return name


def not_entered(builder: Builder, options: Options) -> set[int]:
    """The places, in the list of all loops, of those that the run doesn't enter. It takes a run, and saves one for each
    of them."""
    if len(builder.loops) <= FEW_LOOPS:
        return set()
    run = Counting(builder.counted(), options.given, len(builder.loops), builder.kit)
    run.counted()
    return {place for place, counted in enumerate(run.loops) if not counted.entries}


def all_images(builder: Builder, options: Options) -> int:
    """Writes the images of all loops into a folder, with a study of them, and tells of each loop."""
    folder = there(options.out)
    folder.mkdir(parents=True, exist_ok=True)
    maker, status = Maker(builder, options.given, choice_of(options)), ALL_WRITTEN
    taken: set[str] = set()
    written: list[str] = []
    left_out = not_entered(builder, options)
    for place, loop in enumerate(builder.loops):
        name = name_of(loop, taken)
        try:
            if place in left_out and not loop.refused:
                raise Refused(NOT_ENTERED)
            text, told = maker.made(loop)
            (folder / f"{name}.image").write_text(text)
            written.append(f'{name} = "{name}.image"\n')
        except Refused as why:
            told, status = (f"refused {why}" if str(why) != NOT_ENTERED else "not entered"), max(status, SOME_REFUSED)
        except Otherwise as why:
            told, status = str(why), FAULTY
        print(f"{loop.place} {loop.function} {told}", flush=True)
    if written:
        (folder / "study.toml").write_text(STUDY.format(version=options.version) + "".join(written))
    return status


def answer(words: list[str]) -> int:
    """What the tool does with the words of its command line, and its status."""
    try:
        options = options_of(words)
        with tempfile.TemporaryDirectory() as folder:
            layout = Layout(options.heap, options.stack, ROOM_OF_CHUNKS if (options.chunk or 1) > 1 else ROOM)
            builder = Builder(options.sources, options.flags, layout, Path(folder), kit_of())
            work = listing if not options.loop else all_images if options.loop == "all" else one_image
            return work(builder, options)
    except (Unusable, NoProgram, Stopped, OSError) as why:
        print(f"loops-of: {why}", file=sys.stderr)
        return UNUSABLE
    except Refused as why:
        print(f"loops-of: refused {why}", file=sys.stderr)
        return SOME_REFUSED
    except Otherwise as why:
        print(f"loops-of: {why}", file=sys.stderr)
        return FAULTY


@tool
def main() -> int:
    return answer(sys.argv[1:])
