#!/usr/bin/env python3
"""Tests tools/loops-of: what it says of the loops of the programs in loops_of/, and their images, beside the native
compiler and the emulator; and each mistake is told.

Usage: tests/loops_of.py [COMMAND ..]

COMMAND is a command of `trace_cli` that ends with the word `seq`; without it that of this repository is tested. What
the listing has to say stands in the programs, behind `//: `, by hand. Output and status come from the compiler `cc`,
memory from Unicorn: each image has to be `same`. Mistakes are planted in the plug-in, in the emulator and in images:
the check has to say WRONG or DIFFERENT. Programs in loops_of/refused say in their first line why they are refused.
Without the packages that tools/loops-of names it is left out, and a line says so; csmith's programs are left out
without Debian's csmith. Exits with 1 where a check failed.
"""

import os
import re
import shlex
import shutil
import sys
import tempfile
from collections.abc import Iterator
from functools import partial
from pathlib import Path
from typing import NamedTuple

from common import ROOT, Check, Script, beside, called_bytes, called_tool, called_well, differs, left_out, there

sys.path.insert(0, str(ROOT / "tools"))

from loops import Image  # noqa: E402
from loops.loops_of.build import Kit  # noqa: E402
from loops.loops_of.emulator import Entries, Run  # noqa: E402

PROGRAMS = Path(__file__).with_suffix("")
EXAMPLES = ROOT / "examples" / "programs"
SOURCES = [*sorted(PROGRAMS.glob("*.c")), *sorted(PROGRAMS.glob("*.cpp")), *sorted(EXAMPLES.glob("*.c"))]
SEEDS = (1, 2, 3, 5, 6, 9, 11, 12, 13, 14)                  # of random programs


def loops_of(*words: object, seconds: int = 120) -> tuple[str, str, int]:
    """What the tool prints, what it says on standard error, and its status."""
    done = called_tool("loops-of", *map(str, words), seconds=seconds)
    return done.stdout, done.stderr, done.returncode


class Call(NamedTuple):
    """A program, its words and its standard input."""
    source: Path
    words: list[str]
    given: bytes


class Request(NamedTuple):
    """Words of the tool; its status, what stands at the head of an image, and what standard error has to say."""
    words: list[object]
    status: int
    head: str
    told: str


class Chunk(NamedTuple):
    """A loop, its program, how many iterations an epoch has, with further words; what is told, and how many epochs."""
    place: str
    source: Path
    words: list[object]
    told: str
    epochs: int


# --- The listing -----------------------------------------------------------------

def expected_of(source: Path) -> dict[str, str]:
    """What has to be said of each loop, by its line, and by LINE.2 of the second one of a line. It stands behind the
    loop's line, or below it."""
    found, line, count = {}, 0, 0
    for number, text in enumerate(source.read_text().splitlines(), 1):
        code, *all_told = text.split("//: ")
        if code.strip():
            line, count = number, 0
        for told in all_told:
            count += 1
            found[f"{line}.{count}" if count > 1 else str(line)] = told.strip()
    return found


def said_of(listing: str, source: Path) -> dict[str, str]:
    """What the listing says, in the words of the programs: without names of files, and without steps, which are the
    compiler's."""
    found = {}
    for line in listing.splitlines():
        place, _, rest = line.replace(f"{source.name}:", "").partition(" ")
        counts = re.search(r"entries (\d+) iterations (\d+)", rest)
        told = rest.partition(" | ")[2] or re.sub(r".* depth \d+ ?", "", rest)
        found[place] = (" ".join(counts.groups()) + " | " if counts else "") + told
    return found


def listings() -> Iterator[Check]:
    for source in SOURCES:
        expected = expected_of(source)
        if expected:
            out, errors, status = loops_of(source)
            yield (f"the loops of {source.name}", differs(said_of(out, source), expected)
                   or (f"{errors}, {status}" if status > 1 else None))


# --- Images ------------------------------------------------------------------------

def native(source: Path, folder: Path, words: list[str], given: bytes,
           flags: list[str] | None = None) -> tuple[bytes, int]:
    """Output and status by the compiler of this machine."""
    made = folder / "native"
    compiler = "c++" if source.suffix == ".cpp" else "cc"
    called_well([compiler, "-O1", "-w", *(flags or []), "-o", made, source, "-lm"])
    done = called_bytes([made, *words], given)
    return done.stdout, done.returncode & 0xFF if done.returncode >= 0 else 128 - done.returncode


def emulated(source: Path, folder: Path, words: list[str], given: bytes,
             flags: list[str] | None = None) -> tuple[bytes, int | None]:
    """The same as the tool runs it."""
    from loops.loops_of.build import Builder, Layout, kit_of
    from loops.loops_of.emulator import Given, Run
    builder = Builder([source], flags or [], Layout(262_144, 65_536), folder, kit_of())
    run = Run(builder.plain(), Given(words, given)).whole()
    return bytes(run.output), run.status


def natives(folder: Path) -> Iterator[Check]:
    """Programs print and end as those of the native compiler do."""
    if not (shutil.which("cc") and shutil.which("c++")):
        left_out("output beside the native compiler", "there is no cc, or no c++")
        return
    for source, words, given in [*(Call(source, [], b"") for source in SOURCES),
                                 Call(PROGRAMS / "words.c", ["-n", "3"], b"one two\nthree\n\nfour"),
                                 Call(PROGRAMS / "words.c", ["-n", "9"], b"one")]:
        yield (f"{source.name} {words} beside cc",
               differs(emulated(source, folder, words, given), native(source, folder, words, given)))


def same(folder: Path) -> Iterator[Check]:
    """Each loop's image is `same`, but for those that the program says are refused."""
    from loops.studies.plans import read_plan
    for source in SOURCES:
        kinds = {"refused": "refused", "not": "not"}        # the first words of what isn't an image
        expected = {line: kinds.get(told.split()[0], "same:") for line, told in expected_of(source).items()}
        if not expected:
            continue
        out, errors, status = loops_of("--loop", "all", "--out", folder / source.stem, "--heap", 65_536, source)
        got = {line.partition(" ")[0].rpartition(":")[2]: line.split(" ")[2] for line in out.splitlines()}
        yield (f"the images of {source.name}",
               differs((got, status), (expected, 1 if set(expected.values()) != {"same:"} else 0))
               and f"{out}{errors}{status}")
        plan = read_plan(folder / source.stem / "study.toml")
        yield f"the study of {source.name}", differs(len(plan.loops), list(expected.values()).count("same:"))


def random_programs(folder: Path) -> Iterator[Check]:
    """Programs that csmith makes of fixed seeds: output beside the native compiler's, and no image that is wrong."""
    if not shutil.which("csmith") or not shutil.which("cc") or not Path("/usr/include/csmith/csmith.h").is_file():
        left_out("random programs", "there is no csmith, no libcsmith-dev or no cc")
        return
    for seed in SEEDS:
        source = folder / f"random{seed}.c"
        source.write_text(called_well(["csmith", "--seed", str(seed), "--max-funcs", "2", "--max-block-depth", "2",
                                       "--no-argc"]))
        expected = native(source, folder, [], b"", ["-I/usr/include/csmith"])
        out, errors, status = loops_of("--cflags=-I/usr/include/csmith", "--loop", "all", "--out", folder / "random",
                                     source, seconds=600)
        wrong = [line for line in out.splitlines() if not re.search(r" (same:|refused|not entered)", line)]
        yield f"the loops of csmith's seed {seed}", f"{wrong}{errors}{status}" if wrong or status > 1 else None
        yield (f"the output of csmith's seed {seed}",
               differs(emulated(source, folder, [], b"", ["-I/usr/include/csmith"]), expected))


# --- What is refused, and what can be asked for ------------------------------------

def refusals(folder: Path) -> Iterator[Check]:
    """A loop that is refused, at its line and with its reason, in each of the programs whose first line says which; and
    programs that can't be taken."""
    for source in sorted((PROGRAMS / "refused").glob("*.c*")):
        mark, _, reason = source.read_text().partition("\n")[0].partition(" ")
        if mark in ("//:", "//!"):
            beside = [source.with_name("main_again_other.c")] if source.stem == "main_again" else []
            options = re.search(r"(?m)^// options: (.*)$", source.read_text())
            words = shlex.split(options[1]) if options else []
            out, errors, status = loops_of("--loop", "all", "--out", folder / "refused", *words, source, *beside)
            told = (re.search(rf"(?m) (refused|not entered)(?: {reason})?$", out) if mark == "//:"
                    else re.search(rf"(?m)^loops-of: {reason}", errors))
            right = told and status == (1 if mark == "//:" else 2) and "WRONG" not in out
            yield f"refused: {source.name}", None if right else f"{out}{errors}{status}"


def requests(folder: Path) -> Iterator[Check]:
    """Entries, windows and places; what is no request."""
    forms, small, words = (PROGRAMS / name for name in ("forms.c", "small.c", "words.c"))
    for given, status, head, told in (
            Request(["--loop", "forms.c:38", "--entry", 7, forms], 0, "entry 7 of 100, with 15 iterations",
                    "same: entry 7 of 100, 15 of 15 iterations"),
            Request(["--loop", "small.c:13", "--first", 10, "--epochs", 5, small], 0,
                    "its iterations from 10 on, 5 of them", "same: entry 1 of 1, 5 of 64 iterations"),
            Request(["--loop", "small.c:24", "--first", 15, small], 0, "its iterations from 15 on, 5 of them",
                    "same: entry 1 of 1, 5 of 20 iterations"),
            Request(["--loop", "lines.c:8.2", PROGRAMS / "lines.c"], 0, "The loop at lines.c:8.2",
                    "same: entry 1 of 1, 6 of 6 iterations"),
            Request(["--loop", "all", "--chunk", 0, "--out", folder, small], 2, "", "--chunk takes 1 to 65535"),
            Request(["--chunk", 4, small], 2, "", "--chunk N goes with --loop"),
            Request(["--loop", "frames.c:57", PROGRAMS / "frames.c"], 0, "The loop at frames.c:57",
                    ", 1 words with addresses of frames of the iterations' own differ"),
            Request(["--loop", "words.c:9", "--args=-n 1", words], 0, "with 1 iterations", "same"),
            Request(["--loop", "words.c:13", "--input", forms, words], 0, "with 999 iterations", "same"),
            Request(["--loop", "small.c:14", small], 2, "",
                    "there is no loop at small.c:14; there are: small.c:11, small.c:13"),
            Request(["--loop", "forms.c:38", "--entry", 101, forms], 1, "",
                    "is entered 100 times, so there is no entry 101"),
            Request(["--loop", "small.c:13", "--first", 64, small], 1, "",
                    "its entry 1 has 64 iterations, so none from 64 on"),
            Request(["--loop", "small.c:13", "--version", 1, small], 1, "",
                    r"needs \d+ bytes of memory, and 65536 is the most"),
            Request(["--loop", "all", small], 2, "", "--loop all needs --out FOLDER"),
            Request(["--first", -1, small], 2, "", "--first takes 0 to"),
            Request([folder / "none.c"], 2, "", "is not a file")):
        out, errors, got = loops_of(*given)
        yield (f"asked: {' '.join(map(str, given[:-1]))}", None if got == status and head in out
               and bool(out) == bool(head) and re.search(told, errors) else f"{out[:300]}{errors}{got}")


def chunks() -> Iterator[Check]:
    """Several iterations an epoch, of which the last may have fewer: a whole loop, with a stack, one that is left
    within an epoch, a window, and one whose iterations are more than epochs can be. A loop that is left without that
    being known before has 4 epochs more."""
    from loops import read_image
    forms, small, sieve = (PROGRAMS / name for name in ("forms.c", "small.c", "sieve.c"))
    for place, source, words, told, epochs in (
            Chunk("small.c:13", small, [4], "64 of 64 iterations, 4 an epoch", 16),
            Chunk("small.c:19", small, [5], "64 of 64 iterations, 5 an epoch", 13),
            Chunk("small.c:19", small, [100], "64 of 64 iterations, 100 an epoch", 1),
            Chunk("small.c:31", small, [4], "19 of 19 iterations, 4 an epoch", 5 + 4),
            Chunk("small.c:31", small, [19], "19 of 19 iterations, 19 an epoch", 1 + 4),
            Chunk("small.c:24", small, [2, "--first", 10, "--epochs", 5], "5 of 20 iterations, 2 an epoch", 3),
            Chunk("forms.c:35", forms, [7, "--first", 3], "97 of 100 iterations, 7 an epoch", 14),
            Chunk("sieve.c:13", sieve, [1000], "200000 of 200000 iterations, 1000 an epoch", 200)):
        out, errors, status = loops_of("--loop", place, "--chunk", *words, source)
        got = (read_image(out).epochs, status)
        yield (f"{words[0]} iterations an epoch of {place}", differs(got, (epochs, 0))
               or (None if told in errors else errors))


def names() -> Iterator[Check]:
    """What an image's remarks name: variables, what is carried, blocks of the heap by the line of malloc, arrays of the
    frame; lines of the loop's instructions alone."""
    from loops import read_image
    image = read_image(loops_of("--loop", "lines.c:18", PROGRAMS / "lines.c")[0])
    lengths = {one.name: one.length for one in image.variables}
    yield ("what is named",
           differs({name: lengths.get(name) for name in ("table", "seen", "malloc:lines.c:15", "frame", "carried.sum")},
                   {"table": 24, "seen": 4, "malloc:lines.c:15": 40, "frame": 32, "carried.sum": 4}))
    lines = {int(place.rpartition(":")[2]) for place in image.sources.values()}
    yield "the lines of the code", None if {5, 19, 20} <= lines <= {5, 6, 18, 19, 20} else f"got {lines}"


def words_at(image: Image, name: str) -> list[int]:
    """The words of a variable that an image's remarks name."""
    memory = bytearray(image.size)
    for part in image.data:
        memory[part.address:part.address + len(part.data)] = part.data
    found = next((one for one in image.variables if one.name == name), None)
    return [] if found is None else list(memoryview(memory[found.address:found.address + found.length]).cast("I"))


def frames() -> Iterator[Check]:
    """Arrays of the frames of all that called the loop's function are named, where they are: their words are those that
    the program put there. A function that came again has them more than once, and its frame grows by an array of
    variable length."""
    from loops import read_image
    squares = [i * i for i in range(24)]
    for place, entry, wanted in (("frames.c:24", 1, {"thrice:copy": [3 * one for one in squares],
                                                     "main:table": squares}),
                                 ("frames.c:39", 3, {"tree:kept": [0, 3, 0, 0], "tree:kept.2": [1, 3, 0, 0],
                                                     "tree:kept.3": [2, 3, 0, 0], "main:table": squares})):
        image = read_image(loops_of("--loop", place, "--entry", entry, PROGRAMS / "frames.c")[0])
        yield f"arrays of the frames above {place}", differs({name: words_at(image, name) for name in wanted}, wanted)


# --- Planted mistakes ------------------------------------------------------------

def gains(folder: Path) -> Iterator[Check]:
    """Plain loops gain what the same loops by hand gain on four cores, within a tenth: but for the list, whose next
    node is one of the values that go around."""
    from loops import Programs
    if not (Programs().folder / "gain").exists():
        left_out("the gains of plain loops", "gain wasn't built beside the program that is tested")
        return
    source = PROGRAMS / "plain.c"
    told = loops_of("--version", 1, "--heap", 0, "--stack", 4096, "--loop", "all", "--out", folder / "gains", source)
    for number, line in enumerate(source.read_text().splitlines(), 1):
        name = line.partition(" // ")[2]
        if name:
            image = (folder / "gains" / f"plain_{number}.image").read_text()
            by_hand, plain = ({run.store: there(run.gain) for run in Programs().gain(text, 4).runs if run.cores == 4}
                              for text in ((ROOT / "examples" / f"{name}.image").read_text(), image))
            far = {store: (gain, by_hand[store]) for store, gain in plain.items()
                   if abs(gain - by_hand[store]) > 0.1 * by_hand[store]}
            yield (f"the gains of {name}", None if bool(far) == (name == "list_walk") and len(plain) == 2
                   else f"got {far}, {told}")


def answer_of(source: Path, line: str, folder: Path, kit: Kit | None = None, seconds: int = 4, **choice: int) -> str:
    """What is told of a loop, by this plug-in or by another; of its iterations from 2 on, or as chosen. A run that
    takes more than so many seconds is ended."""
    from loops.loops_of.build import Builder, Layout, kit_of
    from loops.loops_of.emulator import Given
    from loops.loops_of.making import Choice, Maker
    from loops.loops_of.reasons import Otherwise, Refused, Unusable
    from loops.loops_of.starts import ROOM, ROOM_OF_CHUNKS
    try:
        layout = Layout(65_536, 65_536, ROOM_OF_CHUNKS if "chunk" in choice else ROOM)
        builder = Builder([source], [], layout, folder, kit or kit_of())
        maker = Maker(builder, Given(seconds=seconds), Choice(**(choice or {"first": 2})))
        return maker.made(next(loop for loop in builder.loops if loop.place == line))[1]
    except (Otherwise, Refused, Unusable) as why:
        return str(why)


def kits(folder: Path) -> Iterator[Check]:
    """What is built once is in its place whole, and isn't written to again by a process that comes later."""
    from loops.loops_of.build import Kit, put_in_place
    first, second, place = (Kit(folder / name) for name in ("first", "second", "place"))
    for kit in (first, second):
        kit.folder.mkdir()
        for path in (kit.plugin, *kit.archives):
            path.write_text(kit.folder.name, encoding="ascii")
    put_in_place(first, place)
    read_already = place.archives[0].open(encoding="ascii")
    put_in_place(second, place)
    told = {path.read_text(encoding="ascii") for path in (place.plugin, *place.archives)} | {read_already.read()}
    read_already.close()
    yield "a kit that is there stays as it is", None if told == {"first"} else f"got {told}"
    try:
        put_in_place(second, Kit(folder / "nowhere" / "place"))
        yield "a kit without a place", "no error"
    except OSError:
        yield "a kit without a place", None


def wrong_plugins(folder: Path) -> Iterator[Check]:
    """The plug-in with mistakes, of which the environment of one that is built for that chooses one. Those that LLVM's
    verifier or the pass itself sees make no image; an array that doesn't go along changes no memory, but is told, and
    isn't called an iteration's own any more."""
    from loops.loops_of.build import Kit, build_plugin, kit_of
    kit = Kit(Path(shutil.copytree(kit_of().folder, folder / "wrong")))
    build_plugin(kit, ("-DPLANTS",))
    rights: dict[str, str] = {}
    for number, what, line, told in (
            (2, "the epoch's number is made outside the loop", "forms.c:93", "didn't end"),
            (3, "a store where a later branch keeps the old value", "forms.c:25", "WRONG"),
            (4, "no copy of a function that comes again", "forms.c:47", "entered again"),
            (5, "a store where the value is the one that came in", "plain.c:43", "WRONG"),
            (6, "an array goes along without an address that stands before the loop", "frames.c:13",
             "the pass made a broken module"),
            (7, "an address that stands before the loop keeps an array from going along", "frames.c:13",
             "| shared hint"),
            (8, "the frame stands behind the question whether a function came again", "frames.c:47",
             "the pass made a frame whose size isn't fixed"),
            (9, "an array of variable length goes before what its length is made of", "frames.c:47",
             "the pass made a broken module")):
        os.environ["LOOPS_OF_PLANT"] = str(number)
        # what ends does so in less than a tenth of a second
        said = answer_of(PROGRAMS / line.partition(":")[0], line, folder, kit, 1 if told == "didn't end" else 4)
        del os.environ["LOOPS_OF_PLANT"]
        if line not in rights:
            rights[line] = answer_of(PROGRAMS / line.partition(":")[0], line, folder, kit)
        right = rights[line]
        yield (f"a plug-in's mistake: {what}", None if told in said and right.startswith("same")
               and "shared" not in right else f"{said}, and without it {right}")


def patched(where: object, name: str, other: object, source: str, line: str, folder: Path, **choice: int) -> str:
    """The same with another value of a name of a module or a class."""
    was = getattr(where, name)
    setattr(where, name, other)
    try:
        return answer_of(PROGRAMS / source, line, folder, None, **choice)
    finally:
        setattr(where, name, was)


def wrong_images(folder: Path) -> Iterator[Check]:
    """Images and emulators with mistakes."""
    from loops.loops_of import check, emulator, images, making

    def without(pattern: str) -> object:
        return lambda *given: re.sub(pattern, "", images.image_text(*given))

    def all_compared(plain: Run, outlined: Entries) -> None:
        plain.saved.clear()
        check.check_program(plain, outlined)

    yield ("no mistake", None if (said := answer_of(PROGRAMS / "lines.c", "lines.c:18", folder)).startswith("same")
           else said)
    for what, pattern, source, line in (("no thread pointer", r"(?m)^reg 4 .*\n", "lines.c", "lines.c:25"),
                                        ("no first iteration", r"(?m)^reg 6 .*\n", "small.c", "small.c:13"),
                                        ("no stack", r"(?m)^reg 5 .*\n", "forms.c", "forms.c:35"),
                                        ("no memory", r"(?m)^at .*\n", "small.c", "small.c:13")):
        said = patched(making, "image_text", without(pattern), source, line, folder)
        yield f"an image with {what}", None if said.startswith("DIFFERENT") else said
    said = patched(making, "image_text",
                   lambda *given: images.image_text(*given).replace("\nreg 28 00000007\n", "\nreg 28 00000008\n"),
                   "small.c", "small.c:11", folder, first=2, epochs=5, chunk=2)
    yield "an image whose last epoch has too many iterations", None if said.startswith("DIFFERENT") else said
    said = patched(emulator.Window, "left", lambda _: None, "small.c", "small.c:13", folder)
    yield "an emulator that doesn't hear the end", None if said.startswith("the program ends within it") else said
    said = patched(making, "check_program", all_compared, "forms.c", "forms.c:130", folder)
    yield ("what setjmp saved, compared", None if said.startswith("WRONG other values at the program's end in back+")
           else said)


def wrong_passes(folder: Path) -> Iterator[Check]:
    """Loads that are joined before loops are rotated carry a value around the loop; without marks of where arrays live
    none is an iteration's own."""
    from loops.loops_of import build
    for name, other, line, right in (("BEFORE", build.BEFORE.replace("sroa,", "sroa,early-cse<memssa>,"), 32,
                                      "computed i"), ("FRONT", build.FRONT[3:], 35, "own tmp")):
        was = getattr(build, name)
        told = []
        for value in (was, other):
            setattr(build, name, value)
            source = PROGRAMS / ("lines.c" if name == "BEFORE" else "forms.c")
            builder = build.Builder([source], [], build.Layout(65_536, 65_536), folder, build.kit_of())
            told += [" | ".join(loop.told.text() for loop in builder.loops if loop.line == f"{source.name}:{line}")]
        setattr(build, name, was)
        yield f"another {name}", None if right in told[0] and told[0] != told[1] else f"got {told}"


def furnished(folder: Path, command: list[str]) -> None:
    """A folder with the programs that the tools call, as LOOPS_PROGRAMS names it."""
    for name, path in (("trace_cli", Path(command[0]).resolve()), ("gain", beside(command, "gain"))):
        if path and path.is_file():
            (folder / name).symlink_to(path)
    os.environ["LOOPS_PROGRAMS"] = str(folder)


def lacking() -> str | None:
    """Why nothing can be tested."""
    from loops.loops_of import build, emulator
    missing = build.lacking() + ([] if emulator.unicorn else ["python3-unicorn"])
    return ", ".join(missing) or None


def main() -> int:
    script = Script()
    missing = lacking()
    if missing:
        left_out("tools/loops-of", f"of Debian's packages there isn't: {missing}")
        return 0
    with tempfile.TemporaryDirectory() as folder, tempfile.TemporaryDirectory() as room:
        furnished(Path(room), script.command())
        own, alone = (kits, natives, same, random_programs, refusals, requests), (chunks, names, frames)
        script.run(listings, *[partial(part, Path(folder)) for part in own], *alone,
                   *[partial(part, Path(folder)) for part in (gains, wrong_plugins, wrong_passes, wrong_images)])
    return script.ended()


if __name__ == "__main__":
    sys.exit(main())
