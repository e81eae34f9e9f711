"""The report of which conflicts rolled back, or what epochs need of one another, with the names of variables, source
lines and instructions.

Usage: tools/named [--say] [--store STORE] [--apart NAME:BYTES] [--why COMMAND] < IMAGE_AND_TRACE
       tools/named --depends [--cores N] [--store STORE] [--apart NAME:BYTES] < IMAGE

Standard input is what `./why` reads: an image, and below it a trace (tools/trace makes it of a run). The report is that
of `./why`, or COMMAND. Its `hurt` and `also` lines end with the name of their first byte, as `bins+4`, `pair` lines
with the variables, and `pc` lines with FILE:LINE and the instruction; `-` stands where the image's remarks
(tools/image-of writes them) name none. Below the lines of the caches stands `name NAME rollbacks N lost N true N silent
N false N buffer N` of each variable, heaviest first. With --say a remark below each violation says it in English.
--store says over what the run was, as `caches:sets=64,ways=4`, and stands above the report; with --apart each BYTES of
the variable NAME have lines of their own in these caches.

With --depends the input is an image, and the lines are those that `./depends` prints of it on up to N cores, as many as
its version allows without that, over --store alone where it is said. `dep` lines end with the variables from the lowest
byte to the highest, and FILE:LINE of the store and of the load; `from` and `open` lines with FILE:LINE of the load and
of the store. Where a program refuses the input, its line comes on standard error, and its status is that of this
program.
"""

import argparse
import sys
from collections.abc import Iterable, Iterator

from loops.aparts import add_apart, store_apart
from loops.endings import tool
from loops import Conflicts, Dependences, Image, Programs, Stopped, Unreadable, Violation, read_image, read_traced
from loops.conflicts import KINDS, OfPair, Part, Place
from loops.images import there
from loops.programs import add_build
from loops.stores import add_store, store_of
from loops.texts import read_input
from loops.pictures.attempts import Run
from loops.pictures.words import sentence
from loops.version import add_version


def variable_at(image: Image, violation: Violation) -> str | None:
    """The variable of a violation's first byte, or None."""
    found = None if violation.first is None else image.variable_of(violation.first)
    return None if found is None else found.name


def name_at(image: Image, place: Place | None) -> str:
    """The name of a byte, or `-`."""
    return "-" if place is None or image.variable_of(place.first) is None else image.name_of(place.first)


def with_name(text: str, name: str) -> str:
    """A line with a name at its end."""
    return f"{text.rstrip()} {name}"


def violation_lines(run: Run, violation: Violation, say: bool) -> Iterator[str]:
    """The lines of a violation, and where it is asked for the sentence that says it."""
    image, (hurt, *below) = run.image, violation.text().splitlines()
    runs = len(violation.also)
    yield with_name(hurt, name_at(image, violation.pair.at))
    for line, further in zip(below[:runs], violation.also):
        yield with_name(line, name_at(image, further.pair.at))
    yield from below[runs:]
    if say:
        yield f"# {sentence(run, violation)}"


def pair_names(image: Image, violations: list[Violation], pair: OfPair) -> str:
    """The variables at which two instructions met, or `-`."""
    met = [one for one in violations
           if one.causers and one.victims and (one.causers.pc, one.victims.pc) == (pair.causer, pair.victim)]
    return ",".join(sorted({name for name in (variable_at(image, one) for one in met) if name is not None})) or "-"


def name_lines(image: Image, violations: list[Violation]) -> Iterator[str]:
    """The sums of each variable, heaviest first."""
    groups: dict[str, list[Violation]] = {}
    for violation in violations:
        name = variable_at(image, violation)
        if violation.victims and name:
            groups.setdefault(name, []).append(violation)
    weigh = {name: (-sum(one.lost for one in those), -len(those), name) for name, those in groups.items()}
    for name in sorted(groups, key=lambda one: weigh[one]):
        those = groups[name]
        kinds = " ".join(f"{kind} {sum(one.kind == kind for one in those)}" for kind in KINDS)
        yield f"name {name} rollbacks {len(those)} lost {sum(one.lost for one in those)} {kinds}"


def plain(parts: Iterable[Part]) -> list[str]:
    """The lines of parts that have no names."""
    return [line for part in parts for line in part.text().splitlines()]


def named(run: Run, report: Conflicts, say: bool) -> Iterator[str]:
    """The lines of the report with their names."""
    image = run.image
    for violation in report.violations:
        yield from violation_lines(run, violation, say)
    yield from plain([*report.cancelled, *report.open, *report.attempts, *report.epochs])
    for pair in report.pairs:
        yield with_name(pair.text(), pair_names(image, report.violations, pair))
    yield from plain(report.lines)
    yield from name_lines(image, report.violations)
    for at in report.instructions:
        yield with_name(at.text(), f"{image.sources.get(at.pc, '-')} {image.instruction_at(at.pc) or '-'}")
    yield from plain([*report.kinds, there(report.total)])


def dependence_lines(image: Image, found: Dependences) -> Iterator[str]:
    """The lines of `depends` with their names."""
    def source(pc: int | None) -> str:
        return "-" if pc is None else image.sources.get(pc, "-")

    for pair in found.pairs:
        names = [one.name for one in image.variables_in(pair.at.first, pair.at.length)]
        yield with_name(pair.text(), f"{','.join(names) or '-'} {source(pair.store)} {source(pair.load)}")
    for told in found.stores:
        head, *turns = told.text().splitlines()
        yield head if told.load is None else with_name(head, f"{source(told.load)} {source(told.causer)}")
        yield from turns


def lines_of(text: str, given: argparse.Namespace) -> Iterator[str]:
    """All lines of the output."""
    if given.depends:
        image = read_image(text)
        store = store_apart(given.store, given.apart, lambda: image)
        yield from dependence_lines(image, Programs().depends(text, given.cores or image.most_cores,
                                                              *([store] if store else [])))
        return
    store = store_apart(given.store, given.apart, lambda: read_traced(text).image)
    report = Programs(why_command=given.why).why(text, store)
    traced = read_traced(text)
    if store:
        yield f"# store {store}"
    yield from named(Run(traced, report, store_of(store, traced.image.version)), report, given.say)


@tool
def main() -> int:
    parser = argparse.ArgumentParser(description="The report of which conflicts rolled back, or what epochs need of "
                                                 "one another, with names.")
    parser.add_argument("--say", action="store_true", help="each violation in English too")
    add_store(parser, "what the run was over")
    add_apart(parser)
    parser.add_argument("--why", metavar="COMMAND", help="the program that writes the report (./why)")
    parser.add_argument("--depends", action="store_true",
                        help="the input is an image, and what ./depends prints of it has names")
    parser.add_argument("--cores", type=int, metavar="N",
                        help="with --depends: on up to so many cores (as many as the image's version allows)")
    add_build(parser)
    add_version(parser)
    given = parser.parse_args()
    try:
        for line in lines_of(read_input(), given):
            print(line)
    except Stopped as stopped:
        sys.stderr.write(stopped.line)
        return stopped.status
    except Unreadable as wrong:
        print(f"named: {wrong}", file=sys.stderr)
        return 2
    return 0
