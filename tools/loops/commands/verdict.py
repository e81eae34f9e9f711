"""Says in English what a loop gains at even speed on so many cores, what holds it back, at which lines of the source,
and what usually helps.

Usage: tools/verdict IMAGE [--cores N] [--store STORE] [--apart NAME:BYTES] [--even-at] [--max-lost PERCENT]
[--min-gain G] [--build] [-- WORD ..]

What it gains is what `gain` says, of one instruction a step on each core and no latency; what holds it back is what
`why` says of the runs that `replay even plain N` and `replay even STORE N` print: over the plain store first, since
waiting for the caches may hide what epochs need of one another. STORE is the caches that it speaks of, those of the
image's version where it isn't said, and with --apart each BYTES of the variable NAME have lines of their own in them.
Where large caches gain something else it says so, and where the plain store gains and they don't, which are the first
to gain as much. Where its dependences allow a fifth more than it gains it says so. Where it loses steps, it says what
it gains where one of the loads that lost most waits until its epoch is the first; and where that is something else,
what it gains where each load waits for the earlier epochs that store to its line. Where lines are shared falsely, it
says what it gains where one of the variables there has lines of its own. It says up to which cost of communication it
takes fewer steps than the loop in order. For that `gain` is called up to 61 times: unasked of loops that take up to
20,000 steps on one core, else with --even-at. Where `depends` is built it says whether anything can roll back at all,
on any schedule, and what an epoch needs earliest of another. Where neighbours of an array share lines it proposes
--chunk of the tool that made the image, tools/image-of or tools/loops-of; the words behind `--` are those by which it
did, and with them it measures what that gains. Limits are of the run over caches: how many hundredths of the steps of
all cores may be lost, and what the loop has to gain. The status is 0 within the limits, 5 past them, and 6 where the
loop ends in a fault; where a program refuses the image or is stopped, its line comes on standard error, and its status
is that of this program. It builds no program unless `--build` says so.
"""

import argparse
import subprocess
import sys
import textwrap
from pathlib import Path

from loops.aparts import add_apart, store_apart
from loops.endings import tool
from loops import Programs, Stopped, Unreadable, read_image
from loops.images import there
from loops.programs import add_build
from loops.start import words_of
from loops.stores import Store, add_store
from loops.texts import shown, text_in
from loops.verdicts.asked import FULL, Asked
from loops.verdicts.chunks import Chunk, Measured, maker_of, proposal
from loops.verdicts.costs import SHORT, is_short
from loops.verdicts.sizes import Sized, larger_than
from loops.verdicts.words import Findings, faulted, paragraph, past
from loops.version import add_version

PAST, FAULT = 5, 6
COLUMNS = 100


def measured(asked: Asked, words: list[str], chunk: Chunk) -> Measured:
    """What the loop gains when the tool that made it makes it with so many iterations an epoch."""
    module = f"commands.{maker_of(asked.image).replace('-', '_')}"
    done = subprocess.run([*words_of(module), "--chunk", str(chunk.size), *words],
                          stdin=subprocess.DEVNULL, capture_output=True, check=False)
    if done.returncode:
        raise Stopped(done.returncode, text_in(done.stderr))
    runs = {run.cores: run for run in asked.programs.gain(text_in(done.stdout), asked.cores, asked.store.word).runs}
    return Measured(chunk.size, runs[1], runs[asked.cores])


def asked_of(programs: Programs, given: argparse.Namespace) -> Asked:
    """The loop of the image that is given."""
    text = text_in(given.image.read_bytes())
    try:
        image = read_image(text)
    except Unreadable:
        programs.gain(text, given.cores)        # says what is wrong with it
        raise
    word = there(store_apart(given.store, given.apart, lambda: image))
    return Asked(programs, text, image, Store.of_word(word, image.version), given.cores)


def findings(programs: Programs, given: argparse.Namespace, words: list[str]) -> Findings | str:
    """What the programs say of the loop, or what is told where it ends in a fault."""
    asked = asked_of(programs, given)
    image, store, cores, name = asked.image, asked.store, asked.cores, shown(given.image.stem)
    plain_store, large = Store.of_word("plain", image.version), larger_than(store.machine)
    gains = programs.gain(asked.text, cores, store.word, *([large.word] if large else []), plain_store.word,
                          limits=True)
    one, caches, plain = (there(gains.of(*run))
                          for run in ((store.word, 1), (store.word, cores), (plain_store.word, cores)))
    if caches.full:
        raise Stopped(3, FULL)
    over_caches = asked.run(store)
    if over_caches.report.ending == "fault":
        return faulted(name, over_caches.losses, over_caches.report)
    found = Findings(name, store, one, caches, plain, over_caches.losses,
                     None if plain.full else asked.losses(plain_store), allowed=gains.allowed(cores))
    found.chunk = proposal(found.over_caches)
    found.measured = measured(asked, words, found.chunk) if found.chunk and words else None
    if programs.has_depends():
        found.flow = programs.depends(asked.text, image.most_cores,
                                      *([] if store.is_usual else [store.word, plain_store.word]))
    if large:
        found.sizes = asked.sizes(Sized(large, there(gains.of(large.word, cores))), caches, plain)
    found.waits, found.held = asked.waits(caches, found.over_caches), asked.held()
    found.aparts = asked.aparts(caches, found.over_caches)
    found.dearest = asked.dearest() if given.even_at or is_short(one) else None
    return found


def options_of(words: list[str]) -> tuple[argparse.Namespace, list[str]]:
    """The options, and the words behind `--`."""
    own, further = (words[:words.index("--")], words[words.index("--") + 1:]) if "--" in words else (words, [])
    parser = argparse.ArgumentParser(description="Says in English what a loop gains at even speed, and what holds it "
                                                 "back; advice is no claim.",
                                     epilog="Behind -- may stand the words of tools/image-of or tools/loops-of that "
                                            "made the image, by which --chunk is measured "
                                            "where it is proposed.")
    parser.add_argument("image", type=Path, metavar="IMAGE",
                        help="the text of the loop; made with -g it names lines of the source")
    parser.add_argument("--cores", type=int, default=4, metavar="N", help="1 to 16, in version 1 of an image to 8 (4)")
    parser.add_argument("--even-at", action="store_true",
                        help="up to which cost of each action the loop gains against the loop in order, also where "
                             f"it takes more than {SHORT:,} steps on one core")
    parser.add_argument("--max-lost", type=float, metavar="PERCENT",
                        help="the status is 5 where more of the steps of all cores are lost")
    parser.add_argument("--min-gain", type=float, metavar="G", help="the status is 5 where the loop gains less")
    add_store(parser, "the caches that it speaks of, those of the image's version where it isn't said", "caches")
    add_apart(parser)
    add_build(parser)
    add_version(parser)
    given = parser.parse_args(own)
    if given.store == "plain":
        parser.error("argument --store: what it gains over the plain store is told beside what it gains over caches")
    return given, further


def answer(words: list[str]) -> int:
    """What the tool does with the words of its command line, and its status."""
    given, further = options_of(words)
    try:
        found = findings(Programs(), given, further)
    except (OSError, Unreadable) as wrong:
        print(f"verdict: {wrong}", file=sys.stderr)
        return 2
    except Stopped as stopped:
        sys.stderr.write(stopped.line)
        return stopped.status
    if isinstance(found, str):
        print(textwrap.fill(found, COLUMNS, break_long_words=False, break_on_hyphens=False))
        return FAULT
    beyond = past(found, given.max_lost, given.min_gain)
    limits = ("" if given.max_lost is None and given.min_gain is None else f" Past the limits: {'; '.join(beyond)}."
              if beyond else " Within the limits.")
    print(textwrap.fill(paragraph(found) + limits, COLUMNS, break_long_words=False, break_on_hyphens=False))
    return PAST if beyond else 0


@tool
def main() -> int:
    return answer(sys.argv[1:])
