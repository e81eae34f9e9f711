#!/usr/bin/env python3
"""The attempts of histories: the lines `attempt` of `why --attempts`, beside the flat machine of flat_audit.py.

Usage: tests/model/attempts.py [--only WORD] [--seed S] [--count N] [--keep DIR] [COMMAND ..]

COMMAND is a command of `trace_cli` that ends with the word `seq`; `why` is the program that was built beside it.
Without it ./trace_cli and ./why of this repository are tested. The histories are runs of the loops of examples/ on
three cores, and the legal ones of the first N of audit_fuzz.py with seed S. Of each the flat machine takes the entries
one after another: an attempt begins where a core starts its epoch or begins it again, is one more of its epoch, and
ends by the first entry that violates it, cancels it, commits it or faults; it has executed what its hart has then, up
to the next event. Without its lines of attempts the report has to be what `why` says without the word. The first
history that differs is written to DIR, and ends the test with status 1.
"""

import sys
from collections.abc import Iterator
from dataclasses import dataclass
from functools import partial
from pathlib import Path

import audit_fuzz
import flat_audit
import fuzz
import rv32_seq
from flat_audit import Entry
from rv32_seq import Image

sys.path.insert(0, str(Path(__file__).resolve().parent.parent))

from common import ROOT, Check, Script, beside, called_bytes, kept, left_out, there, to_first_failure  # noqa: E402

FATES = {"hurt": "violated", "cancel": "cancelled", "commit": "committed", "fault": "faulted"}
CORES, SECONDS = 3, 120


# --- The attempts ------------------------------------------------------------

@dataclass
class Attempt:
    """One attempt: the entry at which it began, of which epoch and core, which one of its epoch, and how it ended."""

    began: int
    epoch: int
    number: int
    core: int
    done: int = 0
    end: str = "open"

    def line(self) -> str:
        return (f"attempt {self.began} epoch {self.epoch} try {self.number} core {self.core} done {self.done} "
                f"{self.end}\n")


class Attempts:
    """The attempts of a history whose entries are taken one after another."""

    def __init__(self, image: Image, cores: int) -> None:
        self.flat = flat_audit.Flat(image, cores)
        self.begun: list[Attempt] = []
        self.going_on: dict[int, Attempt] = {}      # by core
        self.numbers: dict[int, int] = {}           # of each epoch, the last

    def take(self, place: int, entry: Entry) -> None:
        by, what, numbers = entry
        if what in FATES:
            core = self.flat.cores.index(self.flat.at(numbers[0])) if what in ("hurt", "cancel") else by
            self.end(core, f"{FATES[what]} {place} by {self.flat.core(by).epoch} core {by}")
        self.flat.apply(entry)
        if what in ("start", "restart"):
            epoch = self.flat.core(by).epoch
            self.numbers[epoch] = self.numbers.get(epoch, 0) + 1
            self.going_on[by] = Attempt(place, epoch, self.numbers[epoch], by)
            self.begun.append(self.going_on[by])

    def end(self, core: int, how: str) -> None:
        """The attempt of a core ends so; one that was violated has ended before."""
        attempt = self.going_on.pop(core, None)
        if attempt:
            attempt.done, attempt.end = self.flat.event(core).hart.done, how

    def lines(self) -> str:
        for core, attempt in self.going_on.items():
            attempt.done = self.flat.event(core).hart.done
        return "".join(attempt.line() for attempt in self.begun)


def lines_of(text: bytes) -> str:
    """The lines of the attempts of a legal history."""
    above, lines = flat_audit.split_input(text)
    image = rv32_seq.image_of(above)
    cores, entries = flat_audit.trace_of(lines, image.version)
    attempts = Attempts(image, cores)
    for place, entry in enumerate(entries):
        attempts.take(place, entry)
    return attempts.lines()


# --- Comparing ---------------------------------------------------------------

def answer(command: list[str | Path], text: bytes) -> str:
    """What a program prints, where it ends well."""
    done = called_bytes(command, text, SECONDS)
    return done.stdout.decode() if (done.returncode, done.stderr) == (0, b"") else f"status {done.returncode}\n"


def wrong_of(why: Path, text: bytes) -> str | None:
    """What is wrong with the report of a legal history, or None."""
    told, plain = answer([why, "--attempts"], text).splitlines(True), answer([why], text)
    got = "".join(line for line in told if line.startswith("attempt "))
    if "".join(line for line in told if not line.startswith("attempt ")) != plain:
        return "the other lines are not those without the word"
    wanted = lines_of(text)
    pairs = zip(got.splitlines() + [""], wanted.splitlines() + [""])
    return None if got == wanted else next((f"{one!r}, but the model has {other!r}" for one, other in pairs
                                            if one != other), "a line more or less")


def runs(command: list[str]) -> Iterator[tuple[str, bytes]]:
    """The runs of the examples, each with its name."""
    for path in sorted((ROOT / "examples").glob("*.image")):
        image = path.read_bytes()
        printed = called_bytes([*command[:-1], "run", "--cores", str(CORES), "--trace"], image, SECONDS).stdout
        yield path.stem, image + printed[(b"\n" + printed).index(b"\ntrace "):]


def histories(seed: str, count: int) -> Iterator[tuple[str, bytes]]:
    """The random histories that are legal."""
    for index in range(count):
        text = audit_fuzz.case(seed, index)
        if flat_audit.outcome(text)[2] == 0:
            yield f"{seed}-{index}", text


def compared(texts: Iterator[tuple[str, bytes]], why: Path, folder: Path) -> Iterator[Check]:
    """Each history, up to the first that differs."""
    for name, text in texts:
        wrong = wrong_of(why, text)
        yield name, wrong and kept(folder, f"attempts-{name}.trace", text, wrong)


def main() -> int:
    script = Script()
    given = fuzz.parser_of("The attempts of histories, beside the flat machine.").parse_args(script.words)
    command: list[str] = given.command or [str(ROOT / "trace_cli"), "seq"]
    why = beside(command, "why")
    if why is None or not why.is_file():
        left_out("the attempts of why", "no such program was built beside the one that is tested")
        return script.ended()
    for texts in (runs(command), histories(given.seed, given.count)):
        script.run(partial(to_first_failure, compared(texts, there(why), given.keep)))
    return script.ended()


if __name__ == "__main__":
    sys.exit(main())
