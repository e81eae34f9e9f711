#!/usr/bin/env python3
"""Compares `trace_cli audit` with the reference model on random traces.

Usage: tests/model/audit_fuzz.py [--only WORD] [--seed S] [--count N] [--seconds T] [--keep DIR] [COMMAND ..]

COMMAND reads its standard input and ends with the word `seq`, in whose place
`audit` is put; without it `./trace_cli seq` of this repository is tested. Case
number I of seed S is always the same input. Standard output, standard error and
status have to be equal. A differing input is written to DIR (the current
directory unless said) as audit-S-I.trace; the first one ends the run with
status 1.

Each case is a random loop and a legal history of it, which the model's flat
machine takes turn by turn on some cores. Three quarters of them are then
changed: entries are dropped, repeated, exchanged or made anew, words and bytes
are damaged, so that most refusals of entries, lines, heads and images come.
"""

import random
import sys
from pathlib import Path

import flat_audit
import fuzz
import rv32_seq
from flat_audit import Core, Entry, Event
from fuzz import MATCH, RETURN, word_of_b, word_of_i, word_of_s
from rv32_seq import Image, Outcome

sys.path.insert(0, str(Path(__file__).resolve().parent.parent))

from common import ROOT, Script  # noqa: E402


# --- Loops -----------------------------------------------------------------

def conflicting(rng: random.Random) -> list[int]:
    """The words of a small body whose epochs often touch the same bytes."""
    words = [word_of_i(MATCH["andi"], 5, 10, rng.choice([0, 1, 3])), MATCH["slli"] | 6 << 7 | 5 << 15 | 2 << 20]
    for _ in range(rng.randint(1, 6)):
        offset = 64 + rng.choice([0, 0, 4, 8, 16])
        chance = rng.random()
        base = rng.choice([0, 6])
        if chance < 0.4:
            name = rng.choice(fuzz.LOADS)
            words.append(word_of_i(MATCH[name], 7, base, offset))
        elif chance < 0.8:
            name = rng.choice(fuzz.STORES)
            words.append(word_of_s(MATCH[name], base, rng.choice([5, 7, 10]), offset))
        elif chance < 0.9:
            words.append(word_of_i(MATCH["addi"], 7, 7, 1))
        else:
            words.append(word_of_b(MATCH[rng.choice(["beq", "bne"])], 7, rng.choice([0, 5]), 8))
    if rng.random() < 0.6:  # one more in a word that all epochs count in
        words += [word_of_i(MATCH["lw"], 7, 0, 64), word_of_i(MATCH["addi"], 7, 7, 1), word_of_s(MATCH["sw"], 0, 7, 64)]
    ends = rng.random()
    if ends < 0.1:
        words.append(rng.choice([0, 0x73, word_of_i(MATCH["lw"], 7, 0, 2)]))
    elif ends < 0.3:
        words.append(word_of_i(MATCH["sltiu"], 10, 10, rng.randint(0, 4)))
    return words + [RETURN, RETURN]


def loop(rng: random.Random) -> list[str]:
    """The lines of an image that is read."""
    code = b"".join(word.to_bytes(4, "little") for word in conflicting(rng)).hex()
    version = rng.choice([None, None, 1, 2])
    lines = ["size 256", f"epochs {rng.choice([0, 1, 2, 3, 4, 5, 6])}", f"limit {rng.choice([3, 8, 50, 50, 50])}",
             f"code {code}"]
    if rng.random() < 0.3:
        lines.append("exit")
    if rng.random() < 0.3:
        lines.append(f"at 00000040 {rng.randbytes(8).hex()}")
    return ([f"version {version}"] if version else []) + lines


# --- Histories -------------------------------------------------------------

class Run:
    """A legal history in the making."""

    def __init__(self, rng: random.Random, image: Image, cores: int) -> None:
        self.rng = rng
        self.flat = flat_audit.Flat(image, cores)
        self.entries: list[Entry] = []

    def note(self, by: int, what: str, *numbers: int) -> None:
        entry = Entry(by, what, numbers)
        refusal = self.flat.refusal(entry)
        if refusal:
            raise AssertionError(f"{entry} is {refusal} after {self.entries}")
        self.flat.apply(entry)
        self.entries.append(entry)

    def hurt_readers(self, by: int, what: str, *numbers: int) -> None:
        flat = self.flat
        for other in flat.readers(by, flat.written(Entry(by, what, numbers))):
            self.note(by, "hurt", flat.core(other).epoch)
        if self.rng.random() < 0.03:
            later = [core.epoch for core in flat.cores if core and core.epoch > flat.core(by).epoch and not core.hurt]
            if later:
                self.note(by, "hurt", self.rng.choice(later))

    def turn(self, by: int) -> None:
        flat, core = self.flat, self.flat.cores[by]
        if core is None:
            if flat.next_epoch < flat.image.epochs:
                self.note(by, "start", flat.next_epoch)
        elif core.hurt:
            self.note(by, "restart")
        else:
            self.act(by, core, flat.event(by))

    def act(self, by: int, core: Core, event: Event) -> None:
        flat = self.flat
        if core.epoch == flat.homefree and not core.straight and self.rng.random() < 0.15:
            self.hurt_readers(by, "publish")
            self.note(by, "publish")
        elif event.kind == "load":
            value = int.from_bytes(flat.bytes_seen(core, event.address, event.width), "little")
            self.note(by, "load", event.address, event.width, value)
        elif event.kind == "store":
            self.hurt_readers(by, "store", event.address, event.width, event.value)
            self.note(by, "store", event.address, event.width, event.value)
        elif core.epoch == flat.homefree:
            self.end(by, event)

    def end(self, by: int, event: Event) -> None:
        if event.kind == "fault":
            self.hurt_readers(by, "fault", event.cause, event.hart.pc)
            self.note(by, "fault", event.cause, event.hart.pc)
            return
        self.hurt_readers(by, "commit")
        if self.flat.exits(event):
            for other in list(self.flat.cores):
                if other and other is not self.flat.cores[by]:
                    self.note(by, "cancel", other.epoch)
        self.note(by, "commit")


def history(rng: random.Random, image: Image, cores: int) -> list[Entry]:
    run = Run(rng, image, cores)
    for _ in range(rng.choice([5, 30, 120, 120, 120])):
        if run.flat.over:
            break
        run.turn(rng.randrange(cores))
    return run.entries


# --- Texts -----------------------------------------------------------------

WORDS_OF = {"load": "{:08x} {} {:08x}", "store": "{:08x} {} {:08x}", "fault": "{} {:08x}"}


def line_of(entry: Entry) -> str:
    by, what, numbers = entry
    form = WORDS_OF.get(what, "{}" if numbers else "")
    return " ".join([str(by), what] + ([form.format(*numbers)] if numbers else []))


def random_entry(rng: random.Random, cores: int) -> Entry:
    what = rng.choice(["start", "load", "store", "hurt", "cancel", "restart", "publish", "commit", "fault"])
    numbers = {"load": [64, rng.choice([1, 2, 3, 4]), rng.choice([0, 1, 255])],
               "store": [64, rng.choice([1, 2, 4]), rng.choice([0, 1, 2])],
               "fault": [rng.choice([1, 2, 8, 99]), rng.choice([0, 4])]}.get(what)
    if numbers is None:
        numbers = [rng.randrange(6)] if what in ("start", "hurt", "cancel") else []
    return Entry(rng.randrange(cores + 1), what, tuple(numbers))


def change_entries(rng: random.Random, entries: list[Entry], cores: int) -> list[Entry]:
    """One change of a history."""
    entries = list(entries)
    place = rng.randrange(len(entries)) if entries else 0
    choice = rng.randrange(8) if entries else 0
    if choice in (6, 7):  # one that is seldom, and not seen to be missing at once
        kinds = ["hurt", "cancel"] if choice == 6 else ["load"]
        seldom = [i for i, entry in enumerate(entries) if entry.what in kinds]
        place = rng.choice(seldom or [place])
        choice = choice - 5 if choice == 6 else 4
    if choice == 0:
        entries.insert(place, random_entry(rng, cores))
    elif choice == 1:
        del entries[place]
    elif choice == 2:
        entries.insert(place, entries[place])
    elif choice == 3:
        other = rng.randrange(len(entries))
        entries[place], entries[other] = entries[other], entries[place]
    elif choice == 4:
        numbers = list(entries[place].numbers)
        if numbers:
            which = rng.choice([-1, rng.randrange(len(numbers))])
            numbers[which] = (numbers[which] + rng.choice([1, -1, 4, 256])) % (1 << 32)
        entries[place] = entries[place]._replace(numbers=tuple(numbers))
    else:
        entries[place] = entries[place]._replace(by=rng.randrange(cores + 1))
    return entries


HEADS = ["trace", "trace ", "trace 0", "trace 9", "trace 17", "trace 16", "trace 02", "trace 1 1", "trace  2",
         "trace x", "TRACE 2", "",
         "# trace 2", "trace 4294967297"]


def case(seed: str, index: int) -> bytes:
    """The input of one case."""
    rng = random.Random(f"{seed}/{index}")
    above = loop(rng)
    image = rv32_seq.image_of("\n".join(above).encode())
    cores = rng.randint(1, 4)
    entries = history(rng, image, cores)
    head = f"trace {cores if rng.random() < 0.9 else rng.randint(1, 16)}"
    style = rng.random()
    if 0.25 <= style < 0.7:
        for _ in range(rng.choice([1, 1, 2])):
            entries = change_entries(rng, entries, cores)
    lines = above + [head] + [line_of(entry) for entry in entries]
    if 0.7 <= style < 0.8:
        lines[len(above)] = rng.choice(HEADS)
    if style < 0.8:
        return fuzz.dressed(rng, lines)
    return fuzz.damaged(rng, lines)


# --- Comparing -------------------------------------------------------------

def kind(outcome: Outcome) -> str:
    """A short name of an outcome, for the summary."""
    out, err, _ = outcome
    words = (out or err).split()
    return words[0] if words[0] == "legal" else f"{words[0]} {words[-1]}"


def main() -> int:
    script = Script()
    given = fuzz.parser_of("Compares an audit with the reference model.").parse_args(script.words)
    command = [*(given.command or [str(ROOT / "trace_cli"), "seq"])[:-1], "audit"]
    compared = fuzz.Compared("audit", "trace", case, flat_audit.outcome, kind)
    return fuzz.compare(script, compared, given, command)


if __name__ == "__main__":
    sys.exit(main())
