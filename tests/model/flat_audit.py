#!/usr/bin/env python3
"""Reference model of `trace_cli audit`, independent of the proved program.

Usage: flat_audit.py audit < INPUT

Reads an image and the trace below it, and replays the trace on a flat machine:
one thread, committed memory, and for each core its epoch, its hart, the bytes
that it has stored and those that it has read. Standard output, standard error
and the exit status are those of `trace_cli audit`:

  0  the trace is legal                     `legal ENTRIES HOMEFREE`
  4  an entry is refused                    `illegal PLACE NAME`
  2  the words, image or trace are refused  one line on standard error

The tests of an entry stand in the order of the table in docs/history.md. It is
written to be read; it is slow.
"""

import copy
import sys
from collections.abc import Callable
from dataclasses import dataclass, field
from typing import NamedTuple

import rv32_seq
from rv32_seq import Fault, Hart, Image, Outcome, Refused, number, word32

MAX_INPUT = 33_554_432
MOST_CORES = {1: 8, 2: 16}


# --- The input -------------------------------------------------------------

class Entry(NamedTuple):
    """An entry: its core, its keyword, and the numbers behind that."""

    by: int
    what: str
    numbers: tuple[int, ...]


class BadTrace(Exception):
    """A trace that is refused, at this line and for this reason."""

    def __init__(self, line: int, name: str) -> None:
        super().__init__(line, name)
        self.line = line
        self.name = name


def small(word: bytes) -> int | None:
    """A decimal number below 2^32, or None."""
    value = number(word)
    return value if value is not None and value < 1 << 32 else None


# The words after the core: the keyword, and how each further word is read.
FORMS: dict[bytes, list[Callable[[bytes], int | None]]] = {
    b"start": [small], b"hurt": [small], b"cancel": [small], b"restart": [], b"publish": [], b"commit": [],
    b"load": [word32, small, word32], b"store": [word32, small, word32], b"fault": [small, word32],
}


def entry_of(line: bytes) -> Entry | None:
    """The entry of a line, or None."""
    words = line.split(b" ")
    if len(words) < 2 or words[1] not in FORMS or len(words) - 2 != len(FORMS[words[1]]):
        return None
    read = [form(word) for form, word in zip(FORMS[words[1]], words[2:])]
    numbers = tuple(number for number in read if number is not None)
    by = small(words[0])
    return None if by is None or len(numbers) < len(read) else Entry(by, words[1].decode(), numbers)


def split_input(text: bytes) -> tuple[bytes, list[tuple[int, bytes]]]:
    """The bytes of the image, and the lines with their numbers from the head of the trace on."""
    lines = text.split(b"\n")
    for place, line in enumerate(lines):
        if line.startswith(b"trace "):
            return b"".join(above + b"\n" for above in lines[:place]), list(enumerate(lines, 1))[place:]
    return text, []


def trace_of(lines: list[tuple[int, bytes]], version: int) -> tuple[int, list[Entry]]:
    """How many cores, and the entries."""
    if not lines:
        raise BadTrace(0, "Head")
    place, head = lines[0]
    words = head.split(b" ")
    cores = small(words[1]) if len(words) == 2 else None
    if cores is None or not 1 <= cores <= MOST_CORES[version]:
        raise BadTrace(place, "Head")
    entries = []
    for place, line in lines[1:]:
        if line and not line.startswith(b"#"):
            entry = entry_of(line)
            if entry is None:
                raise BadTrace(place, "Line")
            entries.append(entry)
    return cores, entries


# --- The flat machine ------------------------------------------------------

class Illegal(Exception):
    """An entry that is refused."""


@dataclass
class Event:
    """The next access, end or fault of a hart, which stands there."""

    kind: str
    hart: Hart
    address: int = 0
    width: int = 0
    value: int = 0
    into: int = 0
    extends: bool = False
    cause: int = 0


def next_event(image: Image, hart: Hart) -> Event:
    hart = copy.deepcopy(hart)
    try:
        while hart.pc != rv32_seq.END:
            if hart.done >= image.limit:
                raise Fault(rv32_seq.INSTRUCTION_LIMIT, hart.pc)
            if hart.pc >= image.code:
                raise Fault(rv32_seq.FETCH_OUTSIDE_CODE, hart.pc)
            ins = rv32_seq.decode(int.from_bytes(image.memory[hart.pc:hart.pc + 4], "little"), hart.pc)
            if ins.name in rv32_seq.LOAD:
                width, extends = rv32_seq.LOAD[ins.name]
                address = rv32_seq.data_address(hart, ins, width)
                if address + width > image.size:
                    raise Fault(rv32_seq.LOAD_OUTSIDE, hart.pc)
                return Event("load", hart, address, width, into=ins.rd, extends=extends)
            if ins.name in rv32_seq.STORE:
                width = rv32_seq.STORE[ins.name]
                address = rv32_seq.data_address(hart, ins, width)
                if address < image.code or address + width > image.size:
                    raise Fault(rv32_seq.STORE_OUTSIDE, hart.pc)
                return Event("store", hart, address, width, hart.x[ins.rs2] % (1 << 8 * width))
            rv32_seq.step(hart, ins, bytearray(), image.code)  # neither a load nor a store
    except Fault as fault:
        return Event("fault", hart, cause=fault.cause)
    return Event("end", hart)


def after_access(event: Event, value: int) -> Hart:
    """The hart after a load of this value, or after a store."""
    hart = copy.deepcopy(event.hart)
    if event.kind == "load":
        hart.write(event.into, rv32_seq.signed(value, 8 * event.width) if event.extends else value)
    hart.pc = (hart.pc + 4) & rv32_seq.MASK32
    hart.done += 1
    return hart


@dataclass
class Core:
    epoch: int
    hart: Hart
    own: dict[int, int] = field(default_factory=dict)
    outside: dict[int, int] = field(default_factory=dict)
    straight: bool = False
    hurt: bool = False


def stored_by(entry: Entry) -> dict[int, int]:
    """The bytes of a store by their addresses."""
    address, width, value = entry.numbers
    return {address + i: b for i, b in enumerate(value.to_bytes(width, "little"))}


class Flat:
    def __init__(self, image: Image, count: int) -> None:
        self.image = image
        self.committed = bytearray(image.memory)
        self.cores: list[Core | None] = [None] * count
        self.homefree = 0
        self.next_epoch = 0
        self.over = image.epochs == 0

    def core(self, by: int) -> Core:
        """What a core runs that isn't idle."""
        core = self.cores[by]
        assert core is not None, f"core {by} is idle"
        return core

    def running(self, by: int) -> Core | None:
        """What a core runs that isn't hurt, or None."""
        core = self.cores[by] if by < len(self.cores) else None
        return core if core and not core.hurt else None

    def at(self, epoch: int) -> Core | None:
        """The core that runs this epoch, or None."""
        return next((core for core in self.cores if core and core.epoch == epoch), None)

    def event(self, by: int) -> Event:
        return next_event(self.image, self.core(by).hart)

    def exits(self, event: Event) -> bool:
        return event.kind == "end" and self.image.exit and event.hart.x[10] != 0

    def bytes_seen(self, core: Core, address: int, width: int) -> bytes:
        return bytes(core.own.get(a, self.committed[a]) for a in range(address, address + width))

    # ---- the tests, in order

    def is_there(self, entry: Entry) -> bool:
        by, what, numbers = entry
        core = self.running(by)
        if what == "start":
            return by < len(self.cores) and self.cores[by] is None
        if what == "restart":
            return by < len(self.cores) and self.cores[by] is not None and self.core(by).hurt
        if core is None:
            return False
        if what in ("hurt", "cancel"):
            other = self.at(numbers[0])
            if other is None or other.epoch <= core.epoch:
                return False
            return what == "cancel" or not (other.straight or other.hurt)
        return not core.straight if what == "publish" else True

    def is_next(self, entry: Entry) -> bool:
        by, what, numbers = entry
        if what == "start":
            return numbers[0] == self.next_epoch < self.image.epochs
        if what in ("hurt", "restart", "publish"):
            return True
        event = self.event(by)
        if what == "load":
            return event.kind == "load" and (event.address, event.width) == numbers[:2]
        if what == "store":
            return event.kind == "store" and (event.address, event.width, event.value) == numbers
        if what == "fault":
            return event.kind == "fault" and (event.cause, event.hart.pc) == numbers
        return self.exits(event) if what == "cancel" else event.kind == "end"

    def is_homefree(self, entry: Entry) -> bool:
        waits = entry.what in ("cancel", "publish", "commit", "fault")
        return not waits or self.core(entry.by).epoch == self.homefree

    def is_value(self, entry: Entry) -> bool:
        if entry.what != "load":
            return True
        address, width, value = entry.numbers
        return int.from_bytes(self.bytes_seen(self.core(entry.by), address, width), "little") == value

    def written(self, entry: Entry) -> dict[int, int]:
        """The bytes that an entry commits."""
        if entry.what in ("publish", "commit", "fault"):
            return self.core(entry.by).own
        if entry.what == "store" and self.core(entry.by).straight:
            return stored_by(entry)
        return {}

    def readers(self, by: int, written: dict[int, int]) -> list[int]:
        """The other cores that have read a byte which would change, and aren't hurt."""
        changed = {a for a, b in written.items() if self.committed[a] != b}
        return [k for k in range(len(self.cores)) if k != by and self.running(k)
                and changed & self.core(k).outside.keys()]

    def refusal(self, entry: Entry) -> str | None:
        """The name of the first test that an entry doesn't pass, or None."""
        if self.over:
            return "Over"
        if not self.is_there(entry):
            return "NotThere"
        if not self.is_next(entry):
            return "NotNext"
        if not self.is_homefree(entry):
            return "NotHomefree"
        if not self.is_value(entry):
            return "WrongValue"
        if self.readers(entry.by, self.written(entry)):
            return "HurtMissing"
        if (entry.what == "commit" and self.exits(self.event(entry.by))
            and any(core for k, core in enumerate(self.cores) if k != entry.by)):
            return "NotCancelled"
        return None

    # ---- what an entry does

    def apply(self, entry: Entry) -> None:
        by, what, numbers = entry
        if what in ("start", "restart"):
            epoch = numbers[0] if numbers else self.core(by).epoch
            self.cores[by] = Core(epoch, Hart(self.image, epoch))
            self.next_epoch += len(numbers)
        elif what in ("hurt", "cancel"):
            self.end_other(what, numbers[0])
        elif what == "load":
            self.load(self.core(by), *numbers)
        else:
            written = self.written(entry)
            if what == "store" and not self.core(by).straight:
                self.core(by).own.update(stored_by(entry))
            for address, byte in written.items():
                self.committed[address] = byte
            self.settle(by, what)

    def end_other(self, what: str, epoch: int) -> None:
        """Violates or cancels an epoch."""
        place = [core.epoch if core else None for core in self.cores].index(epoch)
        if what == "hurt":
            self.core(place).hurt = True
        else:
            self.cores[place] = None

    def load(self, core: Core, address: int, width: int, value: int) -> None:
        event = next_event(self.image, core.hart)
        if not core.straight:
            core.outside.update((a, self.committed[a]) for a in range(address, address + width) if a not in core.own)
        core.hart = after_access(event, value)

    def settle(self, by: int, what: str) -> None:
        core = self.core(by)
        if what == "store":
            core.hart = after_access(self.event(by), 0)
        elif what == "publish":
            core.own, core.outside, core.straight = {}, {}, True
        elif what == "commit":
            exits = self.exits(self.event(by))
            self.cores[by] = None
            self.homefree += 1
            self.over = exits or self.homefree == self.image.epochs
        else:
            self.over = True


def audit(image: Image, count: int, entries: list[Entry]) -> tuple[int, str | None]:
    """The homefree epoch after a legal history, or the place of the first entry that is refused, and its refusal."""
    flat = Flat(image, count)
    for place, entry in enumerate(entries):
        refusal = flat.refusal(entry)
        if refusal:
            return place, refusal
        flat.apply(entry)
    return flat.homefree, None


# --- The program -----------------------------------------------------------

def outcome(text: bytes) -> Outcome:
    """Standard output, standard error and status for an input."""
    if len(text) > MAX_INPUT:
        return "", "trace 0 TooLong\n", 2
    above, lines = split_input(text)
    try:
        image = rv32_seq.image_of(above)
        cores, entries = trace_of(lines, image.version)
    except Refused as refused:
        return "", f"image {refused.line} {refused.name}\n", 2
    except BadTrace as refused:
        return "", f"trace {refused.line} {refused.name}\n", 2
    answer, refusal = audit(image, cores, entries)
    if refusal:
        return f"illegal {answer} {refusal}\n", "", 4
    return f"legal {len(entries)} {answer}\n", "", 0


def main(words: list[str]) -> int:
    if words != ["audit"]:
        sys.stderr.write("usage\n")
        return 2
    said, refused, status = outcome(sys.stdin.buffer.read(MAX_INPUT + 1))
    sys.stderr.write(refused)
    sys.stdout.write(said)
    return status


if __name__ == "__main__":
    sys.exit(main(sys.argv[1:]))
