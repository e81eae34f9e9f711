#!/usr/bin/env python3
"""Reference model of `depends`, independent of the proved program.

Usage: dependences.py CORES [STORE ..] < IMAGE

Runs the loop of an image in order, and each epoch alone over the memory that the epochs before its window leave. It
prints the lines `dep` of `depends`, and for each store, `caches plain` without one, whether epochs conflict on up to so
many cores: `never STORE CORES`, or `open STORE N` with the least number of cores and a conflict. It looks for no
schedule, so `from` never stands there. Words, image and statuses are those of `depends`.

The words are those of docs/depends.md. It is written to be read; it is slow.
"""

import sys
from collections.abc import Callable, Iterator
from dataclasses import dataclass
from typing import NamedTuple

import rv32_seq
from rv32_seq import Fault, Hart, Image, Refused

MOST_CORES = {1: 8, 2: 16}
LINE_LENGTH = {1: 16, 2: 32}
BUFFER_LINES = {1: 4, 2: 8}
STORES = ("caches", "plain")


# --- Paths -----------------------------------------------------------------

@dataclass
class Access:
    """A load or store on a path: after so many instructions, by the one at pc, of these bytes."""

    done: int
    pc: int
    is_store: bool
    bytes: range
    outside: list[int]


class Watched:
    """Memory under an epoch's own bytes, which notes each access."""

    def __init__(self, memory: bytes, hart: Hart) -> None:
        self.memory, self.hart = memory, hart
        self.own: dict[int, int] = {}
        self.accesses: list[Access] = []

    def __len__(self) -> int:
        return len(self.memory)

    def __getitem__(self, at: slice) -> bytes:
        touched = range(at.start, at.stop)
        outside = [a for a in touched if a not in self.own]
        self.accesses.append(Access(self.hart.done, self.hart.pc, False, touched, outside))
        return bytes(self.own.get(a, self.memory[a]) for a in touched)

    def __setitem__(self, at: slice, data: bytes) -> None:
        touched = range(at.start, at.stop)
        self.accesses.append(Access(self.hart.done, self.hart.pc, True, touched, []))
        self.own.update(zip(touched, data))


class Path:
    """An epoch alone over a memory: its accesses, how many instructions it executes, and whether the loop goes on."""

    def __init__(self, image: Image, epoch: int, memory: bytes) -> None:
        hart = Hart(image, epoch)
        watched = Watched(memory, hart)
        self.goes_on = False
        try:
            while hart.pc != rv32_seq.END:
                if hart.done >= image.limit:
                    raise Fault(rv32_seq.INSTRUCTION_LIMIT, hart.pc)
                if hart.pc >= image.code:
                    raise Fault(rv32_seq.FETCH_OUTSIDE_CODE, hart.pc)
                word = int.from_bytes(image.memory[hart.pc:hart.pc + 4], "little")
                rv32_seq.step(hart, rv32_seq.decode(word, hart.pc), watched, image.code)
            self.goes_on = not (image.exit and hart.x[10] != 0)
        except Fault:
            pass
        self.count, self.own, self.accesses = hart.done, watched.own, watched.accesses
        self.loads = [access for access in self.accesses if not access.is_store]
        self.stores = [access for access in self.accesses if access.is_store]


class Loop:
    """The run in order, and the memory that it leaves before each epoch."""

    def __init__(self, image: Image) -> None:
        self.image, self.before = image, [bytes(image.memory)]
        self.in_order: list[Path] = []
        self.paths: dict[tuple[int, int], Path] = {}
        for epoch in range(image.epochs):
            path = Path(image, epoch, self.before[-1])
            memory = bytearray(self.before[-1])
            for a, value in path.own.items():
                memory[a] = value
            self.in_order.append(path)
            if not path.goes_on:
                break
            self.before.append(bytes(memory))

    def path(self, epoch: int, cores: int) -> Path | None:
        """The epoch's path on so many cores, or None where the first of its window isn't reached."""
        first = max(0, epoch - cores + 1)
        if first >= len(self.in_order):
            return None
        if (epoch, first) not in self.paths:
            self.paths[epoch, first] = Path(self.image, epoch, self.before[first])
        return self.paths[epoch, first]

    def beside(self, cores: int) -> Iterator[tuple[int, int, Path, Path]]:
        """The pairs of epochs that so many cores can run beside each other, with their paths."""
        for later in range(min(self.image.epochs, len(self.in_order) + cores)):
            for earlier in range(max(0, later - cores + 1), later):
                first, second = self.path(earlier, cores), self.path(later, cores)
                if first and second:
                    yield earlier, later, first, second


# --- Dependences of the run in order ---------------------------------------

@dataclass
class Dependence:
    """A load that reads from outside what an earlier epoch stored last."""

    earlier: int
    store: Access
    later: int
    load: Access
    byte: int

    @property
    def distance(self) -> int:
        return self.later - self.earlier


def dependences(loop: Loop) -> Iterator[Dependence]:
    """One of each load that depends on an earlier epoch, in order."""
    last: dict[int, tuple[int, Access]] = {}
    for later, path in enumerate(loop.in_order):
        for load in path.loads:
            found = [(last[byte][0], -byte) for byte in load.outside if byte in last]
            if found:
                earlier, byte = max(found)
                yield Dependence(earlier, last[-byte][1], later, load, -byte)
        for store in path.stores:
            last.update((byte, (later, store)) for byte in store.bytes)


def dep_lines(loop: Loop) -> Iterator[str]:
    """A line for each pair of instructions, heaviest first, then by their pcs."""
    pairs: dict[tuple[int, int], list[Dependence]] = {}
    for one in dependences(loop):
        pairs.setdefault((one.store.pc, one.load.pc), []).append(one)
    for (store, load), all_of in sorted(pairs.items(), key=lambda pair: (-len(pair[1]), pair[0])):
        first, away, at = all_of[0], [one.distance for one in all_of], [one.byte for one in all_of]
        yield (f"dep store {store:08x} load {load:08x} times {len(all_of)} distance {min(away)} {max(away)} "
               f"at {min(at):08x} {max(at) - min(at) + 1} first {first.earlier} {first.later} "
               f"stored {first.store.done} of {loop.in_order[first.earlier].count} "
               f"loaded {first.load.done} of {loop.in_order[first.later].count}")


# --- Conflicts ---------------------------------------------------------------

class Met(NamedTuple):
    """A conflict: two epochs, and the pcs of the later one's load and of the earlier one's store."""

    later: int
    load: int
    earlier: int
    store: int


def bytes_met(loop: Loop, cores: int) -> Iterator[Met]:
    """Each conflict over bytes."""
    for earlier, later, causer, victim in loop.beside(cores):
        if earlier < len(loop.in_order):
            for load in victim.loads:
                for store in causer.stores:
                    if set(load.outside) & set(store.bytes):
                        yield Met(later, load.pc, earlier, store.pc)


def lines_met(loop: Loop, cores: int) -> Iterator[Met]:
    """The same over lines of the caches; the earlier epoch may be past the loop's end too."""
    length = LINE_LENGTH[loop.image.version]
    for earlier, later, causer, victim in loop.beside(cores):
        for load in victim.loads:
            for store in causer.stores:
                if {a // length for a in load.outside} & {a // length for a in store.bytes}:
                    yield Met(later, load.pc, earlier, store.pc)


def lines_of(path: Path, length: int) -> set[int]:
    """The lines that an epoch touches on its path."""
    return {a // length for access in path.accesses for a in access.bytes}


def overflows(loop: Loop, cores: int) -> Iterator[tuple[int, int]]:
    """(later epoch, earlier epoch) where the later one stores in a line that the earlier one touches, and in as many
    others as its buffer takes, each of which an epoch beside it touches."""
    length, room = LINE_LENGTH[loop.image.version], BUFFER_LINES[loop.image.version]
    beside: dict[int, set[int]] = {}
    for earlier, later, first, second in loop.beside(cores):
        beside.setdefault(earlier, set()).update(lines_of(second, length))
        beside.setdefault(later, set()).update(lines_of(first, length))
    for earlier, later, first, second in loop.beside(cores):
        stored = {a // length for a in second.own}
        if len(stored & beside[later]) > room and stored & lines_of(first, length):
            yield later, earlier


MET: dict[str, Callable[[Loop, int], Iterator[Met]]] = {"plain": bytes_met, "caches": lines_met}


def least(loop: Loop, cores: int, found: Callable[[Loop, int], Iterator[object]]) -> int | None:
    """The least number of cores up to so many on which something of a kind is found, or None."""
    return next((n for n in range(1, cores + 1) if next(found(loop, n), None)), None)


def store_line(loop: Loop, store: str, cores: int) -> str:
    """What is told of a store."""
    met = least(loop, cores, MET[store])
    full = least(loop, cores, overflows) if store == "caches" else None
    found = [n for n in (met, full) if n is not None]
    return f"open {store} {min(found)}" if found else f"never {store} {cores}"


# --- The program -------------------------------------------------------------

def asked(words: list[str]) -> tuple[int, list[str]] | None:
    """How many cores, and the stores, or None."""
    cores = rv32_seq.number(words[0].encode()) if words else None
    if cores is None or not 1 <= cores <= 16 or any(word not in STORES for word in words[1:]):
        return None
    return cores, words[1:] or list(STORES)


def main(words: list[str]) -> int:
    given = asked(words)
    if given is None:
        sys.stderr.write("usage\n")
        return 2
    cores, stores = given
    try:
        image = rv32_seq.image_of(sys.stdin.buffer.read())
    except Refused as refused:
        sys.stderr.write(f"image {refused.line} {refused.name}\n")
        return 2
    if cores > MOST_CORES[image.version]:
        sys.stderr.write("usage\n")
        return 2
    loop = Loop(image)
    for line in [*dep_lines(loop), *(store_line(loop, store, cores) for store in stores)]:
        print(line)
    return 0


if __name__ == "__main__":
    sys.exit(main(sys.argv[1:]))
