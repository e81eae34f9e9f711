#!/usr/bin/env python3
"""Makes a legal history of a histogram loop on four cores, as the program audit_bench reads it.

    history.py ENTRIES SEED > FILE

Each epoch counts eight words of a table of 256. Which ones follows from its number. The simulator below knows this loop
alone: it draws a core for each turn, and keeps for each what it has stored and what it has read.

An entry is written as five numbers of four bytes, least significant byte first: the core, the kind, and three numbers.
"""
import random
import struct
import sys
from collections.abc import Iterator
from typing import NamedTuple

CORES = 4
EPOCHS = 65_535
TABLE = 1024
START, LOAD, STORE, HURT, RESTART, PUBLISH, COMMIT = range(7)


class Entry(NamedTuple):
    """An entry: its core, its kind, and three numbers, of which those that it hasn't are 0."""

    by: int
    kind: int
    first: int = 0
    second: int = 0
    third: int = 0


def words_of(epoch: int) -> Iterator[int]:
    """The addresses that an epoch counts, in order: eight steps of xorshift from its number and 1 on."""
    x = epoch + 1
    for _ in range(8):
        x ^= x << 13 & 0xFFFFFFFF
        x ^= x >> 17
        x ^= x << 5 & 0xFFFFFFFF
        yield TABLE + (x & 1020)


class Core:
    def __init__(self, epoch: int) -> None:
        self.epoch = epoch
        self.words = list(words_of(epoch))
        self.begin()

    def begin(self) -> None:
        self.turn = 0  # of 16: a load, then a store of each word
        self.own: dict[int, int] = {}
        self.read: set[int] = set()
        self.straight = self.hurt = False


class Machine:
    def __init__(self, seed: str) -> None:
        self.draw = random.Random(seed)
        self.cores: list[Core | None] = [None] * CORES
        self.memory: dict[int, int] = {}
        self.next_epoch = self.homefree = 0
        self.entries: list[Entry] = []

    def note(self, by: int, kind: int, *numbers: int) -> None:
        self.entries.append(Entry(by, kind, *numbers))

    def violate(self, by: int, core: Core, words: set[int]) -> None:
        """Hurts each later epoch that has read one of these words."""
        for other in self.cores:
            if other and other.epoch > core.epoch and not other.hurt and not other.read.isdisjoint(words):
                other.hurt = True
                self.note(by, HURT, other.epoch)

    def publish(self, by: int, core: Core, kind: int) -> None:
        self.violate(by, core, {word for word, value in core.own.items() if self.memory.get(word, 0) != value})
        self.memory.update(core.own)
        self.note(by, kind)

    def access(self, by: int, core: Core) -> None:
        word = core.words[core.turn // 2]
        value = core.own.get(word, self.memory.get(word, 0))
        if core.turn % 2 == 0:
            if not core.straight and word not in core.own:
                core.read.add(word)
            self.note(by, LOAD, word, 4, value)
        else:
            self.violate(by, core, {word})
            (self.memory if core.straight else core.own)[word] = value + 1
            self.note(by, STORE, word, 4, value + 1)
        core.turn += 1

    def turn(self) -> None:
        by = self.draw.randrange(CORES)
        core = self.cores[by]
        if core is None:
            assert self.next_epoch < EPOCHS, "too many entries for the epochs that there are"
            self.cores[by] = Core(self.next_epoch)
            self.note(by, START, self.next_epoch)
            self.next_epoch += 1
        elif core.hurt:
            core.begin()
            self.note(by, RESTART)
        elif core.epoch == self.homefree and not core.straight and self.draw.random() < 0.05:
            self.publish(by, core, PUBLISH)
            core.own, core.read, core.straight = {}, set(), True
        elif core.turn < 2 * len(core.words):
            self.access(by, core)
        elif core.epoch == self.homefree:
            self.publish(by, core, COMMIT)
            self.cores[by] = None
            self.homefree += 1


def history(count: int, seed: str) -> tuple[list[Entry], int]:
    """So many entries, and the homefree epoch after them."""
    machine = Machine(seed)
    while len(machine.entries) < count:
        machine.turn()
    entries = machine.entries[:count]
    return entries, sum(entry.kind == COMMIT for entry in entries)


def encoded(entries: list[Entry]) -> bytes:
    return b"".join(struct.pack("<5I", *entry) for entry in entries)


if __name__ == "__main__":
    sys.stdout.buffer.write(encoded(history(int(sys.argv[1]), sys.argv[2])[0]))
