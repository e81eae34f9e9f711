"""What `depends` prints: the dependences of the run in order, and for each store whether anything can roll back over
it. docs/depends.md says what each word means."""

import re
from collections.abc import Iterator
from dataclasses import dataclass, field

from .conflicts import Place
from .images import Unreadable
from .stores import is_store


@dataclass
class When:
    """When an epoch comes to an access: after so many of the instructions that it executes in order."""
    done: int
    of: int

    @property
    def share(self) -> float:
        """How far it is then, 0 to 1."""
        return self.done / self.of if self.of else 0.0

    def text(self) -> str:
        return f"{self.done} of {self.of}"


@dataclass
class Joined:
    """The dependences that a store and a load join: a line `dep`."""
    store: int                          # the addresses of the two instructions
    load: int
    times: int
    least_distance: int
    most_distance: int
    at: Place                           # from the lowest byte to the highest
    first_causer: int                   # the epochs of the first dependence
    first_victim: int
    stored: When                        # of that one, in the causer
    loaded: When                        # and in the victim

    def text(self) -> str:
        return (f"dep store {self.store:08x} load {self.load:08x} times {self.times} distance {self.least_distance} "
                f"{self.most_distance} "
                f"at {self.at.first:08x} {self.at.length} first {self.first_causer} {self.first_victim} stored "
                f"{self.stored.text()} loaded {self.loaded.text()}\n")


@dataclass
class OverStore:
    """Whether anything can roll back over a store: `never` on so many cores; `from` so many, by a schedule that shows
    it; or `open`, where epochs conflict on so many, and the schedule that was tried doesn't show it."""
    verdict: str
    store: str                          # the word as it was given: caches, plain, caches:sets=64 ..
    cores: int
    epoch: int | None = None            # of `from`: the epoch that is violated
    load: int | None = None             # the address of its load; none where its buffer is full
    by_epoch: int | None = None         # the epoch that violates it
    causer: int | None = None           # the address of that one's store
    turns: list[int] | None = None      # of `from` alone: the cores whose turns are taken

    def text(self) -> str:
        line = f"{self.verdict} {self.store} {self.cores}"
        if self.epoch is not None:
            where = "buffer" if self.load is None else f"load {self.load:08x}"
            line += f" epoch {self.epoch} {where} by epoch {self.by_epoch}" + ("" if self.causer is None
                                                                               else f" store {self.causer:08x}")
        return line + "\n" + ("" if self.turns is None else " ".join(["turns", *map(str, self.turns)]) + "\n")


@dataclass
class Dependences:
    """All that is told of a loop."""
    pairs: list[Joined] = field(default_factory=list)           # heaviest first
    stores: list[OverStore] = field(default_factory=list)       # in the order in which they were asked for

    def over(self, store: str) -> OverStore | None:
        return next((one for one in self.stores if one.store == store), None)

    def text(self) -> str:
        return "".join([*(pair.text() for pair in self.pairs), *(store.text() for store in self.stores)])


NUMBER, PC = r"(\d+)", r"([0-9a-f]{8})"
PAIR = re.compile(rf"dep store {PC} load {PC} times {NUMBER} distance {NUMBER} {NUMBER} at {PC} {NUMBER} first "
                  rf"{NUMBER} {NUMBER} stored {NUMBER} of {NUMBER} "
                  rf"loaded {NUMBER} of {NUMBER}")
BARE = re.compile(rf"(never|open) (\S+) {NUMBER}")
MEETS = re.compile(rf"from (\S+) {NUMBER} epoch {NUMBER} load {PC} by epoch {NUMBER} store {PC}")
FULL = re.compile(rf"from (\S+) {NUMBER} epoch {NUMBER} buffer by epoch {NUMBER}")


def pair_of(line: str) -> Joined | None:
    """What a line `dep` says."""
    match = PAIR.fullmatch(line)
    if match is None:
        return None
    n = [int(word, 16 if place in (0, 1, 5) else 10) for place, word in enumerate(match.groups())]
    return Joined(n[0], n[1], n[2], n[3], n[4], Place(n[5], n[6]), n[7], n[8], When(n[9], n[10]), When(n[11], n[12]))


def store_of(line: str) -> OverStore | None:
    """What the line of a store says."""
    if match := BARE.fullmatch(line):
        return OverStore(match[1], match[2], int(match[3]))
    if match := FULL.fullmatch(line):
        return OverStore("from", match[1], int(match[2]), int(match[3]), None, int(match[4]))
    if match := MEETS.fullmatch(line):
        return OverStore("from", match[1], int(match[2]), int(match[3]), int(match[4], 16), int(match[5]),
                         int(match[6], 16))
    return None


def take_store(told: OverStore, rest: Iterator[str]) -> OverStore:
    """The line of a store, and of `from` the turns below it."""
    if told.verdict == "from":
        word, *turns = next(rest, "").split(" ")
        if word != "turns":
            raise Unreadable("no turns stand below a line from")
        told.turns = [int(core) for core in turns]
    return told


def read_dependences(text: str) -> Dependences:
    """The lines that `depends` printed."""
    told, rest = Dependences(), iter(text.splitlines())
    for line in rest:
        pair, store = pair_of(line), store_of(line)
        if pair is not None and not told.stores:
            told.pairs.append(pair)
        elif store is not None and is_store(store.store):
            told.stores.append(take_store(store, rest))
        else:
            raise Unreadable(f"{line!r} is no line of depends")
    return told
