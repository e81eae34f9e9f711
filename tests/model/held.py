"""Reference model of held runs, independent of the proved programs: which loads wait, whose turn is next, and how many
steps the run takes.

A load waits while an epoch that is earlier than its own, and hasn't committed, stores in order in a piece in which a
byte lies that the load reads from outside. A piece is a byte; over caches it is a line, by the places of bytes. Whether
a turn waits, and whom it violates, is taken from the history of the run, which the flat machine does again.
"""

from collections.abc import Callable
from typing import NamedTuple

from dependences import Loop
from flat_audit import Entry, Event, Flat, next_event
from places import machine_of
from rv32_seq import Image

# What ends a turn that doesn't wait
LAST = {"start", "restart", "load", "store", "commit", "fault"}


class Differs(Exception):
    """A turn that isn't that of the model."""


class Figures(NamedTuple):
    """The steps of a run, those for which cores were held, and how often epochs began again."""

    steps: int
    held: int
    restarts: int


def piece_of(store: str, image: Image) -> Callable[[int], int]:
    """What tells in which piece a byte lies."""
    if store == "plain":
        return lambda address: address
    machine = machine_of(store, image.version)
    return lambda address: machine.place(address, image.size) // machine.line


class Run:
    """A held run, of which the turns are taken one after another."""

    def __init__(self, image: Image, store: str, cores: int) -> None:
        self.flat, self.piece = Flat(image, cores), piece_of(store, image)
        # by epochs, the pieces in which they store in order
        self.stored = [{self.piece(address) for address in path.own} for path in Loop(image).in_order]
        # when each core is due: None where it waits, or has no epoch more
        self.dues: list[int | None] = [0] * cores
        self.events: list[Event | None] = [None] * cores
        self.waiting: set[int] = set()
        self.at = self.held = self.restarts = 0

    def is_held(self, by: int) -> bool:
        """Whether a core stands at a load that waits."""
        core, event = self.flat.running(by), self.events[by]
        if not core or not event or event.kind != "load" or core.epoch == self.flat.homefree:
            return False
        read = {self.piece(a) for a in range(event.address, event.address + event.width) if a not in core.own}
        return any(read & pieces for pieces in self.stored[self.flat.homefree:core.epoch])

    def first(self) -> tuple[int, int, int]:
        """When the next turn begins and since when it has been due, and whose it is."""
        return min((max(self.at, due), due, by) for by, due in enumerate(self.dues)
                   if due is not None and not self.is_held(by))

    def turn(self, by: int, entries: list[Entry]) -> None:
        """Takes the turn of a core, which makes these entries; of one that waits there are none."""
        self.at, due, wanted = self.first()
        if by != wanted:
            raise Differs(f"a turn of core {by}, in the place of core {wanted}, which is due since {due}")
        self.held += self.at - due
        if not entries:
            self.dues[by] = None
            if self.flat.cores[by] or self.flat.next_epoch < self.flat.image.epochs:
                self.waiting.add(by)
            return
        for entry in entries:
            self.flat.apply(entry)
        self.restarts += entries[-1].what == "restart"
        for other in self.waiting:
            self.dues[other] = self.at
        self.waiting.clear()
        self.go_on(by)

    def go_on(self, by: int) -> None:
        """The core executes up to its next event."""
        core = self.flat.cores[by]
        event = self.events[by] = next_event(self.flat.image, core.hart) if core else None
        self.dues[by] = self.at + 1 + (event.hart.done - core.hart.done if core and event else 0)


def figures_of(image: Image, store: str, cores: int, turns: list[int], entries: list[Entry]) -> Figures:
    """The figures of a run up to the end of the loop, whose turns have to be those of the model."""
    run, place = Run(image, store, cores), 0
    for number, by in enumerate(turns):
        end = place
        while end < len(entries) and entries[end].by == by and (end == place or entries[end - 1].what not in LAST):
            end += 1
        try:
            run.turn(by, entries[place:end])
        except Differs as wrong:
            raise Differs(f"turn {number}: {wrong}") from None
        place = end
    if place < len(entries) or not run.flat.over:
        raise Differs(f"{len(entries) - place} entries are left, and the loop is{'' if run.flat.over else ' not'} over")
    return Figures(run.at + 1, run.held, run.restarts)
