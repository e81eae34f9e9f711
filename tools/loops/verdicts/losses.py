"""The rollbacks of one run: what a verdict needs of it, without reading its whole trace."""

from functools import cached_property

from loops import Entry, Image, Violation
from loops.runs import entry_of
from loops.stores import Machine, Store
from loops.pictures.attempts import Pairs, pairs_of


class Entries:
    """The entries of a trace, each read when it is asked for."""

    def __init__(self, lines: list[str]):
        self.lines = lines

    def __getitem__(self, place: int) -> Entry:
        return entry_of(place, self.lines[place])


class Losses:
    """The violations of a run at even speed over one store."""

    def __init__(self, image: Image, violations: list[Violation], lines: list[str], store: Store):
        self.image, self.violations, self.entries, self.store = image, violations, Entries(lines), store

    @property
    def machine(self) -> Machine:
        return self.store.machine

    @property
    def lost(self) -> int:
        return sum(violation.lost for violation in self.violations)

    @cached_property
    def pairs(self) -> Pairs:
        """The violations by their two instructions and whether a buffer was full, those that lost most first."""
        return pairs_of(self.violations)

    @cached_property
    def most_lines(self) -> int:
        """Of all attempts that which accesses most lines: how many these are."""
        most, lines = 0, dict[str, set[int]]()
        for core, what, *rest in (line.split(" ", 3) for line in self.entries.lines):
            if what in ("start", "restart"):
                lines[core] = set()
            elif what in ("load", "store"):
                lines[core].add(self.machine.place_of(int(rest[0], 16), self.image.size) // self.machine.line)
                most = max(most, len(lines[core]))
        return most
