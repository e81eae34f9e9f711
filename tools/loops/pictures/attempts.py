"""The attempts of a run, and the turns that made entries: what a picture's lanes are."""

from dataclasses import dataclass, field
from typing import NamedTuple

from loops import Conflicts, Entry, Traced, Violation, conflicts
from loops.images import there
from loops.stores import Machine, Store


@dataclass(slots=True)
class Attempt:
    """One run of an epoch on a core, from its start or restart until it commits, is violated, is cancelled or
    faults."""
    core: int
    epoch: int
    number: int
    first: int                              # the turn of its start
    last: int | None = None                 # the turn in which the core left it
    straight: int | None = None             # the turn from which on it was straight
    violation: Violation | None = None
    undone: int | None = None               # the turn in which it was violated or cancelled
    fate: str = "open"                      # committed, fault, violated, cancelled
    accesses: list[tuple[int, Entry]] = field(default_factory=list)     # each with its turn


class Blamed(NamedTuple):
    """Two instructions that are to blame: the addresses of the causer's and of the victim's, and whether a buffer was
    full."""
    causer: int
    victim: int
    full: bool


# The fates of the report that pictures call otherwise
FATES = {"faulted": "fault"}
Pairs = list[tuple[Blamed, list[Violation]]]


def pairs_of(violations: list[Violation]) -> Pairs:
    """Violations by the two instructions that are to blame, those that lost most first."""
    groups: dict[Blamed, list[Violation]] = {}
    for violation in violations:
        if violation.victims and violation.causers:
            blamed = Blamed(violation.causers.pc, violation.victims.pc, violation.kind == "buffer")
            groups.setdefault(blamed, []).append(violation)
    return sorted(groups.items(), key=lambda group: (-sum(one.lost for one in group[1]), -len(group[1]), group[0]))


class Run:
    """The attempts that the report has of a trace. A turn is what one core did while it had the lock: violations and
    cancellations first, then its act."""

    def __init__(self, traced: Traced, report: Conflicts, store: Store | None = None):
        self.image, self.cores, self.entries = traced.image, traced.trace.cores, traced.trace.entries
        self.store = store                                              # where it was said what the run is over
        self.violations = report.violations
        self.turns = 0
        self.turn_of: list[int] = []                                    # of each entry
        for entry in self.entries:
            self.turn_of.append(self.turns)
            if entry.what not in ("hurt", "cancel", "publish"):
                self.turns += 1
        told = {violation.place: violation for violation in self.violations}
        begun = {attempt.began: self._drawn(attempt, told) for attempt in report.attempts}
        self.attempts = list(begun.values())
        if begun:
            self._fill(begun)

    def _drawn(self, attempt: conflicts.Attempt, told: dict[int, Violation]) -> Attempt:
        """An attempt of the report, in turns."""
        drawn = Attempt(attempt.core, attempt.epoch, attempt.attempt, self.turn_of[attempt.began],
                        fate=FATES.get(attempt.fate, attempt.fate))
        if attempt.end:
            turn = self.turn_of[attempt.end.place]
            drawn.last = None if drawn.fate == "violated" else turn
            drawn.undone = turn if drawn.fate in ("violated", "cancelled") else None
            drawn.violation = told.get(attempt.end.place)
        return drawn

    def _fill(self, begun: dict[int, Attempt]) -> None:
        """What else the entries say of the attempts that began at these: accesses, where one was straight from, and
        where a core left one that was violated."""
        now: dict[int, Attempt] = {}                                    # what each core runs
        for turn, entry in zip(self.turn_of, self.entries):
            if entry.what in ("start", "restart"):
                if entry.what == "restart":
                    now[entry.core].last = turn
                now[entry.core] = begun[entry.place]
            elif entry.what in ("load", "store"):
                now[entry.core].accesses.append((turn, entry))
            elif entry.what == "publish":
                now[entry.core].straight = turn
            elif entry.what == "cancel":
                next(attempt for attempt in now.values() if attempt.epoch == entry.epoch).last = turn

    def span(self, attempt: Attempt) -> tuple[int, float]:
        """The turns in which an attempt ran: of a violated one until it was violated."""
        end = self.turns if attempt.last is None else attempt.last + (attempt.fate in ("committed", "fault"))
        return attempt.first, there(attempt.undone) + 0.5 if attempt.fate == "violated" else end

    def shares(self, columns: int) -> dict[tuple[int, int], list[float]]:
        """For each core and each of so many columns of turns, how many turns of useful, lost and other attempts lie in
        it."""
        wide = max(1, self.turns) / columns
        found: dict[tuple[int, int], list[float]] = {}
        for attempt in self.attempts:
            first, last = self.span(attempt)
            kind = {"committed": 0, "fault": 0, "violated": 1}.get(attempt.fate, 2)
            for column in range(int(first / wide), min(columns, int(last / wide) + 1)):
                part = min(last, (column + 1) * wide) - max(first, column * wide)
                if part > 0:
                    found.setdefault((attempt.core, column), [0.0, 0.0, 0.0])[kind] += part
        return found

    @property
    def machine(self) -> Machine:
        """That of the store, or of the image's version."""
        return self.store.machine if self.store else Machine.of_word("caches", self.image.version)

    @property
    def committed(self) -> int:
        return sum(attempt.fate == "committed" for attempt in self.attempts)

    @property
    def lost(self) -> int:
        return sum(violation.lost for violation in self.violations)

    def pairs(self) -> Pairs:
        """The violations by their two instructions and whether a buffer was full, those that lost most first."""
        return pairs_of(self.violations)
