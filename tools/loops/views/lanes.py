"""The attempts that the lanes of the page show."""

from array import array
from dataclasses import dataclass

from loops import Entry
from loops.conflicts import Attempt
from loops.images import there

from .words import OF_OTHERS

# The fates of the report that the page calls otherwise
FATES = {"faulted": "fault"}


@dataclass(slots=True)
class Lane:
    """One attempt of an epoch, in turns of the run: which began it, at which it ends, how it ended, and which rolled it
    back."""
    core: int
    epoch: int
    number: int
    first: int
    end: int
    fate: str
    undone: int | None = None


class Moments:
    """The turns of the entries of a run whose turns are taken one after another."""

    def __init__(self) -> None:
        self.count = 0                                  # turns of the run, where no turn follows
        self.cancels: dict[int, int] = {}               # the turn of each cancellation, by its epoch
        self._turns = array("L")                        # of each entry
        self._waiting: list[Entry] = []                 # done to others, before the act with which they are one turn

    def take(self, number: int, entries: list[Entry]) -> None:
        """Takes the entries of a turn. What is done to others belongs to the next act."""
        for entry in entries:
            self._waiting.append(entry)
            if entry.what not in OF_OTHERS:
                self._settle(number)

    def end(self, count: int) -> None:
        """No turn follows."""
        self.count = count
        self._settle(count)

    def __getitem__(self, place: int) -> int:
        """The turn of an entry."""
        return self._turns[place]

    def _settle(self, number: int) -> None:
        for entry in self._waiting:
            self._turns.append(number)
            if entry.what == "cancel":
                self.cancels[there(entry.epoch)] = number
        self._waiting.clear()


class Lanes:
    """The attempts of a run from one turn to another, which are taken in the order in which they began."""

    def __init__(self, moments: Moments, low: int, high: int) -> None:
        self.moments, self.low, self.high = moments, low, high
        self._kept: list[Lane] = []
        self._violated: dict[int, Lane] = {}            # by core, where it has not begun again

    def take(self, attempt: Attempt) -> None:
        """Takes the next attempt."""
        lane = self._lane(attempt)
        before = self._violated.pop(lane.core, None)
        if before and before.epoch == lane.epoch:
            before.end = lane.first
            if before.end < self.low:
                self._kept.remove(before)
        if lane.fate == "violated":
            self._violated[lane.core] = lane
        if lane.first < self.high and lane.end >= self.low:
            self._kept.append(lane)

    def _lane(self, attempt: Attempt) -> Lane:
        """An attempt in turns. One that was violated ends where its epoch is cancelled, if nothing else ends it."""
        turn = self.moments.count if attempt.end is None else self.moments[attempt.end.place]
        lane = Lane(attempt.core, attempt.epoch, attempt.attempt, self.moments[attempt.began], turn,
                    FATES.get(attempt.fate, attempt.fate))
        if lane.fate in ("committed", "fault"):
            lane.end = turn + 1
        if lane.fate in ("violated", "cancelled"):
            lane.undone = turn
        if lane.fate == "violated":
            lane.end = self.moments.cancels.get(lane.epoch, self.moments.count)
        return lane

    def shown(self) -> list[list[int | str | None]]:
        """Those that the page shows, by the place of a turn on it."""
        return [[lane.core, lane.epoch, lane.number, lane.first - self.low, lane.end - self.low, lane.fate,
                 None if lane.undone is None else lane.undone - self.low]
                for lane in self._kept]
