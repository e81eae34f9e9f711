"""What the page has of a run: its turns with what they changed, lanes, code and names. Turns are taken one after
another, and those that aren't shown aren't kept."""

from collections.abc import Mapping
from dataclasses import dataclass, field
from typing import TypedDict

from loops import Change, Entry, Image, Step, Violation
from loops.changes import OfAttempt, OfBuffer, OfHart, OfKept, OfMemory, OfWay
from loops.images import there
from loops.instructions import spelled
from loops.stores import Machine, Store

from .lanes import Lanes, Moments
from .words import CAUSES, moves_told, turn_told

ROW = 16
# So many rows of memory that no shown turn touches are shown beside those that one does.
MOST_UNTOUCHED = 64


@dataclass(slots=True)
class Shown:
    """A turn that is shown: which of the run it is, what it changed, and of its core the epoch and the instruction."""
    number: int
    step: Step
    # what its core waits for now, where that isn't what it waited for before: a cause, or nothing
    wait: str | None
    epoch: int | None
    pc: int
    moved: str


class Turns:
    """The turns of a run from one number to another, and of these at most so many; and what the page needs of all
    others."""

    def __init__(self, first: int, last: int | None, most: int):
        self.first, self.last, self.most = first, last, most
        self.count = 0
        self.low: int | None = None             # the first turn that is shown
        self.high: int | None = None            # the first one beyond
        self.before: dict[str, Change] = {}     # what stands at each place before the first one
        self.waits_before: dict[int, str] = {}  # and what each core waits for
        self.shown: list[Shown] = []
        self.rows: set[int] = set()             # the rows of memory that a turn touches
        self.moments = Moments()
        self._state: dict[str, Change] = {}
        self._waits: dict[int, str] = {}
        self._epochs: dict[int, int] = {}

    def take(self, step: Step) -> None:
        """Takes the next turn."""
        self._bound(step.turn)
        for entry in step.entries:
            if entry.address is not None:
                self.rows.update(rows_of(entry.address, entry.width or 0))
        self.rows.update(change.address for change in step.changes if isinstance(change, OfMemory))
        if self.high is None or self.low is None:
            self._follow(step)
        self.moments.take(self.count, step.entries)
        self.count += 1

    def end(self) -> None:
        """No turn follows."""
        self.low = self.count if self.low is None else self.low
        self.high = max(self.low, self.count if self.high is None else self.high)
        if self.low == self.count:
            self.before, self.waits_before = self._state, self._waits
        self.moments.end(self.count)

    @property
    def bounds(self) -> tuple[int, int]:
        """The first turn that is shown, and the first one beyond, where no turn follows."""
        return there(self.low), there(self.high)

    def _bound(self, turn: int) -> None:
        """Whether the next turn is the first one that is shown, or the first one beyond."""
        if self.low is None and turn >= self.first:
            self.low, self.before, self.waits_before = self.count, dict(self._state), dict(self._waits)
        if self.high is None and (self.last is not None and turn > self.last or self.low is not None
                                  and self.count >= self.low + self.most):
            self.high = self.count

    def _follow(self, step: Step) -> None:
        """What a turn changes; and the turn, where it is shown."""
        shown = self.low is not None
        moved = moves_told(step, self._state) if shown else ""
        self._state.update((change.place, change) for change in step.changes)
        wait, running, hart = (self._wait(step), self._state.get(f"attempt {step.core}"),
                               self._state.get(f"hart {step.core}"))
        if isinstance(running, OfAttempt) and running.now:
            self._epochs[step.core] = running.now.epoch
        if shown:
            pc = hart.now.pc - 4 if isinstance(hart, OfHart) and hart.now else 0
            self.shown.append(Shown(self.count, step, wait, self._epochs.get(step.core), pc, moved))

    def _wait(self, step: Step) -> str | None:
        """What the core of a turn waits for from there on, or nothing, where that is something else than before; None
        where it isn't."""
        now = step.cause or ""
        before, self._waits[step.core] = self._waits.get(step.core, ""), now
        return None if before == now else now


@dataclass
class Told:
    """What sentences need of a run: its image, and the entries that they name."""
    image: Image
    store: Store
    entries: Mapping[int, Entry] = field(default_factory=dict)

    @property
    def machine(self) -> Machine:
        return self.store.machine


def loaded(image: Image) -> bytearray:
    """Memory as it is loaded."""
    memory = bytearray(image.size)
    memory[:len(image.code)] = image.code
    for part in image.data:
        memory[part.address:part.address + len(part.data)] = part.data
    return memory


def apart_in(image: Image, machine: Machine) -> list[int]:
    """What lies apart, as the page has it."""
    one = machine.apart
    return [one.first, one.length, one.piece, image.size] if one else []


def rows_of(address: int, length: int) -> range:
    return range(address // ROW * ROW, address + max(length, 1), ROW)


def first_memory(image: Image, touched: set[int]) -> dict[str, Change]:
    """The rows of 16 committed bytes that are shown: those that a turn touches, and those of variables and data, where
    they are few; as they are loaded."""
    named = {row for one in image.variables
             for row in rows_of(one.address, one.length)} | {row for part in image.data
                                                             for row in rows_of(part.address, len(part.data))}
    rows = touched | (named if len(named - touched) <= MOST_UNTOUCHED else set())
    memory = loaded(image)
    return {it.place: it for it in (OfMemory(row, bytes(memory[row:row + ROW])) for row in sorted(rows)
                                    if row < image.size)}


def rollbacks(turns: Turns, violations: Mapping[int, Violation]) -> list[list[int]]:
    """The turn of each that is shown, the core that made it and the core that was rolled back."""
    low, _ = turns.bounds
    return [[one.number - low, entry.core, violations[entry.place].core]
            for one in turns.shown for entry in one.step.entries if entry.place in violations]


def cut(turns: Turns) -> str | None:
    """That turns aren't shown, and which are, where that is so."""
    (low, high), count = turns.bounds, turns.count
    if high - low == count:
        return None
    shown = "No turn"
    if low < high:
        shown = f"Turns {turns.shown[0].step.turn:,} to {turns.shown[-1].step.turn:,}"
    are = "are" if low < high else "is"
    return f"{shown} of {count:,} {are} on this page: --from and --to of tools/view choose others."


# What stands at a place, as the script of the page has it: numbers and names, masks in hexadecimal digits, or nothing.
Value = list[object] | None


def value_of(change: Change) -> Value:
    """What stands at a place now."""
    if isinstance(change, OfBuffer):
        return [*change.lines]
    if isinstance(change, OfMemory):
        return [change.address, [*change.data]]
    if isinstance(change, OfKept):
        return [change.address, f"{change.read:04x}", f"{change.stored:04x}", [*change.data]]
    if change.now is None:
        return None
    if isinstance(change, OfWay):
        copy = change.now
        return [copy.address, copy.state, copy.loaded, f"{copy.stored:0{len(copy.data) // 4}x}", [*copy.data]]
    return [change.now.epoch, change.now.mode] if isinstance(change, OfAttempt) else [change.now.pc, change.now.done]


def changed(one: Shown) -> dict[str, Value | str]:
    """What a turn changed, by place; and the cause for which its core waits, at one place more."""
    found: dict[str, Value | str] = {change.place: value_of(change) for change in one.step.changes}
    return found if one.wait is None else {**found, f"wait {one.step.core}": one.wait}


def first_values(image: Image, turns: Turns) -> dict[str, Value | str]:
    """What stands at each place before the first turn that is shown."""
    found: dict[str, Value | str] = {place: value_of(change)
                                     for place, change in (first_memory(image, turns.rows) | turns.before).items()}
    return found | {f"wait {core}": cause for core, cause in turns.waits_before.items()}


class Cut(TypedDict, total=False):
    """What is there where a page hasn't all turns."""
    cut: str


class PageData(Cut):
    """All that the page shows, as its script reads it."""
    about: str
    over: str                                           # the store, for people
    plain: bool
    machine: dict[str, int]                             # `line`, `sets`, `ways` and `buffer` of the caches
    apart: list[int]                                    # of bytes that lie apart, if there are such: the first address,
                                                        # how many, the bytes of a piece, and the bytes of memory
    cores: int
    epochs: int
    all: int                                            # turns of the run
    variables: list[list[str | int]]                    # name, address and bytes
    code: list[str]                                     # word by word
    sources: dict[int, str]                             # by the address
    causes: dict[str, str]
    start: dict[str, Value | str]                       # what stands at each place before the first turn that is shown
    attempts: list[list[int | str | None]]
    rollbacks: list[list[int]]
    # turn, core, entries, changes, two sentences, and how many it hurts
    steps: list[list[object]]


def page_data(run: Told, turns: Turns, lanes: Lanes, cores: int, violations: Mapping[int, Violation]) -> PageData:
    """All that the page shows."""
    image, left_out = run.image, cut(turns)
    words = [(pc, int.from_bytes(image.code[pc:pc + 4], "little")) for pc in range(0, len(image.code), 4)]
    data: PageData = {
        "about": image.about, "over": run.store.says(), "plain": run.store.is_plain, "machine": run.machine.sizes,
        "apart": apart_in(image, run.machine),
        "cores": cores,
        "epochs": image.epochs, "all": turns.count,
        "variables": [[one.name, one.address, one.length] for one in image.variables],
        "code": [spelled(word, pc) for pc, word in words], "sources": image.sources, "causes": CAUSES,
        "start": first_values(image, turns), "attempts": lanes.shown(),
        "rollbacks": rollbacks(turns, violations),
        "steps": [[one.step.turn, one.step.core, [entry.text().rstrip() for entry in one.step.entries], changed(one),
                   turn_told(run, one.step, one.epoch, one.pc, violations), one.moved,
                   sum(entry.what == "hurt" for entry in one.step.entries)] for one in turns.shown],
    }
    if left_out is not None:
        data["cut"] = left_out
    return data
