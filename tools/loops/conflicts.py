"""The report of `why`: each violation with its cause and its cost, attempts that ended otherwise, and sums.
docs/conflicts.md says what each word means."""

import re
from collections.abc import Callable, Iterable, Iterator
from dataclasses import dataclass, field
from itertools import chain

from .images import Unreadable

KINDS = ("true", "silent", "false", "buffer")


def told(value: int | None) -> str:
    return "-" if value is None else str(value)


@dataclass(slots=True)
class Access:
    """A load or store: its entry and the address of its instruction."""
    entry: int
    pc: int


@dataclass(slots=True)
class Place:
    """Bytes at which two accesses met."""
    first: int
    length: int


@dataclass(slots=True)
class Pair:
    """The two accesses that are to blame, and where they met; each None where there is none."""
    victims: Access | None              # the blamed load, or the store that held the line of a full buffer
    causers: Access | None              # the blamed store, or the access that asked for the line
    at: Place | None

    def text(self, full: bool = False) -> str:
        names = ("held", "asked") if full else ("load", "store")
        accesses = "".join(f" {name} " + (f"{access.entry} {access.pc:08x}" if access else "- -")
                           for name, access in zip(names, (self.victims, self.causers)))
        return f"{accesses} at " + (f"{self.at.first:08x} {self.at.length}" if self.at else "- -")


@dataclass(slots=True)
class FurtherRun:
    """A further run of bytes at which the two epochs met: a line `also`."""
    kind: str
    pair: Pair


@dataclass(slots=True)
class Violation:
    """One `hurt` line of the report, with the lines that belong to it."""
    place: int
    kind: str                           # one of KINDS, or other
    epoch: int
    attempt: int
    core: int
    lost: int
    entered: int
    since: int | None
    by_epoch: int
    by_core: int
    cause: int | None
    cause_what: str
    pair: Pair
    also: list[FurtherRun] = field(default_factory=list)
    later: Access | None = None         # the store by which false sharing came true
    undone: str | None = None           # where it was in vain: how the causer's attempt was undone, hurt or cancelled
    moot: bool = False

    @property
    def victims(self) -> Access | None:
        return self.pair.victims

    @property
    def causers(self) -> Access | None:
        return self.pair.causers

    @property
    def first(self) -> int | None:
        return self.pair.at.first if self.pair.at else None

    @property
    def length(self) -> int:
        return self.pair.at.length if self.pair.at else 0

    @property
    def vain(self) -> bool:
        return self.undone is not None

    def text(self) -> str:
        lines = [f"hurt {self.place} {self.kind} epoch {self.epoch} try {self.attempt} core {self.core} lost "
                 f"{self.lost} entered {self.entered} "
                 f"since {told(self.since)} by {self.by_epoch} core {self.by_core} cause {told(self.cause)} "
                 f"{self.cause_what}"
                 + self.pair.text(self.kind == "buffer")]
        lines += [f"also {self.place} {run.kind}{run.pair.text()}" for run in self.also]
        lines += [f"later {self.place} store {self.later.entry} {self.later.pc:08x}"] if self.later else []
        lines += [f"vain {self.place} {self.undone}"] if self.undone else []
        lines += [f"moot {self.place}"] if self.moot else []
        return "".join(line + "\n" for line in lines)


@dataclass
class Cancelled:
    """An attempt that was cancelled and not violated."""
    place: int
    epoch: int
    attempt: int
    core: int
    lost: int
    by_epoch: int
    by_core: int

    def text(self) -> str:
        return (f"cancel {self.place} epoch {self.epoch} try {self.attempt} core {self.core} lost {self.lost} "
                f"by {self.by_epoch} core {self.by_core}\n")


@dataclass
class Open:
    """An attempt that goes on after the last entry."""
    epoch: int
    attempt: int
    core: int
    done: int

    def text(self) -> str:
        return f"open epoch {self.epoch} try {self.attempt} core {self.core} done {self.done}\n"


@dataclass(slots=True)
class End:
    """The entry that ended an attempt, and the epoch and the core whose entry it is."""
    place: int
    by_epoch: int
    by_core: int

    def text(self) -> str:
        return f"{self.place} by {self.by_epoch} core {self.by_core}"


@dataclass(slots=True)
class Attempt:
    """An attempt, where the report has a line for each."""
    began: int                          # the entry that began it
    epoch: int
    attempt: int
    core: int
    done: int
    fate: str                           # committed, faulted, violated or cancelled; open where it goes on
    end: End | None

    def text(self) -> str:
        return (f"attempt {self.began} epoch {self.epoch} try {self.attempt} core {self.core} done {self.done} "
                f"{self.fate}{f' {self.end.text()}' if self.end else ''}\n")


@dataclass
class ByKind:
    """How many violations are of each kind."""
    true: int
    silent: int
    false: int
    buffer: int

    def text(self) -> str:
        return f"true {self.true} silent {self.silent} false {self.false} buffer {self.buffer}"


@dataclass
class OfEpoch:
    """The violations of an epoch."""
    epoch: int
    rollbacks: int
    lost: int

    def text(self) -> str:
        return f"epoch {self.epoch} rollbacks {self.rollbacks} lost {self.lost}\n"


@dataclass
class OfPair:
    """The violations of a pair of instructions."""
    full: bool                          # some of them are full buffers
    causer: int                         # the address of the store, or of the access that asked
    victim: int                         # the address of the load, or of the store that held the line
    rollbacks: int
    lost: int
    kinds: ByKind
    stale: int
    vain: int
    later: int
    least_distance: int
    most_distance: int
    at: Place | None

    def text(self) -> str:
        names = ("asked", "held") if self.full else ("store", "load")
        where = f"{self.at.first:08x} {self.at.length}" if self.at else "- -"
        return (f"pair {names[0]} {self.causer:08x} {names[1]} {self.victim:08x} rollbacks {self.rollbacks} lost "
                f"{self.lost} {self.kinds.text()} "
                f"stale {self.stale} vain {self.vain} later {self.later} distance {self.least_distance} "
                f"{self.most_distance} at {where}\n")


@dataclass
class OfLine:
    """The violations in a line of the caches."""
    address: int
    rollbacks: int
    lost: int
    kinds: ByKind

    def text(self) -> str:
        return f"line {self.address:08x} rollbacks {self.rollbacks} lost {self.lost} {self.kinds.text()}\n"


@dataclass
class OfInstruction:
    """The violations in which an instruction was to blame, as the victim's and as the causer's."""
    pc: int
    victim_rollbacks: int
    victim_lost: int
    causer_rollbacks: int
    causer_lost: int

    def text(self) -> str:
        return (f"pc {self.pc:08x} victim {self.victim_rollbacks} {self.victim_lost} causer {self.causer_rollbacks} "
                f"{self.causer_lost}\n")


@dataclass
class OfKind:
    """The violations of a kind."""
    kind: str
    rollbacks: int
    lost: int

    def text(self) -> str:
        return f"kind {self.kind} rollbacks {self.rollbacks} lost {self.lost}\n"


@dataclass
class Total:
    """All violations, and how the attempts ended."""
    epochs: int
    committed: int
    useful: int
    rollbacks: int
    lost: int
    cancelled: int
    dropped: int
    open: int
    unsettled: int

    def text(self) -> str:
        return (f"total epochs {self.epochs} committed {self.committed} useful {self.useful} rollbacks "
                f"{self.rollbacks} lost {self.lost} "
                f"cancelled {self.cancelled} dropped {self.dropped} open {self.open} unsettled {self.unsettled}\n")


@dataclass
class Conflicts:
    """The whole report."""
    violations: list[Violation] = field(default_factory=list)
    cancelled: list[Cancelled] = field(default_factory=list)
    open: list[Open] = field(default_factory=list)
    attempts: list[Attempt] = field(default_factory=list)       # all, where `why --attempts` printed it
    epochs: list[OfEpoch] = field(default_factory=list)
    pairs: list[OfPair] = field(default_factory=list)
    lines: list[OfLine] = field(default_factory=list)
    instructions: list[OfInstruction] = field(default_factory=list)
    kinds: list[OfKind] = field(default_factory=list)
    total: Total | None = None

    def parts(self) -> Iterator[str]:
        """The text, in parts."""
        lists: tuple[Iterable[Part], ...] = (self.violations, self.cancelled, self.open, self.attempts,
                                             self.epochs, self.pairs, self.lines, self.instructions, self.kinds)
        yield from (part.text() for part in chain.from_iterable(lists))
        if self.total:
            yield self.total.text()

    def text(self) -> str:
        return "".join(self.parts())


# --- Reading -----------------------------------------------------------------

# What a line of the report says, and the field of the report that has it.
Part = Violation | Cancelled | Open | Attempt | OfEpoch | OfPair | OfLine | OfInstruction | OfKind | Total
FIELDS: dict[type, str] = {
    Violation: "violations", Cancelled: "cancelled", Open: "open", Attempt: "attempts", OfEpoch: "epochs",
    OfPair: "pairs", OfLine: "lines", OfInstruction: "instructions", OfKind: "kinds", Total: "total",
}
# Lines of numbers alone.
COUNTED: dict[str, Callable[..., Part]] = {"cancel": Cancelled, "open": Open, "epoch": OfEpoch, "total": Total}
# Lines that stand below that of their violation.
BELOW = ("also", "later", "vain", "moot")

NUMBER, ADDRESS, OPTIONAL = r"(\d+)", r"([0-9a-f]{8})", r"(\d+|-)"
ACCESS = r"(?:(\d+) ([0-9a-f]{8})|- -)"
WHERE = r"at (?:([0-9a-f]{8}) (\d+)|- -)"
PAIR = rf"(?:load|held) {ACCESS} (?:store|asked) {ACCESS} {WHERE}"
SUMS = "true N silent N false N buffer N"


def form(text: str) -> re.Pattern[str]:
    """The form of a line, in which N stands for a number and PC for an address."""
    return re.compile(re.sub(r"\b(N|PC)\b", lambda word: NUMBER if word[1] == "N" else ADDRESS, text))


FORMS = {
    "hurt": form(rf"hurt N (\w+) epoch N try N core N lost N entered N since {OPTIONAL} by N core N cause {OPTIONAL} "
                 rf"(\S+) {PAIR}"),
    "also": form(rf"also N (\w+) {PAIR}"),
    "later": form("later N store N PC"),
    "vain": form(r"vain N (hurt|cancelled)"),
    "moot": form("moot N"),
    "cancel": form("cancel N epoch N try N core N lost N by N core N"),
    "open": form("open epoch N try N core N done N"),
    "attempt": form("attempt N epoch N try N core N done N (?:(open)|(committed|faulted|violated|cancelled) N by N "
                    "core N)"),
    "epoch": form("epoch N rollbacks N lost N"),
    "pair": form(rf"pair (store|asked) PC (?:load|held) PC rollbacks N lost N {SUMS} stale N vain N later N distance N "
                 rf"N {WHERE}"),
    "line": form(f"line PC rollbacks N lost N {SUMS}"),
    "pc": form("pc PC victim N N causer N N"),
    "kind": form(r"kind (\w+) rollbacks N lost N"),
    "total": form("total epochs N committed N useful N rollbacks N lost N cancelled N dropped N open N unsettled N"),
}


def number(word: str) -> int | None:
    return None if word == "-" else int(word)


def access_of(entry: str | None, pc: str | None) -> Access | None:
    return None if entry is None or pc is None else Access(int(entry), int(pc, 16))


def place_of(first: str | None, length: str | None) -> Place | None:
    return None if first is None or length is None else Place(int(first, 16), int(length))


def pair_of(words: tuple[str, ...]) -> Pair:
    """The pair of the six words of PAIR."""
    return Pair(access_of(*words[0:2]), access_of(*words[2:4]), place_of(*words[4:6]))


def violation_of(words: tuple[str, ...]) -> Violation:
    epoch, attempt, core, lost, entered = map(int, words[2:7])
    return Violation(int(words[0]), words[1], epoch, attempt, core, lost, entered, number(words[7]), int(words[8]),
                     int(words[9]), number(words[10]), words[11], pair_of(words[12:]))


def attempt_of(words: tuple[str, ...]) -> Attempt:
    began, epoch, attempt, core, done = map(int, words[:5])
    goes_on, fate, *end = words[5:]
    return Attempt(began, epoch, attempt, core, done, goes_on or fate, None if goes_on else End(*map(int, end)))


def belongs(violation: Violation, what: str, words: tuple[str, ...]) -> None:
    """Takes in a line that stands below its violation."""
    if int(words[0]) != violation.place:
        raise Unreadable(f"{what} {words[0]} stands below {violation.place}")
    if what == "also":
        violation.also.append(FurtherRun(words[1], pair_of(words[2:])))
    elif what == "later":
        violation.later = access_of(words[1], words[2])
    elif what == "vain":
        violation.undone = words[1]
    else:
        violation.moot = True


def part_of(what: str, words: tuple[str, ...]) -> Part:
    """What a line says that belongs to no other."""
    if what == "hurt":
        return violation_of(words)
    if what == "attempt":
        return attempt_of(words)
    if what == "pair":
        rollbacks, lost, true, silent, false, buffer, stale, vain, later, least, most = map(int, words[3:14])
        return OfPair(words[0] == "asked", int(words[1], 16), int(words[2], 16), rollbacks, lost,
                      ByKind(true, silent, false, buffer), stale, vain, later, least, most, place_of(*words[14:16]))
    if what == "line":
        rollbacks, lost, *kinds = map(int, words[1:])
        return OfLine(int(words[0], 16), rollbacks, lost, ByKind(*kinds))
    if what == "pc":
        return OfInstruction(int(words[0], 16), *map(int, words[1:]))
    if what == "kind":
        return OfKind(words[0], int(words[1]), int(words[2]))
    return COUNTED[what](*map(int, words))


def iter_conflicts(lines: Iterable[str]) -> Iterator[Part]:
    """What the lines of the report say, one after another; a violation comes with all lines that belong to it."""
    violation: Violation | None = None
    for line in lines:
        what = line.split(" ", 1)[0]
        match = FORMS[what].fullmatch(line) if what in FORMS else None
        if match is None or (what in BELOW and violation is None):
            raise Unreadable(f"{line!r} is no line of the report of why")
        if what in BELOW and violation is not None:
            belongs(violation, what, match.groups())
            continue
        if violation:
            yield violation
        part = part_of(what, match.groups())
        violation = part if isinstance(part, Violation) else None
        if not violation:
            yield part
    if violation:
        yield violation


def read_conflicts(text: str) -> Conflicts:
    """The report that `why` printed."""
    report = Conflicts()
    for part in iter_conflicts(text.splitlines()):
        if isinstance(part, Total):
            report.total = part
        else:
            getattr(report, FIELDS[type(part)]).append(part)
    return report
