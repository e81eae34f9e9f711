"""What `seq`, `run` and `replay` print: the report, the counts and the trace; and what `replay all` sums up."""

import re
from collections.abc import Iterable, Iterator
from dataclasses import dataclass, field

from .images import Bytes, Image, Unreadable, bytes_of, read_image

HEAD = re.compile(r"trace \d+")


@dataclass
class Report:
    """How a loop ended, and the rows of memory that changed. `open` is a schedule that was used up before the end."""
    ending: str                         # done, exit, fault or open
    epoch: int                          # how many are done, which exited or faulted, or which is homefree
    cause: int | None = None            # of a fault
    pc: int | None = None
    rows: list[Bytes] = field(default_factory=list)

    def text(self) -> str:
        if self.ending == "open":
            head = f"open {self.epoch}"
        elif self.ending == "fault":
            head = f"end fault {self.epoch} {self.cause} {self.pc:08x}"
        else:
            head = f"end {self.ending} {self.epoch}"
        return "".join(line + "\n" for line in [head, *(row.text() for row in self.rows)])


@dataclass
class Counts:
    """What all cores counted."""
    loads: int
    stores: int
    restarts: int
    commits: int

    def text(self) -> str:
        return f"counts {self.loads} {self.stores} {self.restarts} {self.commits}\n"


@dataclass(slots=True)
class Entry:
    """One entry of a history; what isn't said of its kind is None."""
    place: int
    core: int
    what: str                           # start, restart, load, store, hurt, cancel, publish, commit or fault
    epoch: int | None = None
    address: int | None = None
    width: int | None = None
    value: int | None = None
    cause: int | None = None
    pc: int | None = None

    @property
    def words(self) -> list[str]:
        """What the entry says behind its core and its kind."""
        if self.address is not None:
            return [f"{self.address:08x}", str(self.width), f"{self.value:08x}"]
        if self.cause is not None:
            return [str(self.cause), f"{self.pc:08x}"]
        return [] if self.epoch is None else [str(self.epoch)]

    def text(self) -> str:
        return " ".join([str(self.core), self.what, *self.words]) + "\n"


@dataclass
class Trace:
    """The history of a run on so many cores."""
    cores: int
    entries: list[Entry] = field(default_factory=list)

    def parts(self) -> Iterator[str]:
        """The text, in parts."""
        yield f"trace {self.cores}\n"
        yield from (entry.text() for entry in self.entries)

    def text(self) -> str:
        return "".join(self.parts())


@dataclass
class Traced:
    """An image with the trace of a run: what `audit` and `why` read."""
    image: Image
    trace: Trace

    def parts(self) -> Iterator[str]:
        """The text, in parts."""
        yield self.image.text()
        yield from self.trace.parts()

    def text(self) -> str:
        return "".join(self.parts())


@dataclass
class Output:
    """All that a run prints: the report, and where it was asked for what the cores counted and did."""
    report: Report
    counts: Counts | None = None
    trace: Trace | None = None
    turns: list[int] | None = None      # the schedule, where the program prints it

    def parts(self) -> Iterator[str]:
        """The text, in parts."""
        if self.turns is not None:
            yield "turns"
            yield from (f" {turn}" for turn in self.turns)
            yield "\n"
        yield self.report.text()
        if self.counts:
            yield self.counts.text()
        if self.trace:
            yield from self.trace.parts()

    def text(self) -> str:
        return "".join(self.parts())


@dataclass
class Survey:
    """What every schedule of so many turns comes to; schedules with the fewest and the most restarts, where the loop is
    over for some."""
    schedules: int
    over: int
    histories: int
    least: int | None = None
    least_turns: list[int] = field(default_factory=list)
    most: int | None = None
    most_turns: list[int] = field(default_factory=list)
    report: Report | None = None

    def text(self) -> str:
        told = f"schedules {self.schedules}\nover {self.over}\nhistories {self.histories}\n"
        for name, count, turns in (("least", self.least, self.least_turns), ("most", self.most, self.most_turns)):
            told += "" if count is None else f"{name} {count}\n" + " ".join(["turns", *map(str, turns)]) + "\n"
        return told + (self.report.text() if self.report else "")


@dataclass
class Verdict:
    """What `audit` says of a trace."""
    legal: bool
    entries: int | None = None          # how many there are, of a legal one
    homefree: int | None = None         # the first epoch that hasn't committed
    place: int | None = None            # of the first entry that is refused
    refusal: str | None = None

    def text(self) -> str:
        return f"legal {self.entries} {self.homefree}\n" if self.legal else f"illegal {self.place} {self.refusal}\n"


# --- Reading -----------------------------------------------------------------

def entry_of(place: int, line: str) -> Entry:
    """The entry of a line of a trace."""
    core, what, *rest = line.split(" ")
    if what in ("load", "store"):
        return Entry(place, int(core), what, None, int(rest[0], 16), int(rest[1]), int(rest[2], 16))
    if what in ("restart", "publish", "commit"):
        return Entry(place, int(core), what)
    if what in ("start", "hurt", "cancel"):
        return Entry(place, int(core), what, int(rest[0]))
    if what == "fault":
        return Entry(place, int(core), what, cause=int(rest[0]), pc=int(rest[1], 16))
    raise Unreadable(f"{line!r} is no entry")


def iter_entries(lines: Iterable[str]) -> Iterator[Entry]:
    """The entries of the lines below a trace's head, one after another."""
    kept = (line for line in lines if line and not line.startswith("#"))
    return (entry_of(place, line) for place, line in enumerate(kept))


def cores_of(line: str) -> int | None:
    """How many cores a trace is of, where the line is its head."""
    return int(line.split(" ")[1]) if HEAD.fullmatch(line) else None


def read_entries(lines: list[str]) -> Trace:
    """The trace of lines of which the first is its head."""
    return Trace(int(lines[0].split(" ")[1]), list(iter_entries(lines[1:])))


def head_of(lines: list[str]) -> int | None:
    """Where the trace begins."""
    return next((place for place, line in enumerate(lines) if HEAD.fullmatch(line)), None)


def read_traced(text: str) -> Traced:
    """An image with a trace below it."""
    lines = text.split("\n")
    head = head_of(lines)
    if head is None:
        raise Unreadable("no line begins with trace")
    return Traced(read_image("\n".join(lines[:head])), read_entries(lines[head:]))


def read_report(text: str) -> Report:
    """The report of a loop."""
    head, *rows = text.splitlines()
    words = head.split(" ")
    if words[0] == "open" and len(words) == 2:
        report = Report("open", int(words[1]))
    elif words[:2] == ["end", "fault"]:
        report = Report("fault", int(words[2]), int(words[3]), int(words[4], 16))
    elif words[:1] == ["end"] and words[1] in ("done", "exit"):
        report = Report(words[1], int(words[2]))
    else:
        raise Unreadable(f"{head!r} begins no report")
    report.rows = [bytes_of(row.split(" ")) for row in rows]
    return report


def turns_of(line: str) -> list[int]:
    return [int(word) for word in line.split(" ")[1:]]


def read_output(text: str) -> Output:
    """All that a run printed."""
    lines = text.splitlines()
    head = head_of(lines)
    above, trace = (lines, None) if head is None else (lines[:head], read_entries(lines[head:]))
    counts = next((Counts(*turns_of(line)) for line in above if line.startswith("counts ")), None)
    turns = next((turns_of(line) for line in above if line.startswith("turns ")), None)
    report = read_report("\n".join(line for line in above if not line.startswith(("counts ", "turns "))))
    return Output(report, counts, trace, turns)


def read_survey(text: str) -> Survey:
    """What `replay all` printed."""
    lines = text.splitlines()
    counts = [int(line.split(" ")[1]) for line in lines[:3]]
    if len(lines) == 3:
        return Survey(counts[0], counts[1], counts[2])
    return Survey(counts[0], counts[1], counts[2], int(lines[3].split(" ")[1]), turns_of(lines[4]),
                  int(lines[5].split(" ")[1]), turns_of(lines[6]), read_report("\n".join(lines[7:])))


def read_verdict(text: str) -> Verdict:
    """What `audit` printed."""
    words = text.split()
    if words[0] == "legal":
        return Verdict(True, int(words[1]), int(words[2]))
    return Verdict(False, place=int(words[1]), refusal=words[2])
