"""What `gain` prints: a line for each store and each number of cores, of the run at even speed; and where they are
asked for, the same of held runs, up to which cost a loop gains, and the limits that dependences set."""

import re
from collections.abc import Iterable, Iterator
from dataclasses import dataclass, field, fields
from itertools import islice

from .images import Unreadable, there
from .stores import is_store


@dataclass
class Gain:
    """One run: how long it took, how much faster than on one core, and where the steps of its cores went."""
    store: str                          # the word as it was given: caches, plain, caches:sets=64 ..
    cores: int
    full: bool = False                  # the history was full before the loop was over: there is nothing else
    waits: bool = False                 # a line `held`: each load waits for what earlier epochs store in order
    steps: int | None = None
    gain: float | None = None           # none where that of one core was full
    order: int | None = None            # of the loop in order; this and what `COSTED` names is there where turns cost
    useful: int | None = None           # none where turns cost
    busy: int | None = None
    handling: int | None = None
    memory: int | None = None
    queue: int | None = None
    lost: int | None = None
    dropped: int | None = None
    waiting: int | None = None
    held: int | None = None             # none where no load was asked to wait
    idle: int | None = None
    restarts: int | None = None
    true: int | None = None
    silent: int | None = None
    false: int | None = None
    buffer: int | None = None
    nothomefree: int | None = None
    noway: int | None = None
    orbfull: int | None = None
    orbbusy: int | None = None

    def text(self) -> str:
        head = f"{'held' if self.waits else 'store'} {self.store} cores {self.cores}"
        if self.full:
            return head + " full\n"
        return head + "".join(f" {name} {self.told(name)}" for name in NAMES
                              if name not in NOT_ALWAYS or getattr(self, name) is not None) + "\n"

    @property
    def word(self) -> str:
        """The store, and whether the run is a held one."""
        return f"held {self.store}" if self.waits else self.store

    def count(self, name: str) -> int:
        """The steps or violations of a name, of a run that isn't full."""
        found: int | None = getattr(self, name)
        return there(found)

    def told(self, name: str) -> str:
        value: int | float | None = getattr(self, name)
        return "-" if value is None else f"{value:.2f}" if name == "gain" else str(value)


NAMES = [one.name for one in fields(Gain)[4:]]
# What stands in the place of `useful` where turns cost, and what isn't in each line
COSTED = ("order", "busy", "handling", "memory", "queue")
NOT_ALWAYS = {*COSTED, "useful", "held"}


@dataclass
class Limit:
    """In how few steps so many cores could run the loop, where a load that depends on an earlier epoch waits for the
    store, or for the commit."""
    cores: int
    forward: int
    commit: int

    def text(self) -> str:
        return f"limit cores {self.cores} forward {self.forward} commit {self.commit}\n"


@dataclass
class Even:
    """Up to which cost of each action so many cores take fewer steps than the loop in order."""
    store: str
    cores: int
    at: int | None                      # none where they don't where nothing costs either

    def text(self) -> str:
        return f"even {self.store} cores {self.cores} at {'-' if self.at is None else self.at}\n"


@dataclass
class Gains:
    """All runs, in the order in which they are printed, and the limits below them."""
    runs: list[Gain] = field(default_factory=list)
    limits: list[Limit] = field(default_factory=list)       # none where they weren't asked for
    evens: list[Even] = field(default_factory=list)         # so; else of each run but the held ones

    def of(self, store: str, cores: int) -> Gain | None:
        """The run over a store on so many cores, where there is one."""
        return next((run for run in self.runs if (run.word, run.cores) == (store, cores)), None)

    def even(self, store: str, cores: int) -> Even | None:
        """Up to which cost a store and so many cores gain, where it is told."""
        return next((one for one in self.evens if (one.store, one.cores) == (store, cores)), None)

    def limit(self, cores: int) -> Limit | None:
        """The limits of so many cores, where they are told."""
        return next((one for one in self.limits if one.cores == cores), None)

    def allowed(self, cores: int) -> tuple[float, float] | None:
        """What the loop could gain on so many cores where loads wait for commits, and where for stores, rounded down as
        `gain` does; None where limits aren't told."""
        one, limit = self.limit(1), self.limit(cores)
        if one is None or limit is None:
            return None
        return one.commit * 100 // limit.commit / 100, one.forward * 100 // limit.forward / 100

    def text(self) -> str:
        return "".join(one.text() for one in self.lines())

    def lines(self) -> "Iterator[Gain | Even | Limit]":
        """The lines in order: below the runs over a store stands up to which cost they gain."""
        evens = iter(self.evens)
        for runs in self.stores():
            yield from runs
            yield from islice(evens, sum(not run.waits for run in runs))
        yield from self.limits

    def stores(self) -> list[list[Gain]]:
        """The runs over each store that was named, from fewer cores to more, each with its held run behind it."""
        found: list[list[Gain]] = []
        for run in self.runs:
            last = found[-1][-1] if found else None
            if last and last.store == run.store and (last.cores, last.waits) < (run.cores, run.waits):
                found[-1].append(run)
            else:
                found.append([run])
        return found


def form_of(names: Iterable[str]) -> str:
    """What stands in a line for these."""
    return "".join(f" {name} (?P<{name}>" + (r"\d+\.\d\d|-)" if name == "gain" else r"\d+)") for name in names)


FORM = re.compile(r"(store|held) (\S+) cores (\d+)(?P<full> full)?(?(full)|" + form_of(("steps", "gain"))
                  + f"(?:{form_of(['useful'])}|{form_of(COSTED)})" + form_of(("lost", "dropped", "waiting"))
                  + f"(?:{form_of(['held'])})?" + form_of(NAMES[NAMES.index("idle"):]) + ")")
LIMIT = re.compile(r"limit cores (\d+) forward (\d+) commit (\d+)")
EVEN = re.compile(r"even (\S+) cores (\d+) at (\d+|-)")


def run_of(line: str) -> Gain:
    """A run, by its line."""
    match = FORM.fullmatch(line)
    if match is None or not is_store(match[2]):
        raise Unreadable(f"{line!r} is no line of gain")
    run = Gain(match[2], int(match[3]), match["full"] is not None, match[1] == "held")
    for name in NAMES:
        if match[name] not in (None, "-"):
            setattr(run, name, float(match[name]) if name == "gain" else int(match[name]))
    return run


def is_of_runs(gains: Gains, lines: list[str]) -> bool:
    """The lines `even` stand below the runs over their store, one for each that isn't held."""
    told = [(even.store, even.cores) for even in gains.evens]
    return (told == [(run.store, run.cores) for run in gains.runs if not run.waits]
            and gains.text().splitlines() == lines)


def read_gains(text: str) -> Gains:
    """The lines that `gain` printed."""
    gains, lines = Gains(), text.splitlines()
    for line in lines:
        limit, even = LIMIT.fullmatch(line), EVEN.fullmatch(line)
        if limit:
            gains.limits.append(Limit(*map(int, limit.groups())))
        elif gains.limits:
            raise Unreadable(f"{line!r} stands below a limit")
        elif even:
            gains.evens.append(Even(even[1], int(even[2]), None if even[3] == "-" else int(even[3])))
        else:
            gains.runs.append(run_of(line))
    if gains.evens and not is_of_runs(gains, lines):
        raise Unreadable("a line `even` is missing, or stands elsewhere than below the runs over its store")
    return gains
