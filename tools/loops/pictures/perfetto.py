"""The run as trace events, which https://ui.perfetto.dev and chrome://tracing show: one microsecond is one turn that
made an entry."""

import json
from collections import Counter
from collections.abc import Iterable, Iterator, Mapping
from dataclasses import dataclass

from .attempts import Run
from .page import COLOURS
from .words import sentence

# A run of more entries is gathered into so many parts of its turns, on many cores into fewer, so that there are at most
# so many events.
MOST_ENTRIES, MOST_PARTS, MOST_EVENTS = 2000, 1000, 12_000
COLOUR_NAMES = {"violated": "terrible", "committed": "good", "fault": "bad"}


# What a field of an event says.
Value = float | str | Mapping[str, float | str]


@dataclass(slots=True)
class Event:
    """An event: its phase, its core, the turn at which it is or begins, and further fields by their names."""
    phase: str
    core: int
    at: float
    name: str
    length: float | None                    # in turns, of a slice
    more: dict[str, Value]

    def plain(self) -> dict[str, Value]:
        """The event as JSON has it."""
        length: dict[str, Value] = {} if self.length is None else {"dur": self.length}
        return {"ph": self.phase, "pid": 1, "tid": self.core, "ts": self.at, "name": self.name, **length, **self.more}


def event(phase: str, core: int, at: float, name: str, dur: float | None = None, **more: Value) -> Event:
    return Event(phase, core, at, name, dur, more)


def attempts(run: Run) -> Iterator[Event]:
    """A slice for each attempt, one inside it for its straight part, and an instant for each access."""
    for attempt in run.attempts:
        _, right = run.span(attempt)
        name = (f"epoch {attempt.epoch}" + (f" try {attempt.number}" if attempt.number > 1 else "")
                + (" lost" if attempt.fate == "violated" else ""))
        told: dict[str, float | str] = {"epoch": attempt.epoch, "try": attempt.number, "fate": attempt.fate}
        yield event("X", attempt.core, attempt.first, name, dur=right - attempt.first, cat=attempt.fate, args=told,
                    cname=COLOUR_NAMES.get(attempt.fate, "grey"))
        if attempt.straight is not None:
            yield event("X", attempt.core, attempt.straight, "straight", dur=right - attempt.straight, cat="straight")
        for turn, entry in attempt.accesses:
            yield event("i", attempt.core, turn + 0.25, f"{entry.what} {entry.words[0]}", s="t", cat=entry.what,
                        args={"entry": entry.place, "width": entry.words[1], "value": entry.words[2]})


def violations(run: Run) -> Iterator[Event]:
    """An instant for each rollback, a flow from its cause to its victim, and the count of what was lost."""
    lost = 0
    for place, violation in enumerate(run.violations):
        turn = run.turn_of[violation.place]
        where = run.image.name_of(violation.first) if violation.first is not None else ""
        name = f"{violation.kind} {where}".strip()
        yield event("i", violation.core, turn + 0.45, f"rollback: {name}", s="t", cat="rollback",
                    args={"entry": violation.place, "lost": violation.lost, "says": sentence(run, violation)})
        yield event("s", violation.by_core, turn + 0.3, name, id=place, cat="rollback")
        yield event("f", violation.core, turn + 0.45, name, id=place, cat="rollback", bp="e")
        lost += violation.lost
        yield event("C", 0, turn, "lost instructions", args={"lost": lost})


def gathered(run: Run) -> Iterator[Event]:
    """For each part of the turns how many of them each core spent on what, and how many rollbacks of each kind there
    were."""
    parts = min(MOST_PARTS, MOST_EVENTS // (run.cores + 2))
    wide = max(1, run.turns) / parts
    for (core, part), (useful, lost, other) in run.shares(parts).items():
        yield event("C", core, int(part * wide), f"core {core}",
                    args={"useful": round(useful, 1), "lost": round(lost, 1), "other": round(other, 1)})
    kinds = Counter((int(run.turn_of[violation.place] / wide), violation.kind) for violation in run.violations)
    lost_in: Counter[int] = Counter()
    for violation in run.violations:
        lost_in[int(run.turn_of[violation.place] / wide)] += violation.lost
    for part in range(parts):
        counts = {kind: kinds[part, kind] for kind in COLOURS}
        yield event("C", 0, int(part * wide), "rollbacks", args=counts)
        yield event("C", 0, int(part * wide), "lost instructions", args={"lost": lost_in[part]})


def within(events: Iterable[Event], turns: tuple[int, int]) -> list[Event]:
    """The events of these turns."""
    first, last = turns
    return [told for told in events if first <= told.at <= last or told.at < first < told.at + (told.length or 0)]


def draw(run: Run, turns: tuple[int, int] | None = None) -> str:
    names = [event("M", 0, 0, "process_name",
                   args={"name": "speculative run" + (f" over {run.store.word}" if run.store else "")})]
    for core in range(run.cores):
        names += [event("M", core, 0, "thread_name", args={"name": f"core {core}"}),
                  event("M", core, 0, "thread_sort_index", args={"sort_index": core})]
    whole = turns is not None or len(run.entries) <= MOST_ENTRIES
    events = sorted([*attempts(run), *violations(run)] if whole else gathered(run), key=lambda told: told.at)
    if turns is not None:
        events = within(events, turns)
    document = {"traceEvents": [told.plain() for told in names + events], "displayTimeUnit": "ns"}
    if not whole:
        return json.dumps(document, separators=(",", ":")) + "\n"
    return json.dumps(document, indent=0) + "\n"
