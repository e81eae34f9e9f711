"""What `replay steps` prints: each turn of a run with its entries, and what it changed in what the store and the cores
hold."""

from collections.abc import Iterable, Iterator
from dataclasses import dataclass, field

from .changes import Change, change_of
from .images import Unreadable
from .runs import Entry, Output, entry_of, read_output
from .texts import iter_split


@dataclass(slots=True)
class Step:
    """One turn."""
    turn: int
    core: int
    answer: str                                                 # `go`, `again NoWay`, `left`, `over done 2`
    entries: list[Entry] = field(default_factory=list)
    changes: list[Change] = field(default_factory=list)         # what stands at a place now, of each place that changed

    @property
    def cause(self) -> str | None:
        """Why the core waits, as `NoWay`; None where it doesn't."""
        return self.answered("again")

    @property
    def end(self) -> str | None:
        """How the loop ended, as `done`, of the turn at which it is over."""
        return self.answered("over")

    def answered(self, word: str) -> str | None:
        """The word behind this one, where the answer begins with it."""
        words = self.answer.split(" ")
        return words[1] if words[0] == word else None

    def text(self) -> str:
        lines = [f"turn {self.turn} {self.core} {self.answer}\n", *(f"entry {entry.text()}" for entry in self.entries)]
        return "".join(lines + [f"{change.place} {change.said}".rstrip(" ") + "\n" for change in self.changes])


@dataclass
class Steps:
    """The turns in order, and what stands below the line `end`: report, counts and trace of the whole run."""
    steps: list[Step]
    output: Output

    def states(self) -> Iterator[dict[str, Change]]:
        """After each turn, what was last said of each place. It is one dictionary, which goes on: copy what is to be
        kept."""
        state: dict[str, Change] = {}
        for step in self.steps:
            state.update((change.place, change) for change in step.changes)
            yield state

    def parts(self) -> Iterator[str]:
        """The text, in parts."""
        yield from (step.text() for step in self.steps)
        yield "end\n"
        yield from self.output.parts()

    def text(self) -> str:
        return "".join(self.parts())


def step_of(line: str) -> Step:
    """The turn that a line `turn` begins."""
    words = line.split(" ", 3)
    return Step(int(words[1]), int(words[2]), "".join(words[3:]))


def take_line(step: Step, place: int, line: str) -> int:
    """Takes one line below a turn's first in. The place is that of the next entry, and what is answered is that of the
    one after this line."""
    if line.startswith("entry "):
        step.entries.append(entry_of(place, line[6:]))
        return place + 1
    step.changes.append(change_of(line))
    return place


def iter_steps(lines: Iterable[str]) -> Iterator[Step]:
    """The turns of the lines that `replay steps` prints, one after another. Of an iterator all lines to `end` are
    taken, and those of the output are left."""
    step: Step | None = None
    place = 0
    for number, line in enumerate(lines, 1):
        if line == "end":
            if step:
                yield step
            return
        try:
            if line.startswith("turn "):
                before, step = step, step_of(line)
                if before:
                    yield before
            elif step is None:
                raise ValueError
            else:
                place = take_line(step, place, line)
        except (ValueError, IndexError, KeyError):
            raise Unreadable(f"line {number} of the steps: {line!r}") from None
    raise Unreadable("the steps have no line `end`")


def read_steps(text: str) -> Steps:
    """The turns that `replay steps` printed."""
    lines = iter_split([text])
    return Steps(list(iter_steps(lines)), read_output("\n".join(lines)))
