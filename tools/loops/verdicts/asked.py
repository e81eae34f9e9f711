"""The loop that a verdict speaks of, and its runs: each is what a program says of it."""

from dataclasses import dataclass

from loops import Image, Programs, Report, Stopped
from loops.gains import Gain
from loops.images import there
from loops.runs import read_report
from loops.stores import Machine, Store

from .aparts import Parted, parted
from .costs import Dearest, dearest
from .losses import Losses
from .sizes import Sized, Sizes, enough
from .waits import Waited, waited
from .words import LEAST, caches_cost, percent

# What `replay` says where a history is longer than a trace may be
FULL = "stopped HistoryFull\n"


@dataclass
class Ran:
    """A run at even speed: how it ended, and what it lost."""
    report: Report
    losses: Losses


@dataclass(frozen=True)
class Asked:
    """A loop on so many cores, over these caches where no other store is named."""
    programs: Programs
    text: str
    image: Image
    store: Store
    cores: int

    def run(self, store: Store) -> Ran:
        """The run over a store, and why it was rolled back. Its trace is long, so no more of it is read than is asked
        for."""
        above, head, below = self.programs.even_text(self.text, store.word, self.cores).partition("\ntrace ")
        kept = [line for line in above.split("\n") if not line.startswith(("turns ", "counts "))]
        trace = head[1:] + below
        violations = self.programs.why(self.text.removesuffix("\n") + "\n" + trace, store.word).violations
        return Ran(read_report("\n".join(kept)), Losses(self.image, violations, trace.split("\n")[1:-1], store))

    def losses(self, store: Store) -> Losses | None:
        """What the run over a store lost; None where its history is longer than a trace may be, and `gain` alone counts
        it."""
        try:
            return self.run(store).losses
        except Stopped as stopped:
            if stopped.line != FULL:
                raise
            return None

    def over(self, machine: Machine) -> Gain:
        """What it gains over other caches."""
        return there(self.programs.gain(self.text, self.cores, machine.word).of(machine.word, self.cores))

    def sizes(self, large: Sized, caches: Gain, plain: Gain) -> Sizes:
        """What it gains over large caches, and where the others cost most of it, which ones gain as much as the plain
        store."""
        if not caches_cost(caches, plain):
            return Sizes(large)
        return Sizes(large, True, enough(self.store.machine, large, plain, self.over))

    def waiting(self, load: int) -> Gain:
        """What it gains where one load waits until its epoch is the first."""
        return there(self.programs.gain(self.text, self.cores, self.store.word, waits=[load])
                     .of(self.store.word, self.cores))

    def waits(self, run: Gain, losses: Losses) -> list[Waited]:
        """What it gains where one load waits, of those that lost most; none where little is lost."""
        return waited(losses, self.waiting) if percent(run.count("lost"), run) >= LEAST else []

    def aparts(self, run: Gain, losses: Losses) -> list[Parted]:
        """What it gains where the variables that lost most by false sharing lie apart; none where little is lost, or
        where bytes lie apart as it is."""
        tried = percent(run.count("lost"), run) >= LEAST and self.store.machine.apart is None
        return parted(losses, self.over) if tried else []

    def held(self) -> Gain:
        """What it gains where each load waits for what earlier epochs store."""
        return there(self.programs.gain(self.text, self.cores, self.store.word, held=True)
                     .of(f"held {self.store.word}", self.cores))

    def costing(self, cost: int) -> Gain:
        """What it gains where each action costs so many steps more."""
        return there(self.programs.gain(self.text, self.cores, self.store.word, costs=f"bus={cost}")
                     .of(self.store.word, self.cores))

    def dearest(self) -> Dearest:
        """Up to which cost of each action it gains against the loop in order."""
        return dearest(self.costing)
