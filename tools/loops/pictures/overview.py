"""A long run, by epochs: what each lost to rollbacks, and below it the cores over turns."""

from loops import Violation

from .attempts import Run
from .below import blame, legend
from .page import CANCELLED, COLOURS, DASHES, GRID, INK, LOST, PALE, USEFUL, Page, hatched
from .words import heading, plural, sentence

LEFT, TOP, HIGH, LANE, COUNTS, MOST_SLOTS = 74, 104, 150, 16, 40, 300
# A run of more entries is gathered: a block for each kind of an epoch's rollbacks, and of the cores a column for each
# pixel.
MOST_ENTRIES = 2000
STEPS = [step * 10 ** power for power in range(10) for step in (1, 2, 5)]


class Overview:
    def __init__(self, run: Run) -> None:
        self.run, self.page = run, Page()
        epochs = max([attempt.epoch for attempt in run.attempts], default=0) + 1
        self.epochs_of_slot = -(-epochs // MOST_SLOTS)
        self.slots = -(-epochs // self.epochs_of_slot)
        self.column = max(3.0, min(44.0, 1200.0 / self.slots))
        self.gathered = len(run.entries) > MOST_ENTRIES
        self.by_slot: list[list[Violation]] = [[] for _ in range(self.slots)]
        for violation in run.violations:
            self.by_slot[violation.epoch // self.epochs_of_slot].append(violation)

    def whole(self) -> str:
        one, two = heading(self.run)
        self.page.text(16, 26, self.run.image.about, 12.5)
        self.page.text(16, 48, one, 17, bold=True)
        self.page.text(16, 67, two, 12, PALE)
        bottom = self.strip(self.lost() + 40)
        blame(self.page, self.run, 16, bottom + 36)
        legend(self.page, self.run, max(760, self.page.width * 0.55), bottom + 36, lanes=False)
        return self.page.whole(one)

    def lost(self) -> float:
        """A bar for each epoch, or for so many epochs: a block for each rollback, as high as what it lost. Answers
        where it ends."""
        page = self.page
        most = max([sum(v.lost for v in violations) for violations in self.by_slot] + [1])
        scale, base = HIGH / most, TOP + HIGH
        of = "each epoch" if self.epochs_of_slot == 1 else f"{self.epochs_of_slot} epochs each"
        page.text(LEFT, TOP - 10,
                  f"instructions that {of} lost to rollbacks, a block for each{' kind' if self.gathered else ''}", 11,
                  PALE)
        tick = next(step for step in STEPS if step * 4 >= most)
        for value in range(0, most + 1, tick):
            page.line(LEFT, base - value * scale, LEFT + self.slots * self.column, base - value * scale, GRID)
            page.text(LEFT - 6, base - value * scale + 3, f"{value:,}", 9.5, PALE, "end")
        for slot, violations in enumerate(self.by_slot):
            (self.kinds if self.gathered else self.bar)(slot, violations, base, scale)
        page.line(LEFT, base, LEFT + self.slots * self.column, base, INK, 1.2)
        every = next(step for step in STEPS if step * self.column >= 34)
        for slot in range(0, self.slots, every):
            page.text(LEFT + (slot + 0.5) * self.column, base + 14, str(slot * self.epochs_of_slot), 9.5, PALE,
                      "middle")
        page.text(LEFT - 6, base + 14, "epoch", 9.5, PALE, "end")
        page.reach(LEFT + self.slots * self.column, 0)
        return base + 14

    def bar(self, slot: int, violations: list[Violation], base: float, scale: float) -> None:
        y = base
        for violation in sorted(violations, key=lambda v: list(COLOURS).index(v.kind)):
            y -= violation.lost * scale
            self.page.box(LEFT + slot * self.column, y, max(self.column - (1.5 if self.column > 5 else 0.5), 1),
                          violation.lost * scale,
                          hatched(violation.kind), "#fff", sentence(self.run, violation), 0.6)

    def kinds(self, slot: int, violations: list[Violation], base: float, scale: float) -> None:
        """The same bar with one block for each kind."""
        y = base
        for kind in COLOURS:
            of_kind = [violation.lost for violation in violations if violation.kind == kind]
            if of_kind:
                y -= sum(of_kind) * scale
                self.page.box(LEFT + slot * self.column, y, max(self.column - (1.5 if self.column > 5 else 0.5), 1),
                              sum(of_kind) * scale, hatched(kind),
                              tip=f"{kind}: {plural(len(of_kind), 'rollback')}, {plural(sum(of_kind), 'instruction')} "
                                  "lost")

    def strip(self, y: float) -> float:
        """The cores over the turns. Answers where it ends."""
        page, run = self.page, self.run
        turns, wide = max(1, run.turns), self.slots * self.column if self.slots > 8 else 700.0
        page.text(LEFT, y, "the same run: cores over turns; " + (
            f"a pixel is {turns / wide:.0f} turns, from below what was lost, cancelled and useful"
            if self.gathered else "hatched is lost, a line leads from the sign at the cause to the victim"), 11, PALE)
        y += 8
        for core in range(run.cores):
            page.text(LEFT - 6, y + core * LANE + 11, f"core {core}", 10, anchor="end")
        page.reach(LEFT + wide, 0)
        if self.gathered:
            return self.columns(y, int(wide))
        self.attempts(y, turns, wide)
        return y + LANE * run.cores

    def columns(self, y: float, wide: int) -> float:
        """Each core in columns of one pixel, with the shares of what it ran. Answers where it ends."""
        run = self.run
        steps: dict[str, list[str]] = {}
        for (core, column), shares in run.shares(wide).items():
            top = y + core * LANE + LANE - 2
            for fill, share in zip((LOST, CANCELLED, USEFUL), (shares[1], shares[2], shares[0])):
                high = round(share * wide / max(1, run.turns) * (LANE - 4), 1)
                if high >= 0.1:
                    steps.setdefault(fill, []).append(f"M{LEFT + column} {top:.1f}h1v{-high:g}h-1z")
                    top -= high
        for fill, parts in steps.items():
            self.page.path("".join(parts), fill=fill)
        return self.counts(y + LANE * run.cores, wide)

    def counts(self, y: float, wide: int) -> float:
        """How many rollbacks a pixel has, a block for each kind. Answers where it ends."""
        run = self.run
        counts: dict[int, dict[str, int]] = {}
        for violation in run.violations:
            kinds = counts.setdefault(int(run.turn_of[violation.place] * wide / max(1, run.turns)),
                                      dict.fromkeys(COLOURS, 0))
            kinds[violation.kind] += 1
        most = max([sum(kinds.values()) for kinds in counts.values()], default=1)
        steps: dict[str, list[str]] = {}
        base = y + 4 + COUNTS
        for column, kinds in counts.items():
            at = base
            for kind, count in kinds.items():
                if count:
                    high = round(count * COUNTS / most, 1)
                    steps.setdefault(kind, []).append(f"M{LEFT + column} {at:.1f}h1v{-high:g}h-1z")
                    at -= high
        for kind, parts in steps.items():
            self.page.path("".join(parts), fill=hatched(kind))
        self.page.text(LEFT - 6, base - 2, "rollbacks", 10, anchor="end")
        self.page.text(LEFT, base + 12, f"a pixel has {plural(most, 'rollback')} at most", 9.5, PALE)
        return base + 14

    def attempts(self, y: float, turns: int, wide: float) -> None:
        """Each attempt as a box, and each rollback as a line from its cause to its victim."""
        page, run = self.page, self.run
        for attempt in run.attempts:
            _, right = run.span(attempt)
            fill = {"violated": LOST, "committed": USEFUL, "fault": USEFUL}.get(attempt.fate, CANCELLED)
            page.box(LEFT + attempt.first * wide / turns, y + attempt.core * LANE + 2,
                     (right - attempt.first) * wide / turns, LANE - 4, fill, "#fff",
                     f"epoch {attempt.epoch}, try {attempt.number}: {attempt.fate}", 0.4)
        for violation in run.violations:
            x = LEFT + (run.turn_of[violation.place] + 0.5) * wide / turns
            ends = [y + core * LANE + LANE / 2 for core in (violation.by_core, violation.core)]
            page.mark(x, ends[0], 2, violation.kind)
            page.line(x, ends[0], x, ends[1], COLOURS[violation.kind], 1.1, DASHES[violation.kind])


def draw(run: Run) -> str:
    return Overview(run).whole()
