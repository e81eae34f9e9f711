"""A short run, entry by entry: a lane for each core, from left to right the turns that made an entry."""

from loops import Violation
from loops.images import there

from .attempts import Attempt, Run
from .below import blame, legend
from .page import CANCELLED, COLOURS, GRID, INK, LOST, PALE, STRAIGHT, USEFUL, Page
from .words import heading, plural, sentence

LEFT, TOP, LANE, BAR = 74, 108, 66, 30


class Lanes:
    def __init__(self, run: Run) -> None:
        self.run, self.page = run, Page()
        self.turns = max(1, run.turns)
        self.column = max(7.0, min(20.0, 1400.0 / self.turns))
        self.labels: list[tuple[float, float, float]] = []     # (left, right, base) of the labels that stand

    def x(self, turn: float) -> float:
        return LEFT + turn * self.column

    def y(self, core: int) -> float:
        return TOP + core * LANE + (LANE - BAR) / 2

    def whole(self) -> str:
        one, two = heading(self.run)
        self.page.text(16, 26, self.run.image.about, 12.5)
        self.page.text(16, 48, one, 17, bold=True)
        self.page.text(16, 67, two, 12, PALE)
        self.grid()
        for attempt in self.run.attempts:
            self.attempt(attempt)
        for violation in self.run.violations:
            self.violation(violation)
        below = TOP + LANE * self.run.cores + 44
        blame(self.page, self.run, 16, below)
        legend(self.page, self.run, max(760, self.page.width * 0.55), below, lanes=True)
        self.page.reach(self.x(self.turns), 0)
        return self.page.whole(one)

    def grid(self) -> None:
        page, bottom = self.page, TOP + LANE * self.run.cores
        page.text(LEFT, TOP - 8, "turns that made an entry, from left to right", 10.5, PALE)
        step = max(1, round(60 / self.column / 5) * 5)
        for turn in range(0, self.turns + 1, step):
            page.line(self.x(turn), TOP, self.x(turn), bottom, GRID)
            page.text(self.x(turn), bottom + 13, str(turn), 9.5, PALE, "middle")
        for core in range(self.run.cores):
            middle = self.y(core) + BAR / 2
            page.line(LEFT, middle, self.x(self.turns), middle, "#d5dade")
            page.text(LEFT - 12, middle + 4, f"core {core}", 12, anchor="end", bold=True)

    def attempt(self, attempt: Attempt) -> None:
        page, y, left = self.page, self.y(attempt.core), self.x(attempt.first) + 1
        end = self.turns if attempt.last is None else attempt.last
        _, right = self.run.span(attempt)
        tip = f"epoch {attempt.epoch}, try {attempt.number}: {attempt.fate}"
        if attempt.fate == "violated":
            lost = plural(there(attempt.violation).lost, "instruction")
            page.box(left, y, self.x(right) - left, BAR, LOST, COLOURS["true"], f"{tip}, {lost} lost", 0.8)
            if self.x(end) > self.x(right) + 2:
                page.line(self.x(right), y + BAR / 2, self.x(end), y + BAR / 2, COLOURS["true"], 1.2, "2 3")
        else:
            page.box(left, y, self.x(right) - left - 1, BAR,
                     USEFUL if attempt.fate in ("committed", "fault") else CANCELLED, INK, tip, 0.8)
            if attempt.straight is not None:
                page.box(self.x(attempt.straight), y, self.x(right) - self.x(attempt.straight) - 1, BAR, STRAIGHT, INK,
                         tip + "; straight from here", 0.8)
        self.accesses(attempt)
        if attempt.fate == "committed":
            page.flag(self.x(right) - 11, y + BAR - 12, f"epoch {attempt.epoch} commits")
        if attempt.fate == "fault":
            page.text(self.x(right) - 4, y + BAR - 4, "!", 14, COLOURS["true"], "end", bold=True)
        self.name(attempt, left)

    def accesses(self, attempt: Attempt) -> None:
        y = self.y(attempt.core)
        for turn, entry in attempt.accesses:
            ink = "#fff" if attempt.straight is not None and turn >= attempt.straight else INK
            middle, tip = self.x(turn) + self.column / 2, f"entry {entry.place}: {entry.what} {' '.join(entry.words)}"
            if entry.what == "load":
                self.page.box(middle - 0.7, y + 3, 1.4, 8, ink, tip=tip)
            else:
                self.page.box(middle - 2.5, y + BAR - 10, 5, 7, ink, tip=tip)

    def name(self, attempt: Attempt, left: float) -> None:
        """The longest name that has room before the core's next attempt."""
        following = [other.first for other in self.run.attempts if other.core == attempt.core
                     and other.first > attempt.first]
        room = self.x(min(following)) - left - 3 if following else 1000
        again = [f"e{attempt.epoch} try {attempt.number}", f"e{attempt.epoch} #{attempt.number}", f"#{attempt.number}"]
        names = [f"e{attempt.epoch}"] if attempt.number == 1 else again
        fits = next((name for name in names if len(name) * 6.4 <= room), "")
        self.page.text(left + 1, self.y(attempt.core) - 4, fits, 10, bold=attempt.fate == "committed")

    def violation(self, violation: Violation) -> None:
        page, colour = self.page, COLOURS[violation.kind]
        turn = self.run.turn_of[violation.place]
        beside = [other for other in self.run.violations if self.run.turn_of[other.place] == turn]
        x = self.x(turn) + self.column / 2 + 3 * (beside.index(violation) - (len(beside) - 1) / 2) * 2
        self.blamed(violation, colour)
        down = violation.core > violation.by_core
        start, end = self.y(violation.by_core) + (BAR if down else 0), self.y(violation.core) + (0 if down else BAR)
        page.arrow(x, start, x, end, violation.kind, sentence(self.run, violation))
        if violation.first is not None:
            self.label(x, end + (-16 if down else 15), self.run.image.name_of(violation.first), colour)

    def blamed(self, violation: Violation, colour: str) -> None:
        for access, core in ((violation.victims, violation.core), (violation.causers, violation.by_core)):
            if access is None:
                continue
            what = self.run.entries[access.entry].what
            x = self.x(self.run.turn_of[access.entry]) + self.column / 2
            if core == violation.core:
                self.page.ring(x, self.y(core) + (7 if what == "load" else BAR - 6.5), colour)
            elif what == "store":
                self.page.mark(x, self.y(core) + BAR - 6.5, 4, violation.kind, "the store that is blamed")

    def label(self, x: float, base: float, words: str, colour: str) -> None:
        """The name of the bytes beside an arrow, where it has room."""
        width = len(words) * 6.0
        for left in (x + 5, x - 4 - width):
            if all(left + width < a or b < left or abs(base - c) > 10 for a, b, c in self.labels):
                self.page.text(left, base, words, 9.5, colour, halo=True)
                self.labels.append((left, left + width, base))
                return


def draw(run: Run) -> str:
    return Lanes(run).whole()
