"""What stands below each picture: the pairs of instructions to blame, and how to read it."""

from collections.abc import Callable

from .attempts import Run
from .page import CANCELLED, COLOURS, INK, LOST, MEANINGS, PALE, STRAIGHT, USEFUL, Page, hatched
from .words import advice, plural

MOST_PAIRS = 6
BAR = 160.0
# Draws a sign of the legend at a place.
Shape = Callable[[float, float], None]


def blame(page: Page, run: Run, x: float, y: float) -> float:
    """The pairs that lost most, each with a bar by kinds. Answers where it ends."""
    pairs = run.pairs()
    if not pairs:
        page.text(x, y, "No rollback to blame on a pair of instructions.", 12, bold=True)
        return y + 10
    page.text(x, y, "What to blame, by lost instructions", 13, bold=True)
    y += 10
    top = max(1, max(sum(v.lost for v in violations) for _, violations in pairs))
    for (store, load, full), violations in pairs[:MOST_PAIRS]:
        at = x
        for kind in COLOURS:
            part = sum(v.lost for v in violations if v.kind == kind)
            page.box(at, y + 4, BAR * part / top, 14, hatched(kind), tip=f"{kind}: {plural(part, 'instruction')} lost")
            at += BAR * part / top
        names = sorted({run.image.name_of(first) if found is None else found.name
                        for first in {v.first for v in violations} if first is not None
                        for found in [run.image.variable_of(first)]})
        counted = ", ".join(f"{count} {kind}" for kind in COLOURS for count in [sum(v.kind == kind for v in violations)]
                            if count)
        lost = sum(v.lost for v in violations)
        page.text(x + BAR + 10, y + 15,
                  f"{lost:,} of {run.lost:,} lost, {plural(len(violations), 'rollback')} on {' and '.join(names)} "
                  f"({counted})", 11, bold=True)
        words = "asks for the line that is held by" if full else "the store {} hits the load {}"
        spelled = run.image.spelled
        page.text(x + BAR + 10, y + 29,
                  f"{spelled(store)} {words} {spelled(load)}" if full else words.format(spelled(store), spelled(load)),
                  10.5, PALE)
        page.text(x + BAR + 10, y + 43, "may help: " + advice(run, violations), 10.5, "#1b7f3b")
        y += 52
    if len(pairs) > MOST_PAIRS:
        page.text(x + BAR + 10, y + 10, f"and {plural(len(pairs) - MOST_PAIRS, 'more pair')}", 10.5, PALE)
        y += 16
    return y


def kind_shown(page: Page, x: float, y: float, kind: str) -> None:
    """What is drawn of a kind: its arrow, and a box of its fill."""
    page.arrow(x, y - 3, x + 26, y - 3, kind)
    page.box(x, y + 2, 26, 5, hatched(kind))


def legend(page: Page, run: Run, x: float, y: float, lanes: bool) -> float:
    """How to read the picture: what occurs in it."""
    def bar(fill: str) -> Shape:
        return lambda a, b: page.box(a, b - 7, 26, 14, fill, INK, line=0.6)

    def of_kind(kind: str) -> Shape:
        return lambda a, b: kind_shown(page, a, b, kind)

    useful = ("an attempt that commits (e5 try 3, e5 #3 or #3: the third try of epoch 5)" if lanes
              else "epochs: attempts that commit")
    rows: list[tuple[Shape, str]] = [(bar(USEFUL), useful), (bar(LOST), "lost: this attempt was rolled back")]
    if any(attempt.straight is not None for attempt in run.attempts) and lanes:
        rows.append((bar(STRAIGHT), "straight: published, its stores are committed at once"))
    if any(attempt.fate in ("cancelled", "open") for attempt in run.attempts):
        rows.append((bar(CANCELLED), "cancelled by the loop's exit, or not over at the end"))
    if lanes:
        rows += [(lambda a, b: page.line(a + 8, b - 6, a + 8, b + 1, INK, 1.4), "a load"),
                 (lambda a, b: page.box(a + 5.5, b - 3, 5, 7, INK), "a store"),
                 (lambda a, b: page.ring(a + 13, b, COLOURS["true"]),
                  "ringed: the victim's access to blame; a sign as at an arrow's foot in place of a store: what hit "
                  "it"),
                 (lambda a, b: page.line(a, b, a + 26, b, COLOURS["true"], 1.2, "2 3"),
                  "violated, not begun again yet"),
                 (lambda a, b: page.flag(a + 9, b - 5), "commit")]
    for kind in COLOURS:
        if any(violation.kind == kind for violation in run.violations):
            rows.append((of_kind(kind), MEANINGS[kind]))
    page.text(x, y, "How to read it", 13, bold=True)
    for shape, words in rows:
        y += 19
        shape(x, y)
        page.text(x + 34, y + 4, words, 10.5)
    return y
