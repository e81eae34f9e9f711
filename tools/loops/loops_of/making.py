"""Makes the image of a loop and checks it: the program with the loop outlined runs as a whole, then to the entry that
is wanted, and the image runs in order."""

from dataclasses import dataclass

from .build import Builder, Linked, Loop
from .check import check_image, check_program
from .emulator import Entries, Given, Run, Window
from .images import MOST_EPOCHS, Wanted, image_text
from .reasons import NOT_ENTERED, Faults, Otherwise, Refused, Unusable


@dataclass
class Choice:
    """Which of a loop's iterations are asked for."""
    entry: int | None = None                # counted from 1; None is the one with most iterations
    first: int = 0
    epochs: int | None = None               # at most; None is all
    version: int = 2                        # of the image
    chunk: int = 1                          # iterations of an epoch


class Maker:
    """Makes and checks the images of a program's loops."""

    def __init__(self, builder: Builder, given: Given, choice: Choice) -> None:
        self.builder, self.given, self.choice = builder, given, choice
        self.plain: Run | None = None

    def plain_run(self) -> Run:
        """The unchanged program's run, with its variables where those of the changed one are."""
        if self.plain is None or self.plain.program.at("loops_data") != self.builder.layout.data:
            self.plain = Run(self.builder.plain(), self.given).whole()
        return self.plain

    def wanted(self, iterations: list[int]) -> Wanted:
        """Which iterations of which entry."""
        choice = self.choice
        if not iterations:
            raise Refused(NOT_ENTERED)
        entry = choice.entry or iterations.index(max(iterations)) + 1
        if entry > len(iterations):
            raise Refused(f"is entered {len(iterations)} times, so there is no entry {entry}")
        total = iterations[entry - 1]
        if choice.first >= total:
            raise Refused(f"its entry {entry} has {total} iterations, so none from {choice.first} on")
        most = MOST_EPOCHS * choice.chunk
        count = min(total - choice.first, choice.epochs or most, most)
        return Wanted(entry, len(iterations), choice.first, count, total, choice.chunk)

    def made(self, loop: Loop) -> tuple[str, str]:
        """The text of a loop's image, which has been checked, and what is told of it."""
        if loop.refused:
            raise Refused(loop.refused)
        self.plain_run()
        try:
            return self.checked(loop, self.builder.outlined(loop))
        except Faults as why:
            raise Otherwise(f"WRONG {why}") from None
        # the unchanged program has run, and with the loop as a function it is slower and has more frames
        except Unusable as why:
            raise Refused(str(why)) from None

    def checked(self, loop: Loop, program: Linked) -> tuple[str, str]:
        """The same, of a program with the loop outlined."""
        whole = Entries(program, self.given)
        whole.whole()
        check_program(self.plain_run(), whole)
        wanted = self.wanted(whole.iterations)
        window = Window(program, self.given, wanted.entry, wanted.first, wanted.count).run()
        text = image_text(program, loop, wanted, window, self.choice.version)
        own = check_image(text, loop, wanted, window)
        told = [f"same: entry {wanted.entry} of {wanted.entries}, {wanted.count} of {wanted.total} iterations"]
        told += [f"{wanted.chunk} an epoch"] if wanted.chunk > 1 else []
        told += [f"stack {window.depth}"] if window.depth else []
        told += [f"{own} words with addresses of frames of the iterations' own differ"] if own else []
        return text, " | ".join([", ".join(told), *([loop.told.text()] if loop.told.text() else [])])
