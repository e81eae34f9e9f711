"""Sentences on a run, for people."""

from typing import Protocol

from loops import Entry, Image, Violation
from loops.images import there
from loops.stores import Machine

from .attempts import Run
from .page import COLOURS

# So many names are listed; of more the first two.
MOST_NAMES = 4


class Entries(Protocol):
    """The entries that a sentence names, by their places."""
    def __getitem__(self, place: int, /) -> Entry: ...


class Lost(Protocol):
    """What these sentences need of a run."""
    @property
    def image(self) -> Image: ...

    @property
    def machine(self) -> Machine: ...

    @property
    def entries(self) -> Entries: ...


def plural(count: int, word: str) -> str:
    return f"{count:,} {word}" + ("" if count == 1 else "s")


def heading(run: Run) -> tuple[str, str]:
    """Two lines for the top of a picture."""
    over = f" over {run.store.word}" if run.store else ""
    one = (f"{plural(run.image.epochs, 'epoch')} on {plural(run.cores, 'core')}{over}: "
           f"{plural(len(run.violations), 'rollback')}, {run.committed:,} committed")
    attempts = plural(len(run.attempts), "attempt")
    return one, f"{attempts}; {plural(run.lost, 'instruction')} lost to rollbacks"


def bytes_of(run: Lost, violation: Violation) -> str:
    """`4 bytes at bins+4`."""
    return f"{plural(violation.length, 'byte')} at {run.image.name_of(there(violation.first))}"


def stored_at(run: Lost, violation: Violation) -> int | None:
    """The first byte of the blamed store, or None."""
    return None if violation.causers is None else run.entries[violation.causers.entry].address


def named_apart(image: Image, places: list[int]) -> list[str]:
    """The names of bytes that should lie apart: of variables, or where all lie in one, or have no name, of the
    bytes."""
    found = [image.variable_of(place) for place in places]
    names = sorted({one.name for one in found if one})
    return names if len(names) > 1 and None not in found else [image.name_of(place) for place in places]


def listed(names: list[str]) -> str:
    """`a, b and c`, or the first two and how many more there are."""
    kept, more = (names[:2], [f"{len(names) - 2} more"]) if len(names) > MOST_NAMES else (names[:-1], names[-1:])
    return " and ".join(filter(None, [", ".join(kept), *more]))


def sentence(run: Lost, violation: Violation) -> str:
    """What the report says of a violation."""
    lost = f"{plural(violation.lost, 'instruction')} lost"
    spelled = run.image.spelled
    if violation.kind == "other" or violation.causers is None or violation.victims is None:
        said = f"epoch {violation.epoch} was violated by epoch {violation.by_epoch}; {lost}; the trace has no cause"
    elif violation.kind == "buffer":
        said = (f"epoch {violation.by_epoch}'s access at {spelled(violation.causers.pc)} asked for a line that epoch "
                f"{violation.epoch} held in a full "
                f"buffer by its store at {spelled(violation.victims.pc)}; {lost}")
    else:
        told = {"publish": ", published", "commit": ", committed",
                "fault": ", committed by its fault"}.get(violation.cause_what, "")
        to = f" to {run.image.name_of(there(stored_at(run, violation)))}" if violation.kind == "false" else ""
        said = (f"epoch {violation.epoch}'s load at {spelled(violation.victims.pc)} of {bytes_of(run, violation)} was "
                "hit by epoch "
                f"{violation.by_epoch}'s store at {spelled(violation.causers.pc)}{to}{told}; {lost}; {violation.kind} "
                "sharing"
                .replace("silent sharing", "a silent store"))
    return said + ("; in vain, since that epoch was undone itself" if violation.vain else "")


def advice(run: Lost, violations: list[Violation]) -> str:
    """What usually helps against the kind that lost most; no claim."""
    lost = {kind: sum(violation.lost for violation in violations if violation.kind == kind) for kind in COLOURS}
    kind = max(lost, key=lambda one: lost[one])
    of_kind = [violation for violation in violations if violation.kind == kind and violation.first is not None]
    found = {run.image.variable_of(first) for first in {there(violation.first) for violation in of_kind}}
    variables = sorted(one.name for one in found if one is not None)
    names = listed(variables) if len(variables) > MOST_NAMES else " and ".join(variables) or "these bytes"
    machine = run.machine
    beside = sorted({place for violation in of_kind if kind == "false"
                     for place in (violation.first, stored_at(run, violation)) if place is not None})
    return {
        "true": f"wait for {names}, or let each epoch keep its own and put them together at the end",
        "silent": f"store to {names} only where the value differs",
        "false": f"give {listed(named_apart(run.image, beside))} lines of {machine.line} bytes of their own",
        "buffer": f"store to fewer lines in one epoch: its buffer holds {machine.buffer}",
        "other": "nothing is known",
    }[kind]
