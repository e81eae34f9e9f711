"""What a turn did, in sentences."""

from collections.abc import Mapping

from loops import Change, Entry, Image, Step, Violation
from loops.changes import Copy, OfBuffer, OfWay
from loops.images import there
from loops.pictures.words import Lost, sentence

CAUSES = {
    "NoEpoch": "no epoch is left for it",
    "NotHomefree": "its epoch is at its end, and an earlier one has not committed yet",
    "NoWay": "all ways of the set hold lines that its epoch has marked",
    "OrbFull": "the line would have to enter its buffer, which is full",
    "OrbBusy": "an earlier core holds the line, whose buffer has no place for it",
}
ENDS = {"done": "all epochs have committed, and the loop is over", "exit": "its exit ends the loop",
        "fault": "the loop is over"}
OF_OTHERS = ("hurt", "cancel", "publish")


def access(image: Image, entry: Entry, pc: int) -> str:
    """`loads 00000001 from bins+4, by lw x4,4(x3) at 00000010`"""
    value = f"{entry.value:0{2 * there(entry.width)}x}"
    told = f"loads {value} from" if entry.what == "load" else f"stores {value} to"
    by = image.instruction_at(pc)
    return f"{told} {image.name_of(there(entry.address))}" + (f", by {by} at {image.spelled(pc)}" if by else "")


def act(image: Image, entry: Entry, epoch: int | None, pc: int) -> str:
    """What the turn's own entry says."""
    if entry.what in ("load", "store"):
        return f"epoch {epoch} {access(image, entry, pc)}"
    return {
        "start": f"core {entry.core} begins epoch {entry.epoch}",
        "restart": f"core {entry.core} begins epoch {epoch} again",
        "publish": f"epoch {epoch}, which is homefree, publishes what it has stored, and is straight from here on",
        "commit": f"epoch {epoch} commits",
        "fault": f"epoch {epoch} faults with cause {entry.cause}, at {image.spelled(entry.pc or 0)}",
        "cancel": f"epoch {entry.epoch} is cancelled",
    }[entry.what]


def rolled_back(run: Lost, entry: Entry, violations: Mapping[int, Violation]) -> str:
    """That an epoch is rolled back, and why."""
    why = violations.get(entry.place)
    lead = f"epoch {entry.epoch} is rolled back"
    return lead if why is None else f"{lead}: {sentence(run, why)}"


def ended(text: str) -> str:
    """A clause as a sentence."""
    return text[0].upper() + text[1:] + "."


def turn_told(run: Lost, step: Step, epoch: int | None, pc: int, violations: Mapping[int, Violation]) -> str:
    """What a turn did: its own act and whom it cancelled, and then in a line each whom it rolled back and why."""
    said: list[str] = []
    if step.cause:
        said.append(f"core {step.core} waits: {CAUSES.get(step.cause, step.cause)}")
    own = [entry for entry in step.entries if entry.what not in ("hurt", "cancel")]
    said += [act(run.image, entry, epoch, pc) for entry in own]
    said += [act(run.image, entry, epoch, pc) for entry in step.entries if entry.what == "cancel"]
    if step.end:
        said.append(ENDS.get(step.end, step.end))
    hurts = [rolled_back(run, entry, violations) for entry in step.entries if entry.what == "hurt"]
    return "\n".join(map(ended, ["; ".join(said) or f"core {step.core}: {step.answer}", *hurts]))


def copy_moved(before: Copy | None, now: Copy | None) -> list[str]:
    """What became of a way of a cache: `00000040 from SpE to SpS`."""
    if before and now and before.address == now.address:
        return [f"{now.address:08x} from {before.state} to {now.state}"] if before.state != now.state else []
    goes = [f"{before.address:08x} goes"] if before else []
    return goes + ([f"{now.address:08x} comes as {now.state}"] if now else [])


def buffer_moved(before: tuple[int, ...], now: tuple[int, ...]) -> list[str]:
    """What entered a buffer and what left it."""
    return ([f"{line:08x} enters its buffer" for line in now if line not in before]
            + [f"{line:08x} leaves its buffer" for line in before if line not in now])


def moves_told(step: Step, state: Mapping[str, Change]) -> str:
    """What the caches did in a turn, core by core, by the state before it."""
    said: dict[int, list[str]] = {}
    for change in step.changes:
        before = state.get(change.place)
        if isinstance(change, OfWay):
            said.setdefault(change.core,
                            []).extend(copy_moved(before.now if isinstance(before, OfWay) else None, change.now))
        elif isinstance(change, OfBuffer):
            said.setdefault(change.core,
                            []).extend(buffer_moved(before.lines if isinstance(before, OfBuffer) else (), change.lines))
    return " ".join(f"Core {core}: {', '.join(moved)}." for core, moved in said.items() if moved)
