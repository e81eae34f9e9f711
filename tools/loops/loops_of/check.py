"""Whether a program with one loop outlined does what it did, and whether the loop's image makes of memory what the
program made of it."""

from collections.abc import Iterator

from loops import Programs
from loops.images import there

from .build import PAGE, Linked, Loop
from .emulator import Entries, Run, Window
from .images import LIMIT, Wanted
from .reasons import Otherwise, Refused, iteration, misaligned, too_long

# The machine's causes of faults: a load or a store at no multiple of its size, which Unicorn does; an epoch that takes
# more instructions than the limit
MISALIGNED, TOO_LONG = 5, 8
MOST_NAMED = 4


def word_of(memory: bytes, at: int) -> int:
    return int.from_bytes(memory[at:at + 4], "little")


def differing(was: bytes, now: bytes, first: int, end: int) -> Iterator[int]:
    """The addresses of the words that differ."""
    for page in range(first, end, PAGE):
        last = min(page + PAGE, end)
        if was[page:last] != now[page:last]:
            yield from (at for at in range(page, last, 4) if was[at:at + 4] != now[at:at + 4])


def name_at(program: Linked, at: int) -> str:
    """The variable that has an address, for people."""
    found = next((f"{name}+{at - start}" for start, name, length in program.variables()
                  if start <= at < start + length), None)
    return found or f"the memory at {at:08x}"


def moved(was: int, now: int, program: Linked) -> bool:
    """Whether two words are addresses that may differ: of code and constants, or of frames."""
    ranges = (range(program.text.start, program.at("loops_data")),
              range(program.at("loops_guard"), program.at("loops_end")))
    return any(was in one and now in one for one in ranges)


def check_program(plain: Run, outlined: Entries) -> None:
    """Output, status, variables and heap at the program's end are those of the unchanged program. What setjmp saved are
    registers, and may differ."""
    if plain.status != outlined.status:
        raise Otherwise(f"WRONG the status is {outlined.status} in place of {plain.status}")
    if plain.output != outlined.output:
        raise Otherwise("WRONG the output is another one")
    program = outlined.program
    different = [at for at in differing(plain.final, outlined.final, program.at("loops_data"),
                                        program.at("loops_guard"))
                 if at not in plain.saved and not moved(word_of(plain.final, at), word_of(outlined.final, at), program)]
    if different:
        raise Otherwise("WRONG other values at the program's end in "
                        + ", ".join(dict.fromkeys(name_at(program, at) for at in different[:MOST_NAMED])))


def part_of(wanted: Wanted, epoch: int) -> str:
    """What an epoch is of the loop, for people."""
    if wanted.chunk == 1:
        return iteration(wanted.first + epoch)
    return f"its epoch {epoch}, of {wanted.chunk} iterations,"


def check_image(text: str, loop: Loop, wanted: Wanted, window: Window) -> int:
    """The loop in order makes of memory what the emulator made of it. Answers how many words hold addresses of an
    iteration's own frame, which lies elsewhere."""
    report = Programs().seq(text).report
    if report.ending == "fault" and report.cause == TOO_LONG:
        raise Refused(too_long(loop.line, part_of(wanted, report.epoch), LIMIT))
    if report.ending == "fault" and report.cause == MISALIGNED:
        raise Refused(misaligned(window.program.line(there(report.pc)), part_of(wanted, report.epoch)))
    expected = ("exit", wanted.epochs - 1) if wanted.whole else ("done", wanted.epochs)
    if (report.ending, report.epoch) != expected:
        cause = ""
        if report.ending == "fault":
            cause = f" with cause {report.cause} at {window.program.line(there(report.pc))}"
        raise Otherwise(f"DIFFERENT the loop ends by {report.ending} {report.epoch}{cause}, and not by {expected[0]} "
                        f"{expected[1]}")
    memory, after = bytearray(window.memory), window.after
    for row in report.rows:
        memory[row.address:row.address + len(row.data)] = row.data
    program = window.program
    guard, end, made = program.at("loops_guard"), program.at("loops_end"), bytes(memory)
    dead = range(guard, max(guard, window.registers[2] // 4 * 4))
    words = [*differing(made, after, 0, dead.start), *differing(made, after, dead.stop, end)]
    own = [at for at in words if word_of(after, at) in dead and word_of(memory, at) >= end]
    different = sorted(set(words) - set(own))
    if different:
        raise Otherwise(f"DIFFERENT {len(different)} words, as in "
                        + ", ".join(dict.fromkeys(name_at(program, at) for at in different[:MOST_NAMED])))
    return len(own)
