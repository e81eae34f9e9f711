"""The text of the image of a loop's iterations, with the memory that an entry into the loop found."""

from dataclasses import dataclass

from loops.image_of.start import SLOTS
from loops.image_of.texts import LARGEST_SIZE, LINE, LONGEST_TEXT, at_lines
from loops.image_of.words import uses_register

from .build import Linked, Loop
from .emulator import Window
from .frames import Frames
from .reasons import Refused, too_large, too_much_text
from .starts import STACK, Start

LIMIT = 1_000_000                           # the most instructions of an epoch
MOST_EPOCHS = 65_535
# epochs past the last one, where the number of iterations isn't known before
BEYOND = 4
SMALLEST_SLOT = 64
FARTHEST = 8                                # instructions between the parts of an address


@dataclass
class Wanted:
    """Which iterations of which entry become epochs."""
    entry: int
    entries: int
    first: int
    count: int
    total: int                              # of the entry
    chunk: int = 1                          # iterations of an epoch; the last one has what is left

    @property
    def epochs(self) -> int:
        return -(-self.count // self.chunk)

    @property
    def whole(self) -> bool:
        """Whether the window is that of the loop's end."""
        return self.first + self.count == self.total


def slot_of(depth: int) -> int:
    """The bytes of an epoch's stack, for calls that went so deep."""
    return max(SMALLEST_SLOT, 1 << (depth + 15).bit_length())


def reachable(program: Linked, memory: bytes) -> set[int]:
    """The instructions that the body may come to: its own and those of the functions that it calls; where it calls by
    address, of all whose addresses are in memory."""
    starts = {at for at, _ in program.functions_at}
    found: set[int] = set()
    work, by_address = [program.at("loops_body")], False
    while work:
        inside = program.function_at(work.pop())
        if not inside or inside.start in found:
            continue
        found.update(inside)
        work += [target for pc in inside for target in targets(memory, pc) if target in starts]
        if not by_address and any(calls_by_address(memory, pc) for pc in inside):
            by_address = True
            work += starts & set(memoryview(memory).cast("I")[program.text.stop // 4:])
    return found


def calls_by_address(memory: bytes, pc: int) -> bool:
    """Whether an instruction jumps to an address in a register other than that of the return, and none that AUIPC made
    just before."""
    word, before = (int.from_bytes(memory[at:at + 4], "little") for at in (pc, pc - 4))
    return (word & 0x7F == 0x67 and word >> 15 & 31 != 1
            and not (before & 0x7F == 0x17 and before >> 7 & 31 == word >> 15 & 31))


def signed(value: int, bits: int) -> int:
    return value - (1 << bits) if value >> (bits - 1) else value


def targets(memory: bytes, pc: int) -> list[int]:
    """Where an instruction jumps to, or which address it makes with one of those before."""
    word = int.from_bytes(memory[pc:pc + 4], "little")
    if word & 0x7F == 0x6F:
        distance = (word >> 31) << 20 | (word >> 12 & 0xFF) << 12 | (word >> 20 & 1) << 11 | (word >> 21 & 0x3FF) << 1
        return [pc + signed(distance, 21)]
    for at in range(pc - 4, max(pc - 4 * FARTHEST, 0), -4) if word & 0x7F in (0x67, 0x13) else ():
        upper = int.from_bytes(memory[at:at + 4], "little")
        if upper & 0x7F in (0x17, 0x37) and upper >> 7 & 31 == word >> 15 & 31:
            return [((at if upper & 0x7F == 0x17 else 0) + (upper & 0xFFFFF000) + signed(word >> 20, 12)) & 0xFFFFFFFF]
    return []


def remarks(program: Linked, loop: Loop, wanted: Wanted, window: Window) -> list[str]:
    """What the image says of itself: where it is from, what it carries, and the names of its memory and its code."""
    told = [f"The loop at {loop.place}, in {loop.function}: entry {wanted.entry} of {wanted.entries}, with "
            f"{wanted.total} iterations."]
    if wanted.count < wanted.total:
        told.append(f"The epochs are its iterations from {wanted.first} on, {wanted.count} of them.")
    if wanted.chunk > 1:
        told.append(f"An epoch is {wanted.chunk} iterations; the last one is what is left.")
    told += [loop.told.text()] if loop.told.text() else []
    lines = [f"# {one}" for one in told] + ["# Variables, each with its address and its bytes:"]
    lines += [f"# {name} {address:08x} {length}"
              for address, name, length in program.variables(program.at("loops_thread")) if length]
    arrays = Frames(program).arrays(loop.function, window.memory, window.registers)
    lines += [f"# {one.name} {one.address:08x} {one.length}" for one in arrays]
    lines += [f"# malloc:{block.line} {address:08x} {block.length}" for address, block in sorted(window.blocks.items())
              if block.length]
    # lines of loads and stores: what conflicts are told of; those of all instructions would be most of the text
    memory = window.memory
    inside = reachable(program, memory)
    accesses = [pc for pc in sorted(inside) if memory[pc] & 0x5F == 3 and program.lines.at(pc)]
    return lines + [f"# code {pc:08x} {program.line(pc)}" for pc in accesses]


def memory_lines(program: Linked, window: Window, end: int) -> list[str]:
    """The memory behind the code, but for what lies below the stack pointer, which is dead."""
    live = window.registers[STACK] // 16 * 16
    lines = list(at_lines(end + -end % 16, window.memory[end + -end % 16:window.guard]))
    return lines + list(at_lines(live, window.memory[live:program.at("loops_end")]))


def image_text(program: Linked, loop: Loop, wanted: Wanted, window: Window, version: int) -> str:
    """The text of the image."""
    memory, body, top = window.memory, program.range_of("loops_body"), program.at("loops_end")
    uses_stack = any(uses_register(int.from_bytes(memory[pc:pc + 4], "little"), STACK) for pc in body)
    slot = slot_of(window.depth) if uses_stack else 0
    is_known = loop.told.countable or not wanted.whole
    start = Start(body.start, slot, top, wanted.first, wanted.chunk, wanted.first + wanted.count if is_known else None)
    registers = {number: window.registers[number] for number in (3, 4)} | start.registers()
    words = start.words()
    code = b"".join(word.to_bytes(4, "little") for word in words) + memory[4 * len(words):program.text.stop]
    size, most = top + SLOTS * slot, LARGEST_SIZE[version]
    size += -size % LINE[version]
    if size > most:
        raise Refused(too_large(size, most, "--heap, --stack or --version 2"))
    beyond = 0 if is_known else min(BEYOND, MOST_EPOCHS - wanted.epochs)
    lines = remarks(program, loop, wanted, window) + (["version 2"] if version == 2 else [])
    lines += ["exit", f"size {size}", f"epochs {wanted.epochs + beyond}", f"limit {LIMIT}", f"code {code.hex()}"]
    lines += [f"reg {number} {value:08x}" for number, value in sorted(registers.items()) if value]
    text = "\n".join([*lines, *memory_lines(program, window, program.text.stop)]) + "\n"
    if len(text) > LONGEST_TEXT:
        raise Refused(too_much_text(len(text), LONGEST_TEXT))
    return text
