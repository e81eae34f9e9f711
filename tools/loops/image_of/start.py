"""The instructions that an epoch begins with where it needs any: they set the stack pointer, and call the entry, once
or for so many iterations.

One list of instructions is written as assembly, for what is linked here, or as words, for a program that was linked
elsewhere.

Stacks are taken in turn, by the epoch's number modulo 16. That is enough: the epochs that run at a time follow one
another, and are no more than the cores, of which there are at most 16; so no two of them have one stack.
"""

from dataclasses import dataclass
from typing import NamedTuple

from .words import branch, immediate, jump

SLOTS = 16
# Where an epoch ends: x1 at its start
EPOCH_END = 0xFFFFFFFC
MOST_INSTRUCTIONS = 1_000_000
# What a turn of the loop over iterations takes beside the call, and what stands before the first one
OF_ITERATION, BEFORE = 9, 60


class Instruction(NamedTuple):
    """An instruction. The last operand is a number, or a name: of a label, of the entry, or `hi TOP` and `lo TOP`."""
    name: str
    first: int = 0
    second: int = 0
    third: int | str = 0


@dataclass(frozen=True)
class Start:
    """What stands before the entry."""
    entry: str
    stack: int | None = None        # bytes of each slot
    epochs: int = 0                 # of the image
    iterations: int = 0             # how often the entry is called in all, where an epoch has more than one
    chunk: int = 1                  # how often in one epoch
    exits: bool = False

    @property
    def slots(self) -> int:
        """How many stacks there are."""
        return min(self.epochs, SLOTS) if self.stack else 0

    def stack_pointer(self) -> list[Instruction]:
        """x2 = top + (epoch % 16 + 1) * slot, with the epoch in x10."""
        if not self.stack:
            return []
        turn = [Instruction("andi", 2, 10, SLOTS - 1)] if self.epochs > SLOTS else []
        return (turn + [Instruction("addi", 2, 2 if turn else 10, 1),
                        Instruction("slli", 2, 2, self.stack.bit_length() - 1),
                        Instruction("lui", 5, 0, "hi"), Instruction("addi", 5, 5, "lo"), Instruction("add", 2, 2, 5)])

    def iterations_of_epoch(self) -> list[Instruction]:
        """The loop over the iterations of an epoch: how many are left stands in the upper half of x8, which a call
        keeps, and the number of the next in the lower."""
        first = [*times(8, 10, self.chunk), *constant(5, self.iterations),
                 Instruction("sub", 5, 5, 8), *constant(6, self.chunk)]
        least = [Instruction("bltu", 5, 6, "fewer"), Instruction("addi", 5, 6, 0), label("fewer"),
                 Instruction("slli", 5, 5, 16), Instruction("add", 8, 8, 5)]
        call = [label("again"), Instruction("slli", 10, 8, 16), Instruction("srli", 10, 10, 16),
                Instruction("jal", 1, 0, self.entry)]
        leave = [Instruction("bne", 10, 0, "over")] if self.exits else []
        on = [*constant(5, 1 - (1 << 16)), Instruction("add", 8, 8, 5), Instruction("srli", 5, 8, 16),
              Instruction("bne", 5, 0, "again")]
        return [*first, *least, *call, *leave, *on, label("over"), *constant(1, EPOCH_END),
                Instruction("jalr", 0, 1, 0)]

    def instructions(self) -> list[Instruction]:
        called = self.iterations_of_epoch() if self.chunk > 1 else [Instruction("jal", 0, 0, self.entry)]
        return self.stack_pointer() + called

    def limit(self, of_iteration: int) -> int:
        """The most instructions of an epoch, for those of one iteration."""
        return (of_iteration if self.chunk == 1
                else min(MOST_INSTRUCTIONS, self.chunk * (of_iteration + OF_ITERATION) + BEFORE))

    def assembly(self, top: str) -> str:
        """The text for an assembler, with the symbol where the stacks begin."""
        return '\n.section .text.start, "ax"\n' + "".join(line_of(one, top) + "\n" for one in self.instructions())

    def words(self, address: int, top: int) -> list[int]:
        """The words from address 0 on, with the entry at an address."""
        return assembled(self.instructions(), {self.entry: address}, top)


def label(name: str) -> Instruction:
    return Instruction("label", third=name)


def upper(value: int) -> int:
    """The 20 bits of LUI to which ADDI adds the rest."""
    return (value + 0x800) >> 12 & 0xFFFFF


def lower(value: int) -> int:
    """The signed 12 bits that ADDI adds."""
    return (value & 0xFFF) - ((value & 0x800) << 1)


def constant(register: int, value: int) -> list[Instruction]:
    """A register's value, in one instruction or two."""
    high, low = upper(value), lower(value)
    load = [Instruction("lui", register, 0, high)] if high else []
    return load + ([Instruction("addi", register, register if high else 0, low)] if low or not high else [])


def times(target: int, source: int, factor: int) -> list[Instruction]:
    """target = source * factor, by shifts and additions from the highest bit on."""
    made = [Instruction("addi", target, source, 0)]
    shift = 0
    for bit in bin(factor)[3:]:
        shift += 1
        if bit == "1":
            made += [Instruction("slli", target, target, shift), Instruction("add", target, target, source)]
            shift = 0
    return made + ([Instruction("slli", target, target, shift)] if shift else [])


# --- As assembly -------------------------------------------------------------

def line_of(one: Instruction, top: str) -> str:
    """An instruction as a line of assembly."""
    name, first, second, third = one
    if name == "label":
        return f".Lstart_{third}:"
    operand = {"hi": f"%hi({top})", "lo": f"%lo({top})"}.get(third, third) if isinstance(third, str) else third
    if name == "lui":
        return f" lui x{first}, {operand}"
    if name == "jal":
        return f" jal x{first}, {operand}"
    if name in BRANCHES:
        return f" {name} x{first}, x{second}, .Lstart_{third}"
    if name == "jalr":
        return f" jalr x{first}, {operand}(x{second})"
    return f" {name} x{first}, x{second}, {f'x{third}' if name in OPERATIONS else operand}"


# --- As words ----------------------------------------------------------------

def assembled(given: list[Instruction], named: dict[str, int], top: int = 0) -> list[int]:
    """The words of instructions from address 0 on; `named` are the addresses of names that are no labels among them."""
    places = dict(named)
    kept: list[Instruction] = []
    for one in given:
        if one.name == "label":
            places[str(one.third)] = 4 * len(kept)
        else:
            kept.append(one)
    return [encoded(one, 4 * place, top, places) for place, one in enumerate(kept)]


IMMEDIATES = {"addi": 0, "slli": 1, "srli": 5, "andi": 7}
OPERATIONS = {"add": 0, "sub": 0x20}
BRANCHES = {"bne": 1, "bltu": 6}


def encoded(one: Instruction, pc: int, top: int, places: dict[str, int]) -> int:
    """The word of an instruction at an address."""
    name, first, second, third = one
    value = {"hi": upper(top), "lo": lower(top)}.get(third, places.get(third, 0)) if isinstance(third, str) else third
    if name == "lui":
        return value << 12 | first << 7 | 0x37
    if name == "jal":
        return jump(value - pc, first)
    if name in BRANCHES:
        return branch(BRANCHES[name], first, second, value - pc)
    if name == "jalr":
        return (value & 0xFFF) << 20 | second << 15 | first << 7 | 0x67
    if name in OPERATIONS:
        return OPERATIONS[name] << 25 | value << 20 | second << 15 | first << 7 | 0x33
    return immediate(value, second, first, IMMEDIATES[name])
