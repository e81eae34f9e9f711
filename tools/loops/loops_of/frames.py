"""The arrays of the frames that are live where a window begins: those of the loop's function and of all that called it,
as far as DWARF tells of their frames."""

from collections.abc import Iterator
from dataclasses import dataclass, field
from functools import cached_property
from typing import Any, NamedTuple

from loops.image_of.elf import ELFFile, reading
from loops.names import word

from .build import Linked

RETURN, STACK, FRAME = 1, 2, 8                  # x1, x2, x8
# The operations of DWARF by which LLVM places arrays: the frame's base with a distance, a register with a distance, a
# register
FRAME_BASE, REGISTER_AND, REGISTER = 0x91, 0x70, 0x50
# Its instructions for the frame of a caller, as LLVM uses them, and the unit of where a register is saved. (pyelftools
# before 0.30 misreads the head of LLVM's tables, so that it can't decode them.) Source: DWARF 5, 6.4.2 and 7.24
ADVANCE, SAVED, PRIMARY = 0x40, 0x80, 0xC0
ADVANCES, FRAME_IS, FRAME_BY, FRAME_AT = (0x02, 0x03, 0x04), 0x0C, 0x0D, 0x0E
UNIT = -4
MOST_FRAMES = 100                               # of a recursion no more are looked at


class Array(NamedTuple):
    """An array of a frame."""
    address: int
    name: str
    length: int


@dataclass
class Rule:
    """How a function's frame is found at one of its instructions."""
    register: int = STACK                       # from which the frame's end is counted
    distance: int = 0
    saved: dict[int, int] = field(default_factory=dict)     # where registers are kept, from the frame's end on

    def take(self, operation: int, given: list[int]) -> None:
        """Takes in an instruction of DWARF's."""
        if operation == FRAME_IS:
            self.register, self.distance = given
        elif operation == FRAME_BY:
            self.register = given[0]
        elif operation == FRAME_AT:
            self.distance = given[0]
        elif operation & PRIMARY == SAVED:
            self.saved[given[0]] = UNIT * given[1]


@dataclass
class Frame:
    """A frame that is live: where it is, and the call that left it."""
    pc: int
    registers: dict[int, int]


@dataclass
class Named:
    """A variable of a function: where it lies, from a register on."""
    function: str
    name: str
    register: int
    distance: int
    length: int


def signed_number(data: list[int]) -> int | None:
    """A number as SLEB128, where nothing stands behind it."""
    value, shift = 0, 0
    for place, byte in enumerate(data):
        value |= (byte & 0x7F) << shift
        shift += 7
        if not byte & 0x80:
            return (value - (1 << shift) if byte & 0x40 else value) if place == len(data) - 1 else None
    return None


def named_by(die: Any) -> str:
    """The name of a DIE, or of that which it is one of."""
    while "DW_AT_name" not in die.attributes:
        found = next((one for one in ("DW_AT_abstract_origin", "DW_AT_specification") if one in die.attributes), None)
        if found is None:
            return "?"
        die = die.get_DIE_from_attribute(found)
    return word(die.attributes["DW_AT_name"].value)


def bounds(die: Any) -> range:
    """The instructions of a function, where they are in one piece."""
    low, high = (die.attributes.get(name) for name in ("DW_AT_low_pc", "DW_AT_high_pc"))
    if low is None or high is None:
        return range(0)
    return range(low.value, high.value if high.form == "DW_FORM_addr" else low.value + high.value)


@dataclass
class Frames:
    """What DWARF tells of a program's frames."""
    program: Linked
    rules: dict[int, Rule | None] = field(default_factory=dict)

    @cached_property
    def dwarf(self) -> Any:
        with self.program.path.open("rb") as file, reading(self.program.path, "what it tells of frames"):
            return ELFFile(file).get_dwarf_info(relocate_dwarf_sections=False, follow_links=False)

    @cached_property
    def tables(self) -> list[tuple[range, Any]]:
        """The tables of frames, by the instructions of their functions."""
        entries = self.dwarf.CFI_entries() if self.dwarf.has_CFI() else []
        heads = [(one.header["initial_location"], one) for one in entries
                 if "initial_location" in getattr(one, "header", ())]
        return [(range(first, first + one.header["address_range"]), one) for first, one in heads]

    @cached_property
    def functions(self) -> list[tuple[range, Any]]:
        """The functions that have lines."""
        dies = [die for unit in self.dwarf.iter_CUs() for die in unit.get_top_DIE().iter_children()
                if die.tag == "DW_TAG_subprogram"]
        return [(inside, die) for die in dies if (inside := bounds(die))]

    def rule_at(self, pc: int) -> Rule | None:
        """How the frame is found at an instruction, or None where nothing tells it."""
        inside, table = next(((inside, one) for inside, one in self.tables if pc in inside), (range(0), None))
        rule, place = Rule(), inside.start
        for one in table.instructions if table else ():
            place += one.args[0] if one.opcode & PRIMARY == ADVANCE or one.opcode in ADVANCES else 0
            if place > pc:
                break
            rule.take(one.opcode, one.args)
        return rule if table and rule.register in (STACK, FRAME) else None

    def live(self, memory: bytes, registers: list[int]) -> Iterator[Frame]:
        """The frames below which a function was entered, innermost first."""
        now = {number: registers[number] for number in (RETURN, STACK, FRAME)}
        for _ in range(MOST_FRAMES):
            frame = Frame(now[RETURN] - 4, dict(now))
            rule = self.rule_at(frame.pc)
            if rule is None:
                return
            yield frame
            end = now[rule.register] + rule.distance
            if RETURN not in rule.saved:
                return
            now |= {number: int.from_bytes(memory[end + at:end + at + 4], "little") for number, at in rule.saved.items()
                    if number in now}
            now[STACK] = end

    def variables(self, die: Any, function: str, base: int) -> Iterator[Named]:
        """The variables of a function that lie in its frame, with those of functions that became part of it."""
        for one in die.iter_children():
            if one.tag == "DW_TAG_variable":
                place = one.attributes.get("DW_AT_location")
                found = placed(place.value, base) if place is not None and place.form == "DW_FORM_exprloc" else None
                if found:
                    kind = (one if "DW_AT_type" in one.attributes
                            else one.get_DIE_from_attribute("DW_AT_abstract_origin"))
                    length = kind.get_DIE_from_attribute("DW_AT_type").attributes.get("DW_AT_byte_size")
                    yield Named(function, named_by(one), *found, length.value if length else 0)
            elif one.tag in ("DW_TAG_lexical_block", "DW_TAG_inlined_subroutine"):
                yield from self.variables(one, named_by(one) if one.tag == "DW_TAG_inlined_subroutine" else function,
                                          base)

    def arrays(self, function: str, memory: bytes, registers: list[int]) -> list[Array]:
        """The arrays of the live frames. Those of one function have their names alone, those of the others the
        function's too; one that is there again has a number."""
        found: dict[int, Array] = {}
        taken: dict[str, int] = {}
        for frame in self.live(memory, registers):
            die = next((die for inside, die in self.functions if frame.pc in inside), None)
            base = die.attributes.get("DW_AT_frame_base") if die else None
            for one in self.variables(die, named_by(die), base.value[0] - REGISTER) if base else ():
                name = one.name if one.function == function.rpartition("::")[2] else f"{one.function}:{one.name}"
                taken[name] = taken.get(name, 0) + 1
                address = frame.registers.get(one.register, 0) + one.distance
                found.setdefault(address, Array(address, name if taken[name] == 1 else f"{name}.{taken[name]}",
                                                one.length))
        return sorted(found.values())


def placed(expression: list[int], base: int) -> tuple[int, int] | None:
    """The register and the distance by which a variable is placed, or None where it is placed in another way."""
    operation, distance = expression[0] if expression else 0, signed_number(expression[1:])
    register = base if operation == FRAME_BASE else operation - REGISTER_AND
    return (register, distance) if register in (STACK, FRAME) and distance is not None else None
