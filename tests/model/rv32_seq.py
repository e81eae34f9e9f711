#!/usr/bin/env python3
"""Reference model of `trace_cli seq`, independent of the proved program.

Usage: rv32_seq.py seq < IMAGE

Reads an image text, runs its epochs in order and prints the report. Standard
output, standard error and the exit status are those of `trace_cli seq`:

  0  every epoch ended, or one exited       report on standard output
  1  an epoch faulted                       report on standard output
  2  the words or the image were refused    one line on standard error
  3  the report could not be written        one line on standard error

The instruction table follows the RISC-V Unprivileged ISA manual, chapter
"RV32I Base Integer Instruction Set". It is kept as pairs of mask and match
over whole words, so that it shares no structure with the program under test.
It is written to be read; it is slow.
"""

import os
import sys
from collections.abc import Callable
from dataclasses import dataclass
from typing import Protocol, TypeVar

MASK32 = 0xFFFFFFFF
END = 0xFFFFFFFC
MAX_TEXT = 1_048_576
LINE_BYTES = 16
# Standard output, standard error and the exit status
Outcome = tuple[str, str, int]
Thing = TypeVar("Thing")


# --- Instructions ----------------------------------------------------------

OPCODE = 0x0000007F
FUNCT3 = 0x0000707F
FUNCT7 = 0xFE00707F
WHOLE = 0xFFFFFFFF

# (name, format, mask, match): a word is the instruction where word & mask == match.
TABLE: list[tuple[str, str, int, int]] = [
    ("lui", "U", OPCODE, 0x00000037),
    ("auipc", "U", OPCODE, 0x00000017),
    ("jal", "J", OPCODE, 0x0000006F),
    ("jalr", "I", FUNCT3, 0x00000067),
    ("beq", "B", FUNCT3, 0x00000063),
    ("bne", "B", FUNCT3, 0x00001063),
    ("blt", "B", FUNCT3, 0x00004063),
    ("bge", "B", FUNCT3, 0x00005063),
    ("bltu", "B", FUNCT3, 0x00006063),
    ("bgeu", "B", FUNCT3, 0x00007063),
    ("lb", "I", FUNCT3, 0x00000003),
    ("lh", "I", FUNCT3, 0x00001003),
    ("lw", "I", FUNCT3, 0x00002003),
    ("lbu", "I", FUNCT3, 0x00004003),
    ("lhu", "I", FUNCT3, 0x00005003),
    ("sb", "S", FUNCT3, 0x00000023),
    ("sh", "S", FUNCT3, 0x00001023),
    ("sw", "S", FUNCT3, 0x00002023),
    ("addi", "I", FUNCT3, 0x00000013),
    ("slti", "I", FUNCT3, 0x00002013),
    ("sltiu", "I", FUNCT3, 0x00003013),
    ("xori", "I", FUNCT3, 0x00004013),
    ("ori", "I", FUNCT3, 0x00006013),
    ("andi", "I", FUNCT3, 0x00007013),
    ("slli", "shift", FUNCT7, 0x00001013),
    ("srli", "shift", FUNCT7, 0x00005013),
    ("srai", "shift", FUNCT7, 0x40005013),
    ("add", "R", FUNCT7, 0x00000033),
    ("sub", "R", FUNCT7, 0x40000033),
    ("sll", "R", FUNCT7, 0x00001033),
    ("slt", "R", FUNCT7, 0x00002033),
    ("sltu", "R", FUNCT7, 0x00003033),
    ("xor", "R", FUNCT7, 0x00004033),
    ("srl", "R", FUNCT7, 0x00005033),
    ("sra", "R", FUNCT7, 0x40005033),
    ("or", "R", FUNCT7, 0x00006033),
    ("and", "R", FUNCT7, 0x00007033),
    ("fence", "none", FUNCT3, 0x0000000F),
    ("ecall", "none", WHOLE, 0x00000073),
    ("ebreak", "none", WHOLE, 0x00100073),
]

ILLEGAL_WORD = 1
SYSTEM_INSTRUCTION = 2
FETCH_OUTSIDE_CODE = 3
MISALIGNED_TARGET = 4
MISALIGNED_DATA = 5
LOAD_OUTSIDE = 6
STORE_OUTSIDE = 7
INSTRUCTION_LIMIT = 8


def signed(value: int, bits: int = 32) -> int:
    """The number that the low `bits` bits of `value` are in two's complement."""
    value &= (1 << bits) - 1
    return value - (1 << bits) if value >> (bits - 1) else value


def field(word: int, high: int, low: int) -> int:
    """Bits high..low of the word, as in the manual's figures."""
    return (word >> low) & ((1 << (high - low + 1)) - 1)


def immediate(form: str, word: int) -> int:
    """The immediate of a word in this format, as a signed number."""
    if form == "I":
        return signed(field(word, 31, 20), 12)
    if form == "S":
        return signed(field(word, 31, 25) << 5 | field(word, 11, 7), 12)
    if form == "B":
        return signed(field(word, 31, 31) << 12 | field(word, 7, 7) << 11
                      | field(word, 30, 25) << 5 | field(word, 11, 8) << 1, 13)
    if form == "U":
        return signed(word & 0xFFFFF000)
    if form == "J":
        return signed(field(word, 31, 31) << 20 | field(word, 19, 12) << 12
                      | field(word, 20, 20) << 11 | field(word, 30, 21) << 1, 21)
    if form == "shift":
        return field(word, 24, 20)
    return 0


class Fault(Exception):
    """An epoch stops before the instruction at `pc`, which has no effect."""

    def __init__(self, cause: int, pc: int) -> None:
        super().__init__(cause, pc)
        self.cause = cause
        self.pc = pc


class Instruction:
    """A decoded word: name, register numbers and immediate."""

    def __init__(self, name: str, form: str, word: int) -> None:
        self.name = name
        self.rd = field(word, 11, 7)
        self.rs1 = field(word, 19, 15)
        self.rs2 = field(word, 24, 20)
        self.imm = immediate(form, word)


DECODED: dict[int, Instruction | None] = {}


def decode(word: int, pc: int) -> Instruction:
    """The instruction of a word; Fault where it is refused."""
    if word not in DECODED:
        found = [(name, form) for name, form, mask, match in TABLE if word & mask == match]
        DECODED[word] = Instruction(*found[0], word) if found else None
    instruction = DECODED[word]
    if instruction is None:
        raise Fault(ILLEGAL_WORD, pc)
    if instruction.name in ("ecall", "ebreak"):
        raise Fault(SYSTEM_INSTRUCTION, pc)
    return instruction


# Result of each operation on two register values or a register value and an
# immediate, before it is cut to 32 bits.
OPERATION: dict[str, Callable[[int, int], int]] = {
    "add": lambda a, b: a + b,
    "sub": lambda a, b: a - b,
    "sll": lambda a, b: a << (b % 32),
    "slt": lambda a, b: int(signed(a) < signed(b)),
    "sltu": lambda a, b: int(a < b),
    "xor": lambda a, b: a ^ b,
    "srl": lambda a, b: a >> (b % 32),
    "sra": lambda a, b: signed(a) >> (b % 32),
    "or": lambda a, b: a | b,
    "and": lambda a, b: a & b,
}

OF_IMMEDIATE = {
    "addi": "add", "slti": "slt", "sltiu": "sltu", "xori": "xor", "ori": "or",
    "andi": "and", "slli": "sll", "srli": "srl", "srai": "sra",
}

TAKEN: dict[str, Callable[[int, int], bool]] = {
    "beq": lambda a, b: a == b,
    "bne": lambda a, b: a != b,
    "blt": lambda a, b: signed(a) < signed(b),
    "bge": lambda a, b: signed(a) >= signed(b),
    "bltu": lambda a, b: a < b,
    "bgeu": lambda a, b: a >= b,
}

# Width in bytes, and whether the loaded value is sign-extended.
LOAD = {"lb": (1, True), "lh": (2, True), "lw": (4, False), "lbu": (1, False), "lhu": (2, False)}
STORE = {"sb": 1, "sh": 2, "sw": 4}


# --- The image text --------------------------------------------------------

class Refused(Exception):
    """An image that is refused, at this line and for this reason."""

    def __init__(self, line: int, name: str) -> None:
        super().__init__(line, name)
        self.line = line
        self.name = name


@dataclass
class Image:
    """Code, data and limits of one loop."""

    version: int
    exit: bool
    size: int
    epochs: int
    limit: int
    code: int
    registers: dict[int, int]
    memory: bytearray


def number(word: bytes) -> int | None:
    """The number that a word spells, or None where it isn't spelled so."""
    if not 1 <= len(word) <= 10 or not all(c in b"0123456789" for c in word):
        return None
    if word[:1] == b"0" and word != b"0":
        return None
    return int(word)


def hexadecimal(word: bytes) -> bytes | None:
    """The bytes that a word spells, two digits each, or None."""
    if len(word) % 2 or not all(c in b"0123456789abcdefABCDEF" for c in word):
        return None
    return bytes.fromhex(word.decode("ascii"))


def word32(word: bytes) -> int | None:
    """The number of eight hexadecimal digits, or None."""
    spelled = hexadecimal(word)
    if len(word) != 8 or spelled is None:
        return None
    return int.from_bytes(spelled, "big")


ONCE = (b"version", b"size", b"epochs", b"limit", b"code")
# The least and the most bytes of memory, and what the size is a multiple of, by version.
SIZES = {1: (16, 65_536, 16), 2: (32, 1_048_576, 32)}
WORDS_IN_LINE = {b"version": 2, b"exit": 1, b"size": 2, b"epochs": 2, b"limit": 2, b"code": 2, b"reg": 3, b"at": 3}
NUMBER_IS_SECOND = (b"version", b"size", b"epochs", b"limit", b"reg")


class Reader:
    """Reads image lines one by one; each check stands in its order."""

    def __init__(self) -> None:
        self.line = 0
        # What each line says that comes once and has a number; of `code` the number of bytes.
        self.given: dict[bytes, int] = {}
        self.exit = False
        self.registers: dict[int, int] = {}
        self.memory = bytearray()

    def refuse(self, name: str, when: bool) -> None:
        if when:
            raise Refused(self.line, name)

    def needed(self, name: str, value: Thing | None) -> Thing:
        """What has to be there."""
        if value is None:
            raise Refused(self.line, name)
        return value

    def read(self, text: bytes) -> Image:
        lines = text.split(b"\n")
        if lines[-1] == b"":
            lines.pop()
        for self.line, line in enumerate(lines, 1):
            if line and not line.startswith(b"#"):
                self.read_line(line.split(b" "))
        self.line = 0
        once = (self.needed("MissingOrRepeated", self.given.get(word)) for word in ONCE)
        version, size, epochs, limit, code = once
        return Image(version, self.exit, size, epochs, limit, code, self.registers, self.memory)

    def read_line(self, words: list[bytes]) -> None:
        keyword = words[0]
        self.refuse("Line", keyword not in WORDS_IN_LINE)
        self.refuse("Line", len(words) != WORDS_IN_LINE[keyword] or b"" in words)
        value = self.needed("Line", number(words[1])) if keyword in NUMBER_IS_SECOND else 0

        self.refuse("MissingOrRepeated", keyword in self.given)
        if keyword == b"version":
            self.refuse("Range", value not in SIZES)
            self.given[keyword] = value
            return
        version = self.given.setdefault(b"version", 1)
        if keyword == b"code":
            self.refuse("MissingOrRepeated", b"size" not in self.given)
            self.read_code(words[1])
        elif keyword == b"at":
            self.refuse("MissingOrRepeated", b"size" not in self.given or b"code" not in self.given)
            self.read_at(words[1], words[2])
        elif keyword == b"reg":
            self.refuse("MissingOrRepeated", value in self.registers)
            self.read_register(value, words[2])
        elif keyword == b"exit":
            self.refuse("MissingOrRepeated", self.exit)
            self.exit = True
        elif keyword == b"size":
            least, most, multiple = SIZES[version]
            self.refuse("Range", not least <= value <= most or value % multiple != 0)
            self.given[keyword] = value
            self.memory = bytearray(value)
        elif keyword == b"epochs":
            self.refuse("Range", value > 65_535)
            self.given[keyword] = value
        else:
            self.refuse("Range", not 1 <= value <= 1_000_000)
            self.given[keyword] = value

    def read_code(self, word: bytes) -> None:
        data = self.needed("Hex", hexadecimal(word))
        self.refuse("Range", not 4 <= len(data) <= len(self.memory) or len(data) % 4 != 0)
        self.given[b"code"] = len(data)
        self.memory[:len(data)] = data

    def read_register(self, register: int, word: bytes) -> None:
        value = self.needed("Hex", word32(word))
        self.refuse("Range", register > 31 or register in (0, 1, 10))
        self.registers[register] = value

    def read_at(self, address_word: bytes, data_word: bytes) -> None:
        address = self.needed("Hex", word32(address_word))
        data = self.needed("Hex", hexadecimal(data_word))
        self.refuse("Place", address < self.given[b"code"] or address + len(data) > len(self.memory))
        self.memory[address:address + len(data)] = data


def image_of(text: bytes) -> Image:
    """The image of a text, or Refused at its first fault."""
    if len(text) > MAX_TEXT:
        raise Refused(0, "TooLong")
    return Reader().read(text)


# --- Running ---------------------------------------------------------------

class Memory(Protocol):
    """Bytes that loads and stores go to."""

    def __len__(self) -> int:
        ...

    def __getitem__(self, at: slice, /) -> bytes:
        ...

    def __setitem__(self, at: slice, data: bytes, /) -> None:
        ...


class Hart:
    """One epoch on its way: registers, pc and the instructions done."""

    def __init__(self, image: Image, epoch: int) -> None:
        self.x = [0] * 32
        for register, value in image.registers.items():
            self.x[register] = value
        self.x[1] = END
        self.x[10] = epoch
        self.pc = 0
        self.done = 0

    def write(self, register: int, value: int) -> None:
        if register != 0:
            self.x[register] = value & MASK32


def data_address(hart: Hart, ins: Instruction, width: int) -> int:
    """The address of a load or store; misaligned ones fault."""
    address = (hart.x[ins.rs1] + ins.imm) & MASK32
    if address % width != 0:
        raise Fault(MISALIGNED_DATA, hart.pc)
    return address


def load(hart: Hart, ins: Instruction, memory: Memory) -> None:
    width, extends = LOAD[ins.name]
    address = data_address(hart, ins, width)
    if address + width > len(memory):
        raise Fault(LOAD_OUTSIDE, hart.pc)
    value = int.from_bytes(memory[address:address + width], "little")
    hart.write(ins.rd, signed(value, 8 * width) if extends else value)


def store(hart: Hart, ins: Instruction, memory: Memory, code: int) -> None:
    width = STORE[ins.name]
    address = data_address(hart, ins, width)
    if address < code or address + width > len(memory):
        raise Fault(STORE_OUTSIDE, hart.pc)
    value = hart.x[ins.rs2] & ((1 << 8 * width) - 1)
    memory[address:address + width] = value.to_bytes(width, "little")


def step(hart: Hart, ins: Instruction, memory: Memory, code: int) -> None:
    """Executes one instruction, or raises Fault and changes nothing."""
    name = ins.name
    following = (hart.pc + 4) & MASK32
    target = following
    if name in ("jal", "jalr"):
        target = (hart.x[ins.rs1] + ins.imm) & ~1 if name == "jalr" else hart.pc + ins.imm
    elif name in TAKEN and TAKEN[name](hart.x[ins.rs1], hart.x[ins.rs2]):
        target = hart.pc + ins.imm
    target &= MASK32
    if target % 4 != 0:
        raise Fault(MISALIGNED_TARGET, hart.pc)

    if name in ("jal", "jalr"):
        hart.write(ins.rd, following)
    elif name in OPERATION:
        hart.write(ins.rd, OPERATION[name](hart.x[ins.rs1], hart.x[ins.rs2]))
    elif name in OF_IMMEDIATE:
        hart.write(ins.rd, OPERATION[OF_IMMEDIATE[name]](hart.x[ins.rs1], ins.imm & MASK32))
    elif name == "lui":
        hart.write(ins.rd, ins.imm)
    elif name == "auipc":
        hart.write(ins.rd, hart.pc + ins.imm)
    elif name in LOAD:
        load(hart, ins, memory)
    elif name in STORE:
        store(hart, ins, memory, code)
    hart.pc = target
    hart.done += 1


def run_epoch(image: Image, epoch: int, memory: Memory) -> bool:
    """Runs one epoch to its end, or raises Fault. True where it exits the loop."""
    hart = Hart(image, epoch)
    while hart.pc != END:
        if hart.done >= image.limit:
            raise Fault(INSTRUCTION_LIMIT, hart.pc)
        if hart.pc >= image.code:
            raise Fault(FETCH_OUTSIDE_CODE, hart.pc)
        word = int.from_bytes(image.memory[hart.pc:hart.pc + 4], "little")
        step(hart, decode(word, hart.pc), memory, image.code)
    return image.exit and hart.x[10] != 0


def run(image: Image) -> tuple[str, bytearray, int]:
    """The line that tells the end, the memory at the end, and the status."""
    memory = bytearray(image.memory)
    for epoch in range(image.epochs):
        try:
            if run_epoch(image, epoch, memory):
                return f"end exit {epoch}\n", memory, 0
        except Fault as fault:
            return f"end fault {epoch} {fault.cause} {fault.pc:08x}\n", memory, 1
    return f"end done {image.epochs}\n", memory, 0


def report_of(image: Image) -> tuple[str, int]:
    """The report of a run and its status."""
    text, memory, status = run(image)
    for address in range(0, image.size, LINE_BYTES):
        now = memory[address:address + LINE_BYTES]
        if now != image.memory[address:address + LINE_BYTES]:
            text += f"at {address:08x} {now.hex()}\n"
    return text, status


# --- The program -----------------------------------------------------------

def read_input() -> bytes:
    """All of standard input, or as much as shows that it is too long."""
    text = bytearray()
    while len(text) <= MAX_TEXT:
        part = os.read(0, 65_536)
        if not part:
            break
        text += part
    return bytes(text)


def write_all(descriptor: int, text: str) -> bool:
    """Writes a text whole; False where that fails."""
    rest = text.encode("ascii")
    try:
        while rest:
            taken = os.write(descriptor, rest)
            if taken == 0:
                return False
            rest = rest[taken:]
    except OSError:
        return False
    return True


def outcome(text: bytes) -> Outcome:
    """Standard output, standard error and status for an image text."""
    try:
        report, status = report_of(image_of(text))
    except Refused as refused:
        return "", f"image {refused.line} {refused.name}\n", 2
    return report, "", status


def main(words: list[str]) -> int:
    if words != ["seq"]:
        write_all(2, "usage\n")
        return 2
    try:
        text = read_input()
    except OSError:
        write_all(2, "image 0 Read\n")
        return 2
    report, refusal, status = outcome(text)
    write_all(2, refusal)
    if not write_all(1, report):
        write_all(2, "stopped Write\n")
        return 3
    return status


if __name__ == "__main__":
    sys.exit(main(sys.argv[1:]))
