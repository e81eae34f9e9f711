#!/usr/bin/env python3
"""Makes the instruction vectors of this directory from outside tools.

Usage: tests/vectors/make.py

The words come from the GNU assembler (riscv64-unknown-elf-as) and the results
from qemu-riscv32, which runs every case as a user program and logs pc and
registers before each instruction. Nothing of this project is run, so the
vectors are independent of it. Writes one text file per group; and `fields.txt`,
which gives the fields of words as the assembler's text has them, and again as
the rows of the decoder's tests, in the crate `machine_tests`. Needs the Debian packages
gcc-riscv64-unknown-elf and qemu-user; the files made by it are kept in the
repository, so the tests need neither.
"""

import re
import subprocess
import sys
import tempfile
from collections.abc import Callable, Iterable, Iterator, Sequence
from pathlib import Path
from typing import NamedTuple

HERE = Path(__file__).resolve().parent
DECODER_ROWS = HERE.parent.parent / "crates" / "machine_tests" / "src" / "decoding" / "rows.rt"
AS = "riscv64-unknown-elf-as"
LD = "riscv64-unknown-elf-ld"
NM = "riscv64-unknown-elf-nm"
OBJCOPY = "riscv64-unknown-elf-objcopy"
CPU = ("rv32,m=false,a=false,f=false,d=false,c=false,Zicsr=false,Zifencei=false,"
       "zba=false,zbb=false,zbc=false,zbs=false")
QEMU = ["qemu-riscv32", "-B", "0x10000000", "-cpu", CPU, "-singlestep"]

TEXT = 0x10000
DATA = 0x40
PATTERN = "00112233445566778899aabbccddeeff"
MASK32 = 0xFFFFFFFF

ZERO, ONE, MINUS_ONE = 0, 1, MASK32
LEAST, LARGEST = 0x80000000, 0x7FFFFFFF
MIXED, OTHER = 0x12345678, 0x9ABCDEF0


# A row of a file: texts as they stand there, and numbers
Row = tuple[str | int, ...]
# The text of an instruction, and what registers have before it: a number, or an address by a label
Prepared = tuple[str, list[tuple[int, str]]]


class Case(NamedTuple):
    """An instruction: its text, its name and its fields."""

    text: str
    name: str
    fields: dict[str, int]


# --- Running programs on the outside tools ---------------------------------

def tool(*words: str) -> None:
    subprocess.run(words, check=True)


class State(NamedTuple):
    """The pc and the registers before an instruction."""

    pc: int
    registers: list[int]


class Program:
    """Assembly text, assembled, linked and run; what qemu saw of each case."""

    def __init__(self, body: str) -> None:
        self.directory = tempfile.TemporaryDirectory()
        self.path = Path(self.directory.name)
        source = f""".option norelax
.section .low, "aw", @progbits
.skip {DATA}
data:
.fill 64, 1, 0
.text
.globl _start
_start:
{body}
 li a0, 0
 li a7, 93
 ecall
"""
        (self.path / "p.s").write_text(source)
        self.assemble()

    def file(self, name: str) -> str:
        return str(self.path / name)

    def assemble(self) -> None:
        tool(AS, "-march=rv32i", "-mabi=ilp32", "-mno-relax", "-o", self.file("p.o"), self.file("p.s"))
        tool(LD, "-m", "elf32lriscv", "--section-start=.low=0", f"-Ttext={TEXT:#x}",
             "-o", self.file("p.elf"), self.file("p.o"))
        tool(OBJCOPY, "-O", "binary", "-j", ".text", self.file("p.elf"), self.file("p.bin"))
        listing = subprocess.run([NM, self.file("p.elf")], check=True, capture_output=True, text=True)
        lines = [line.split() for line in listing.stdout.splitlines()]
        self.symbols = {name: int(value, 16) for value, _, name in lines}
        self.text = (self.path / "p.bin").read_bytes()

    def word(self, label: str) -> int:
        """The word that the assembler made at a label."""
        place = self.symbols[label] - TEXT
        return int.from_bytes(self.text[place:place + 4], "little")

    def run(self) -> tuple[list[State], int]:
        """The state before each instruction, and the status."""
        done = subprocess.run(QEMU + ["-d", "nochain,cpu", "-D", self.file("log"), self.file("p.elf")],
                              check=False, capture_output=True)
        states: list[State] = []
        for part in (self.path / "log").read_text().split(" pc ")[1:]:
            registers = [0] * 32
            for register, value in re.findall(r"x(\d+)/\S+\s+([0-9a-f]{8})", part):
                registers[int(register)] = int(value, 16)
            states.append(State(int(part.split()[0], 16), registers))
        return states, done.returncode

    def around(self) -> dict[int, tuple[State, State]]:
        """For each pc that was reached, the states before and after its first run."""
        states, status = self.run()
        if status != 0:
            sys.exit(f"qemu ended with {status}")
        pairs: dict[int, tuple[State, State]] = {}
        for before, after in zip(states, states[1:]):
            pairs.setdefault(before.pc, (before, after))
        return pairs


# --- Register-register and register-immediate ------------------------------

ARITHMETIC = [(ZERO, ZERO), (ONE, MINUS_ONE), (MINUS_ONE, ONE), (MINUS_ONE, MINUS_ONE),
              (LEAST, MINUS_ONE), (LEAST, LEAST), (LARGEST, ONE), (LEAST, LARGEST),
              (LARGEST, LEAST), (MIXED, OTHER)]
SHIFTS = [(MIXED, 0), (MIXED, 1), (MIXED, 31), (OTHER, 32), (OTHER, 33), (LEAST, 31),
          (LEAST, MINUS_ONE), (MINUS_ONE, 4), (LARGEST, 30), (ONE, 0xFFFFFFE0)]
REGISTER = {name: ARITHMETIC for name in ("add", "sub", "slt", "sltu", "xor", "or", "and")}
REGISTER.update({name: SHIFTS for name in ("sll", "srl", "sra")})

IMMEDIATES = [(ZERO, 0), (ZERO, -1), (ONE, -1), (MINUS_ONE, 1), (MINUS_ONE, -1), (LARGEST, 1),
              (LEAST, -1), (LEAST, -2048), (MIXED, 2047), (OTHER, -2048)]
SMALL_SHIFTS = [(MIXED, 0), (MIXED, 1), (MIXED, 31), (OTHER, 0), (OTHER, 1), (OTHER, 16),
                (LEAST, 31), (LARGEST, 30), (MINUS_ONE, 31), (ONE, 31)]
IMMEDIATE = {name: IMMEDIATES for name in ("addi", "slti", "sltiu", "xori", "ori", "andi")}
IMMEDIATE.update({name: SMALL_SHIFTS for name in ("slli", "srli", "srai")})


def alu_rows(cases: list[tuple[str, int, int]]) -> list[Row]:
    """Rows (text, word, rs1 value, rs2 value, result) of (text, rs1 value, rs2 value)."""
    body = "".join(f" li x6, {a:#x}\n li x7, {b:#x}\n li x5, 0x5a5a5a5a\nc{i}: {text}\n"
                   for i, (text, a, b) in enumerate(cases))
    program = Program(body)
    seen = program.around()
    rows: list[Row] = []
    for i, (text, a, b) in enumerate(cases):
        (pc, before), (following, after) = seen[program.symbols[f"c{i}"]]
        assert following == pc + 4 and before[6] == a and before[7] == b
        rows.append((text, program.word(f"c{i}"), a, b, after[5]))
    return rows


def upper_cases() -> Iterator[str]:
    """LUI, and AUIPC whose result is counted from its own pc."""
    for name in ("lui", "auipc"):
        for immediate in (0, 1, 0x7FFFF, 0x80000, 0xFFFFF, 0x12345):
            yield f"{name} x5,{immediate:#x}"


def upper_rows() -> list[Row]:
    cases = list(upper_cases())
    program = Program("".join(f" li x5, 0x5a5a5a5a\nc{i}: {text}\n" for i, text in enumerate(cases)))
    seen = program.around()
    rows: list[Row] = []
    for i, text in enumerate(cases):
        (pc, _), (_, after) = seen[program.symbols[f"c{i}"]]
        result = after[5] - pc if text.startswith("auipc") else after[5]
        rows.append((text, program.word(f"c{i}"), result & MASK32))
    return rows


# (text, {register: value}, register looked at)
MIXED_REGISTERS: list[tuple[str, dict[int, int], int]] = [
    ("add x0,x6,x7", {6: 5, 7: 7}, 0),
    ("addi x0,x6,1", {6: 5}, 0),
    ("lui x0,0xfffff", {}, 0),
    ("sub x6,x6,x7", {6: 5, 7: 7}, 6),
    ("sub x7,x6,x7", {6: 5, 7: 7}, 7),
    ("sub x6,x6,x6", {6: 5}, 6),
    ("add x6,x6,x6", {6: LEAST}, 6),
    ("xor x7,x7,x7", {7: MINUS_ONE}, 7),
    ("sll x6,x6,x6", {6: 33}, 6),
    ("sra x7,x6,x7", {6: LEAST, 7: 31}, 7),
    ("slt x6,x6,x7", {6: LEAST, 7: 0}, 6),
    ("sltu x7,x6,x7", {6: LEAST, 7: 0}, 7),
    ("sub x5,x0,x7", {7: ONE}, 5),
    ("sub x5,x6,x0", {6: LEAST}, 5),
    ("sltu x5,x0,x7", {7: ONE}, 5),
    ("and x5,x0,x0", {}, 5),
    ("addi x31,x30,-1", {30: 0}, 31),
    ("add x31,x30,x29", {30: MIXED, 29: OTHER}, 31),
    ("xor x2,x3,x4", {3: MIXED, 4: OTHER}, 2),
    ("or x16,x8,x24", {8: 0x00FF00FF, 24: 0x0F0F0F0F}, 16),
    ("and x15,x23,x27", {23: 0x00FF00FF, 27: 0x0F0F0F0F}, 15),
    ("srli x6,x6,31", {6: LEAST}, 6),
    ("srai x6,x6,31", {6: LEAST}, 6),
    ("slli x6,x6,31", {6: 3}, 6),
    ("sltiu x6,x6,-1", {6: MINUS_ONE}, 6),
    ("addi x6,x6,-2048", {6: 0}, 6),
]


def register_rows() -> list[Row]:
    """Rows (text, word, first register, value, second register, value, target, result)."""
    body = ""
    for i, (text, values, target) in enumerate(MIXED_REGISTERS):
        if target not in values and target != 0:
            body += f" li x{target}, 0x5a5a5a5a\n"
        body += "".join(f" li x{register}, {value:#x}\n" for register, value in values.items())
        body += f"c{i}: {text}\n"
    program = Program(body)
    seen = program.around()
    rows: list[Row] = []
    for i, (text, values, target) in enumerate(MIXED_REGISTERS):
        _, (_, after) = seen[program.symbols[f"c{i}"]]
        (first, a), (second, b) = (list(values.items()) + [(6, 0), (7, 0)] if not values
                                   else list(values.items()) + [(5 if target != 5 else 9, 0)])[:2]
        rows.append((text, program.word(f"c{i}"), first, a, second, b, target, after[target]))
    return rows


# --- Loads and stores ------------------------------------------------------

LOADS = {
    "lb": [0, 1, 2, 3, 7, 8, 15], "lbu": [0, 1, 2, 3, 7, 8, 15],
    "lh": [0, 2, 6, 8, 14], "lhu": [0, 2, 6, 8, 14], "lw": [0, 4, 8, 12],
}
STORES = {"sb": [0, 1, 2, 3, 7, 15], "sh": [0, 2, 6, 14], "sw": [0, 4, 12]}
STORED = [0x89ABCDEF, 0x7654FE01]


def addressed(offset: int, place: int) -> tuple[int, int]:
    """(base, immediate) that meet at DATA + offset, by turns in three ways."""
    address = DATA + offset
    return [(address, 0), (address - 2047, 2047), (address + 2048, -2048), (address + 1, -1)][place % 4]


def fill_pattern() -> str:
    """Writes PATTERN at DATA, by words, with x28 as scratch."""
    words = [int.from_bytes(bytes.fromhex(PATTERN[i:i + 8]), "little") for i in range(0, 32, 8)]
    return "".join(f" li x28, {word:#x}\n sw x28, {DATA + 4 * i}(x0)\n" for i, word in enumerate(words))


def load_rows() -> list[Row]:
    """Rows (text, word, base in x6, result in x5); memory at DATA is PATTERN."""
    cases = [(name, *addressed(offset, i)) for name, offsets in LOADS.items()
             for i, offset in enumerate(offsets)]
    body = fill_pattern()
    for i, (name, base, immediate) in enumerate(cases):
        body += f" li x6, {base & MASK32:#x}\n li x5, 0x5a5a5a5a\nc{i}: {name} x5,{immediate}(x6)\n"
    program = Program(body)
    seen = program.around()
    return [(f"{name} x5,{immediate}(x6)", program.word(f"c{i}"), base & MASK32,
             seen[program.symbols[f"c{i}"]][1].registers[5])
            for i, (name, base, immediate) in enumerate(cases)]


def store_rows() -> list[Row]:
    """Rows (text, word, base in x6, value of x7, the 16 bytes at DATA afterwards)."""
    cases = [(name, *addressed(offset, i), STORED[i % 2]) for name, offsets in STORES.items()
             for i, offset in enumerate(offsets)]
    body = ""
    for i, (name, base, immediate, value) in enumerate(cases):
        body += fill_pattern() + f" li x6, {base & MASK32:#x}\n li x7, {value:#x}\n"
        body += f"c{i}: {name} x7,{immediate}(x6)\n"
        body += "".join(f" lw x{20 + k}, {DATA + 4 * k}(x0)\n" for k in range(4)) + f"r{i}: nop\n"
    program = Program(body)
    seen = program.around()
    rows: list[Row] = []
    for i, (name, base, immediate, value) in enumerate(cases):
        (_, registers), _ = seen[program.symbols[f"r{i}"]]
        data = b"".join(registers[20 + k].to_bytes(4, "little") for k in range(4)).hex()
        rows.append((f"{name} x7,{immediate}(x6)", program.word(f"c{i}"), base & MASK32, value, data))
    return rows


# --- Branches and jumps ----------------------------------------------------

COMPARED = [(ZERO, ZERO), (ZERO, ONE), (ONE, ZERO), (ONE, MINUS_ONE), (MINUS_ONE, ONE),
            (MINUS_ONE, MINUS_ONE), (LEAST, LARGEST), (LARGEST, LEAST), (LEAST, LEAST),
            (MIXED, OTHER)]
OFFSETS = [8, -8, 4094 - 2, -4096, 16, -4, 2048, -2048, 4, 1024]
BRANCHES = ("beq", "bne", "blt", "bge", "bltu", "bgeu")


def branch_program(cases: list[Prepared]) -> Program:
    """Each case in the middle of words that lead on to the next case."""
    body = ""
    for i, (text, values) in enumerate(cases):
        body += "".join(f" li x{register}, {value}\n" for register, value in values)
        body += f" jal x0, c{i}\n .balign 16\n"
        body += f" .rept 1030\n jal x0, n{i}\n .endr\n"
        body += f"c{i}: {text}\n"
        body += f" .rept 1030\n jal x0, n{i}\n .endr\n"
        body += f"n{i}: nop\n"
    return Program(body)


def branch_rows() -> list[Row]:
    """Rows (text, word, x6, x7, offset of the next pc)."""
    cases = []
    for name in BRANCHES:
        for (a, b), offset in zip(COMPARED, OFFSETS):
            cases.append((f"{name} x6,x7,.{offset:+}", [(6, hex(a)), (7, hex(b))], a, b))
    program = branch_program([(text, values) for text, values, _, _ in cases])
    seen = program.around()
    rows: list[Row] = []
    for i, (text, _, a, b) in enumerate(cases):
        (pc, _), (following, _) = seen[program.symbols[f"c{i}"]]
        rows.append((text, program.word(f"c{i}"), a, b, (following - pc) & MASK32))
    return rows


JALS = [("x5", 4), ("x5", 8), ("x5", -8), ("x5", -16), ("x5", 2048), ("x5", -2048), ("x0", 12), ("x31", 4092)]


def jal_rows() -> list[Row]:
    """Rows (text, word, link counted from the own pc, offset of the next pc)."""
    cases = [(f"jal {target},.{offset:+}", [(int(target[1:]), "0x5a5a5a5a")]) for target, offset in JALS]
    program = branch_program(cases)
    seen = program.around()
    rows: list[Row] = []
    for i, (text, ((register, _),)) in enumerate(cases):
        (pc, _), (following, after) = seen[program.symbols[f"c{i}"]]
        link = (after[register] - pc) & MASK32 if register else after[0]
        rows.append((text, program.word(f"c{i}"), link, (following - pc) & MASK32))
    return rows


# (target, source, immediate, where the sum of source and immediate lies, counted from the own pc)
JALRS = [("x5", "x6", 0, 16), ("x5", "x6", 0, 17), ("x5", "x6", 1, 32), ("x5", "x6", 1, 33),
         ("x5", "x6", -1, 64), ("x5", "x6", -4, -16), ("x5", "x6", 2047, 128), ("x5", "x6", -2048, -128),
         ("x0", "x6", 0, 20), ("x5", "x5", 0, 24), ("x6", "x6", -8, 9), ("x31", "x30", 8, 2048)]


def jalr_rows() -> list[Row]:
    """Rows (text, word, source minus pc, link minus pc, next pc minus pc)."""
    cases = []
    for i, (target, source, immediate, place) in enumerate(JALRS):
        values = [] if target in ("x0", source) else [(int(target[1:]), "0x5a5a5a5a")]
        cases.append((f"jalr {target},{immediate}({source})",
                      values + [(int(source[1:]), f"c{i}+{place - immediate}")]))
    program = Program(jalr_body(cases))
    seen = program.around()
    rows: list[Row] = []
    for i, (text, values) in enumerate(cases):
        base, linked = values[-1][0], int(JALRS[i][0][1:])
        (pc, before), (following, after) = seen[program.symbols[f"c{i}"]]
        link = (after[linked] - pc) & MASK32 if linked else after[0]
        rows.append((text, program.word(f"c{i}"), (before[base] - pc) & MASK32, link,
                     (following - pc) & MASK32))
    return rows


def jalr_body(cases: list[Prepared]) -> str:
    body = ""
    for i, (text, values) in enumerate(cases):
        for register, value in values:
            body += f" la x{register}, {value}\n" if value.startswith("c") else f" li x{register}, {value}\n"
        body += f" jal x0, c{i}\n .balign 16\n .rept 600\n jal x0, n{i}\n .endr\n"
        body += f"c{i}: {text}\n .rept 600\n jal x0, n{i}\n .endr\nn{i}: nop\n"
    return body


# --- Words that go nowhere or are refused ----------------------------------

FENCES = ["fence", "fence r,w", "fence rw,rw", "fence.tso", ".word 0x0000000f", ".word 0xffff8f8f",
          ".word 0x0100000f"]

# (text for the assembler with the extensions it needs, remark)
NEAR_MISSES = [
    (".word 0x00000000", "all zeros"),
    (".word 0xffffffff", "all ones"),
    ("c.nop", "compressed, twice in one word"),
    ("c.li a0,1", "compressed, twice in one word"),
    ("c.jr ra", "compressed, twice in one word"),
    ("c.addi a0,1", "compressed, twice in one word"),
    ("mul x5,x6,x7", "M"),
    ("mulh x5,x6,x7", "M"),
    ("mulhsu x5,x6,x7", "M"),
    ("mulhu x5,x6,x7", "M"),
    ("div x5,x6,x7", "M"),
    ("divu x5,x6,x7", "M"),
    ("rem x5,x6,x7", "M"),
    ("remu x5,x6,x7", "M"),
    ("lr.w x5,(x6)", "A"),
    ("sc.w x5,x7,(x6)", "A"),
    ("amoadd.w x5,x7,(x6)", "A"),
    ("amoswap.w.aqrl x5,x7,(x6)", "A"),
    ("flw f5,0(x6)", "F"),
    ("fsw f5,0(x6)", "F"),
    ("fadd.s f5,f6,f7", "F"),
    ("fmadd.s f5,f6,f7,f8", "F"),
    ("fld f5,0(x6)", "D"),
    ("csrrw x5,mstatus,x6", "Zicsr"),
    ("csrrs x5,cycle,x0", "Zicsr"),
    ("csrrwi x5,mstatus,1", "Zicsr"),
    ("csrrci x5,mstatus,1", "Zicsr"),
    ("fence.i", "Zifencei"),
    ("mret", "privileged"),
    ("sret", "privileged"),
    ("wfi", "privileged"),
    ("sfence.vma x0,x0", "privileged"),
    (".word 0x001000f3", "EBREAK with a target register"),
    (".word 0x000000f3", "ECALL with a target register"),
    (".word 0x00008073", "ECALL with a source register"),
    (".word 0x00200073", "SYSTEM with funct12 2"),
    (".word 0x00004073", "SYSTEM with funct3 4"),
    (".word 0x000312e7", "JALR with funct3 1"),
    (".word 0x000372e7", "JALR with funct3 7"),
    (".word 0x00732063", "branch with funct3 2"),
    (".word 0x00733063", "branch with funct3 3"),
    (".word 0x00033283", "load with funct3 3 (LD)"),
    (".word 0x00036283", "load with funct3 6 (LWU)"),
    (".word 0x00037283", "load with funct3 7"),
    (".word 0x00733023", "store with funct3 3 (SD)"),
    (".word 0x00734023", "store with funct3 4"),
    (".word 0x00737023", "store with funct3 7"),
    (".word 0x02031293", "SLLI by 32 as in RV64"),
    (".word 0x40131293", "SLLI with the funct7 of SRAI"),
    (".word 0x80131293", "SLLI with funct7 64"),
    (".word 0x02035293", "SRLI by 32 as in RV64"),
    (".word 0x42035293", "SRAI by 32 as in RV64"),
    (".word 0x60035293", "SRLI with funct7 48"),
    (".word 0xc0135293", "SRAI with bit 31 set"),
    (".word 0x407312b3", "SLL with the funct7 of SUB"),
    (".word 0x407322b3", "SLT with the funct7 of SUB"),
    (".word 0x407332b3", "SLTU with the funct7 of SUB"),
    (".word 0x407342b3", "XOR with the funct7 of SUB"),
    (".word 0x407362b3", "OR with the funct7 of SUB"),
    (".word 0x407372b3", "AND with the funct7 of SUB"),
    (".word 0x047302b3", "ADD with funct7 2"),
    (".word 0x207302b3", "ADD with funct7 16"),
    (".word 0x807302b3", "ADD with funct7 64"),
    (".word 0xfe7302b3", "ADD with funct7 127"),
    (".word 0xc07352b3", "SRA with bit 31 set"),
    (".word 0x0ff0100f", "FENCE with funct3 1"),
    (".word 0x0ff0200f", "FENCE with funct3 2"),
    (".word 0x0ff0700f", "FENCE with funct3 7"),
    (".word 0x0000001b", "OP-IMM-32 (ADDIW)"),
    (".word 0x0000003b", "OP-32 (ADDW)"),
    (".word 0x0000000b", "custom-0"),
    (".word 0x00000057", "OP-V"),
    (".word 0x007302b0", "ADD with the lowest bits 00"),
    (".word 0x007302b1", "ADD with the lowest bits 01"),
    (".word 0x007302b2", "ADD with the lowest bits 10"),
    (".word 0x000002b4", "LUI with bit 0 cleared"),
    (".word 0x0000003f", "48-bit prefix"),
]


def fence_rows() -> list[Row]:
    """Rows (text, word); qemu goes to the next word and changes no register."""
    program = Program("".join(f"c{i}: {text}\n" for i, text in enumerate(FENCES)))
    seen = program.around()
    rows: list[Row] = []
    for i, text in enumerate(FENCES):
        (pc, before), (following, after) = seen[program.symbols[f"c{i}"]]
        assert following == pc + 4 and before == after
        rows.append((text, program.word(f"c{i}")))
    return rows


def refused_words() -> list[tuple[str, int, str]]:
    """Rows (text, word, remark) of words outside the table."""
    rows: list[tuple[str, int, str]] = []
    with tempfile.TemporaryDirectory() as directory:
        for text, remark in NEAR_MISSES:
            source, target = Path(directory, "w.s"), Path(directory, "w.o")
            twice = f"{text}\n{text}\n" if text.startswith("c.") else f"{text}\n"
            compressed = "c" if text.startswith("c.") else ""
            source.write_text(f".option norvc\n{twice}" if not compressed else f".option rvc\n{twice}")
            tool(AS, f"-march=rv32imafd{compressed}_zicsr_zifencei", "-mabi=ilp32", "-o", str(target), str(source))
            tool(OBJCOPY, "-O", "binary", "-j", ".text", str(target), str(Path(directory, "w.bin")))
            data = Path(directory, "w.bin").read_bytes()[:4]
            word = int.from_bytes(data, "little")
            rows.append((text, word, remark))
    return rows


def refused_by_qemu(word: int) -> bool:
    """Whether qemu stops with an illegal instruction at this word."""
    program = Program(f"c0: .word {word:#010x}\n.word 0\n")
    states, status = program.run()
    return status == -4 and states[-1].pc == program.symbols["c0"]


# --- Words and their fields ------------------------------------------------

REGISTER_TRIPLES = [(5, 6, 7), (31, 0, 16), (8, 31, 1), (0, 15, 31)]
SMALL = [(5, 6, 0), (31, 16, 2047), (1, 31, -2048), (0, 8, -1)]
SPLIT = [(6, 7, 31), (31, 16, 32), (1, 31, -2048), (16, 8, 2047), (0, 15, -1)]
FAR = [(6, 7, 4094), (31, 16, -4096), (1, 31, 2048), (16, 8, 30), (0, 15, -2)]
FARTHER = [(0, 1048574), (1, -1048576), (31, 2048), (5, -2), (16, 4096), (8, 2046)]
UPPER = [(5, 0x80000), (31, 0x7FFFF), (0, 1), (16, 0xFFFFF)]


def fields_of_registers() -> Iterator[Case]:
    for name in REGISTER:
        for rd, rs1, rs2 in REGISTER_TRIPLES:
            yield Case(f"{name} x{rd},x{rs1},x{rs2}", name, {"rd": rd, "rs1": rs1, "rs2": rs2})


def fields_of_immediates() -> Iterator[Case]:
    for name in IMMEDIATE:
        shifts = name in ("slli", "srli", "srai")
        for (rd, rs1, imm), amount in zip(SMALL, (0, 31, 16, 1)):
            value = {"amount": amount} if shifts else {"imm": imm & MASK32}
            yield Case(f"{name} x{rd},x{rs1},{amount if shifts else imm}", name, {"rd": rd, "rs1": rs1, **value})


def fields_of_memory() -> Iterator[Case]:
    for name in LOADS:
        for rd, rs1, imm in SMALL:
            yield Case(f"{name} x{rd},{imm}(x{rs1})", name, {"rd": rd, "rs1": rs1, "imm": imm & MASK32})
    for name in STORES:
        for rs1, rs2, imm in SPLIT:
            yield Case(f"{name} x{rs2},{imm}(x{rs1})", name, {"rs1": rs1, "rs2": rs2, "imm": imm & MASK32})


def fields_of_jumps() -> Iterator[Case]:
    for name in BRANCHES:
        for rs1, rs2, offset in FAR:
            yield Case(f"{name} x{rs1},x{rs2},.{offset:+}", name, {"rs1": rs1, "rs2": rs2, "offset": offset & MASK32})
    for rd, offset in FARTHER:
        yield Case(f"jal x{rd},.{offset:+}", "jal", {"rd": rd, "offset": offset & MASK32})
    for rd, rs1, imm in SMALL:
        yield Case(f"jalr x{rd},{imm}(x{rs1})", "jalr", {"rd": rd, "rs1": rs1, "imm": imm & MASK32})
    for name in ("lui", "auipc"):
        for rd, imm in UPPER:
            yield Case(f"{name} x{rd},{imm:#x}", name, {"rd": rd, "imm": imm << 12})


def word_alone(text: str) -> int:
    """The word of one instruction, assembled by itself."""
    with tempfile.TemporaryDirectory() as directory:
        source, made, raw = (Path(directory, name) for name in ("w.s", "w.o", "w.bin"))
        source.write_text(f".option norelax\n.skip 0x200000\n{text}\n.skip 0x200000\n")
        tool(AS, "-march=rv32i", "-mabi=ilp32", "-mno-relax", "-o", str(made), str(source))
        tool(OBJCOPY, "-O", "binary", "-j", ".text", str(made), str(raw))
        return int.from_bytes(raw.read_bytes()[0x200000:0x200004], "little")


def field_rows(cases: Iterable[Case]) -> list[tuple[int, Case]]:
    """The words of these."""
    return [(word_alone(case.text), case) for case in cases]


FIELD_GROUPS: dict[str, Callable[[], Iterator[Case]]] = {
    "registers": fields_of_registers, "immediates": fields_of_immediates,
    "loads_and_stores": fields_of_memory, "jumps_and_upper_immediates": fields_of_jumps,
}


def decoder_rows(name: str, table: list[tuple[int, Case]]) -> str:
    """A table as source: a line of a word, the instruction's name, and its fields in order."""
    rows = "".join(f"{word:08x} {case.name} " + " ".join(f"{value:x}" for value in case.fields.values()) + "\n"
                   for word, case in table)
    return f'pub const {name.upper()}: &str = "\n{rows}";\n'


def write_fields() -> None:
    """`fields.txt`, and the rows of the decoder's tests."""
    lines = ["# Words and their fields: text, word, name, fields."]
    rust = ["//! Words and their fields in hexadecimal, made by `tests/vectors/make.py`: the word, the instruction's "
            "name, and its fields in\n"
            "//! order.\n"]
    for name, cases in FIELD_GROUPS.items():
        table = field_rows(cases())
        lines += [f"{case.text} | {word:08x} | {case.name} | "
                  + " ".join(f"{key}={value:x}" for key, value in case.fields.items()) for word, case in table]
        rust.append(decoder_rows(name, table))
    (HERE / "fields.txt").write_text("\n".join(lines) + "\n")
    DECODER_ROWS.write_text("\n".join(rust))
    print(f"{'fields':10} {len(lines) - 1:4} rows")


# --- Writing ---------------------------------------------------------------

def spelled(value: str | int) -> str:
    return value if isinstance(value, str) else f"{value:08x}"


def write_text(name: str, heading: str, rows: Sequence[Row]) -> None:
    lines = [f"# {line}" for line in heading.splitlines()]
    lines += [" | ".join(spelled(value) for value in row) for row in rows]
    (HERE / f"{name}.txt").write_text("\n".join(lines) + "\n")


def main() -> int:
    register = alu_rows([(f"{name} x5,x6,x7", a, b) for name, pairs in REGISTER.items() for a, b in pairs])
    immediate = alu_rows([(f"{name} x5,x6,{i}", a, 0) for name, pairs in IMMEDIATE.items() for a, i in pairs])
    illegal = refused_words()
    tables: list[tuple[str, str, Sequence[Row]]] = [
        ("register", "Register-register instructions: text, word, x6, x7, result in x5.", register),
        ("immediate", "Register-immediate instructions: text, word, x6, x7 (not read), result in x5.", immediate),
        ("upper", "LUI and AUIPC: text, word, result in x5; AUIPC's as if it stood at pc 0.", upper_rows()),
        ("registers", "Other registers: text, word, a register and its value, another and its value,\n"
         "the register looked at and its value afterwards.", register_rows()),
        ("load", f"Loads: text, word, base in x6, result in x5. The 16 bytes at {DATA:#x} are\n{PATTERN}.",
         load_rows()),
        ("store", f"Stores: text, word, base in x6, value in x7, the 16 bytes at {DATA:#x} afterwards,\n"
         f"which before are {PATTERN}.", store_rows()),
        ("branch", "Branches: text, word, x6, x7, next pc minus own pc.", branch_rows()),
        ("jal", "JAL: text, word, link minus own pc (0 where the target is x0), next pc minus own pc.", jal_rows()),
        ("jalr", "JALR: text, word, source minus own pc, link minus own pc (0 where the target is\n"
         "x0), next pc minus own pc.", jalr_rows()),
        ("fence", "FENCE: text, word. Nothing changes but the pc.", fence_rows()),
        ("system", "ECALL and EBREAK: text, word.",
         [("ecall", word_of("ecall")), ("ebreak", word_of("ebreak"))]),
        ("illegal", "Words outside the table: text, word, remark.", illegal),
    ]
    for name, heading, rows in tables:
        write_text(name, heading, rows)
        print(f"{name:10} {len(rows):4} rows")
    write_fields()
    accepted = [(text, f"{word:08x}") for text, word, _ in illegal if not refused_by_qemu(word)]
    print("outside the table, but taken by qemu:", accepted)
    return 0


def word_of(text: str) -> int:
    return Program(f" jal x0, over\nc0: {text}\nover: nop\n").word("c0")


if __name__ == "__main__":
    sys.exit(main())
