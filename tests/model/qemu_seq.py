#!/usr/bin/env python3
"""Prints the report that qemu-riscv32 gives for an image whose epochs all end.

Usage: tests/model/qemu_seq.py IMAGE ..

An outside check of the reference model and of the reports in `examples/`: the
image's memory is put at address 0 of a user program, and a small driver runs
one epoch after the other, natively for qemu. A jump to 0xFFFFFFFC, where
nothing is mapped, ends an epoch by the signal that it raises. Limits, and the
checks on loads and stores, are not made; an image whose epochs fault can't be
run so. Needs the Debian packages qemu-user and gcc-riscv64-unknown-elf.
"""

import struct
import subprocess
import sys
import tempfile
from pathlib import Path

import rv32_seq
from rv32_seq import Image

DRIVER_AT = 0x100000
CPU = ("rv32,m=false,a=false,f=false,d=false,c=false,Zicsr=false,Zifencei=false,"
       "zba=false,zbb=false,zbc=false,zbs=false")
QEMU = ["qemu-riscv32", "-B", "0x10000000", "-cpu", CPU]

DRIVER = """
.option norelax
.equ SIGSEGV, 11
.equ ONSTACK_SIGINFO_NODEFER, 0x08000000 + 4 + 0x40000000
.globl _start
_start:
 li a7, 132
 la a0, alternate
 li a1, 0
 ecall
 li a7, 134
 li a0, SIGSEGV
 la a1, action
 li a2, 0
 li a3, 8
 ecall
next:
 la x5, epoch
 lw x6, 0(x5)
 la x7, epochs
 lw x7, 0(x7)
 beq x6, x7, all
 addi x7, x6, 1
 sw x7, 0(x5)
 la x31, registers
 sw x6, 40(x31)
{loads}
 lw x31, 124(x31)
 jalr x0, 0(x0)
handler:
 lw a1, 12(a1)
 li a2, 0xfffffffc
 beq a1, a2, next
 li a0, 9
 j exit
all:
 li a7, 64
 li a0, 1
 li a1, 0
 la a2, size
 lw a2, 0(a2)
 ecall
 li a0, 0
exit:
 li a7, 93
 ecall
 .balign 16
alternate: .word stack, 0, 65536
action: .word handler, ONSTACK_SIGINFO_NODEFER, 0, 0
epoch: .word 0
 .balign 16
epochs: .word 0
size: .word 0
registers: .fill 32, 4, 0
 .balign 16
stack: .fill 65536, 1, 0
"""


def built_driver(directory: str) -> tuple[bytes, int]:
    """The driver's bytes and the place of its parameters in them."""
    source, made = Path(directory, "d.s"), Path(directory, "d.o")
    linked, raw = Path(directory, "d.elf"), Path(directory, "d.bin")
    loads = "\n".join(f" lw x{i}, {4 * i}(x31)" for i in range(1, 31))
    source.write_text(DRIVER.replace("{loads}", loads))
    calls: dict[str, list[str | Path]] = {
        "as": ["-march=rv32i", "-mabi=ilp32", "-o", made, source],
        "ld": ["-m", "elf32lriscv", f"-Ttext={DRIVER_AT:#x}", "-o", linked, made],
        "objcopy": ["-O", "binary", "-j", ".text", linked, raw],
    }
    for tool, words in calls.items():
        subprocess.run([f"riscv64-unknown-elf-{tool}", *words], check=True)
    names = subprocess.run(["riscv64-unknown-elf-nm", str(linked)], check=True, capture_output=True, text=True)
    symbols = {line.split()[2]: int(line.split()[0], 16) for line in names.stdout.splitlines()}
    return raw.read_bytes(), symbols["epochs"] - DRIVER_AT


def program_of(image: Image, driver: bytes, parameters: int) -> bytes:
    """An ELF file with the image's memory at 0 and the driver above it."""
    registers = [0] * 32
    for register, value in image.registers.items():
        registers[register] = value
    registers[1] = rv32_seq.END
    filled = bytearray(driver)
    struct.pack_into("<34I", filled, parameters, image.epochs, image.size, *registers)
    page = 4096
    memory = bytes(image.memory)
    memory_at, driver_at = page, page + (len(memory) + page - 1) // page * page
    ident = b"\x7fELF\x01\x01\x01" + bytes(9)
    header = ident + struct.pack("<HHIIIIIHHHHHH", 2, 243, 1, DRIVER_AT, 52, 0, 0, 52, 32, 2, 40, 0, 0)
    parts = [(memory_at, 0, len(memory)), (driver_at, DRIVER_AT, len(filled))]
    table = b"".join(struct.pack("<8I", 1, place, address, address, length, length, 7, page)
                     for place, address, length in parts)
    file = bytearray(driver_at + len(filled))
    file[:len(header) + len(table)] = header + table
    file[memory_at:memory_at + len(memory)] = memory
    file[driver_at:] = filled
    return bytes(file)


class Qemu:
    """Runs images on qemu."""

    def __init__(self) -> None:
        self.directory = tempfile.TemporaryDirectory()
        self.driver = built_driver(self.directory.name)

    def report(self, image: Image) -> str | None:
        """The report, or None where an epoch didn't end."""
        path = Path(self.directory.name, "program")
        path.write_bytes(program_of(image, *self.driver))
        path.chmod(0o755)
        result = subprocess.run(QEMU + [str(path)], capture_output=True, check=False)
        if result.returncode != 0:
            return None
        text = f"end done {image.epochs}\n"
        for address in range(0, image.size, 16):
            now = result.stdout[address:address + 16]
            if now != image.memory[address:address + 16]:
                text += f"at {address:08x} {now.hex()}\n"
        return text


def main(names: list[str]) -> int:
    qemu = Qemu()
    for name in names:
        report = qemu.report(rv32_seq.image_of(Path(name).read_bytes()))
        print(f"{name}\n{report or 'no report: an epoch faulted'}", end="")
    return 0


if __name__ == "__main__":
    sys.exit(main(sys.argv[1:]))
