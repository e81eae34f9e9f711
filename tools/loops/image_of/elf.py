"""ELF files, as pyelftools reads them: what an input is, and what the linked program has."""

import struct
import sys
from bisect import bisect_right
from collections.abc import Iterator
from contextlib import contextmanager
from dataclasses import dataclass
from functools import cache, cached_property
from pathlib import Path
from typing import Any

from loops.names import word

from .limits import bounded
from .reasons import EXTENSIONS, FLAGS_OF_OBJECTS, Refused, section_reason
from .words import extension_of

try:
    from elftools.construct import Array as Array, ULInt8 as ULInt8
    from elftools.dwarf import callframe, dwarfinfo
    from elftools.elf.elffile import ELFFile as ELFFile
    from elftools.elf.enums import ENUM_E_MACHINE, ENUM_E_TYPE, ENUM_ST_INFO_TYPE
except ImportError:
    sys.path.append("/usr/lib/python3/dist-packages")       # Debian's packages, where another Python runs than Debian's
    try:
        from elftools.construct import Array as Array, ULInt8 as ULInt8
        from elftools.dwarf import callframe, dwarfinfo
        from elftools.elf.elffile import ELFFile as ELFFile
        from elftools.elf.enums import ENUM_E_MACHINE, ENUM_E_TYPE, ENUM_ST_INFO_TYPE
    except ImportError:
        ELFFile = Array = ULInt8 = callframe = dwarfinfo = None
        ENUM_E_MACHINE = ENUM_E_TYPE = ENUM_ST_INFO_TYPE = {}

# pyelftools before 0.30 makes its parsers anew for each unit and for each function's frame, which takes longer than
# what they read.
for module in (callframe, dwarfinfo) if ELFFile else ():
    module.DWARFStructs = cache(module.DWARFStructs)

COMPRESSED, FLOAT_ABI, EMBEDDED = 1, 6, 8                   # e_flags, of the RISC-V ELF psABI
FLOAT_ABIS = {2: "ilp32f", 4: "ilp32d", 6: "ilp32q"}
WRITABLE, ALLOCATED, EXECUTABLE, THREADS, PACKED = 1, 2, 4, 0x400, 0x800    # sh_flags
# The bytes of a file's header, of 32 bits and of 64
HEADER = {1: "<4sBBB9xHHIIIIIHHHHHH", 2: "<4sBBB9xHHIQQQIHHHHHH"}
RISCV = 243
# A symbol of 32 bits: the place of its name, its value, its size, its binding and type, its visibility, its section
SYMBOL, LOCAL = struct.Struct("<IIIBBH"), 0
KINDS = {number: name for name, number in ENUM_ST_INFO_TYPE.items() if name != "_default_"}
# A file's sections that aren't in memory are read up to so many bytes in all.
LARGEST_DEBUG = 256_000_000


@contextmanager
def reading(path: Path, what: str) -> Iterator[None]:
    """Whatever pyelftools raises where it reads a part of a file refuses the file."""
    if ELFFile is None:
        raise Refused("pyelftools is not installed; install the Debian package python3-pyelftools")
    try:
        with bounded():
            yield
    except (Refused, OSError):
        raise
    except Exception as wrong:      # pyelftools raises whatever its parsers meet
        raise Refused(f"{path}: is a damaged or truncated ELF file: {what} can't be read ({type(wrong).__name__}: "
                      f"{wrong})") from None


@dataclass(frozen=True)
class Header:
    """What the first bytes of an ELF file say of its kind."""
    bits: int
    little: bool
    kind: int                       # e_type
    machine: int
    flags: int


def header_of(path: Path | str, data: bytes) -> Header:
    """The header at the beginning of these bytes."""
    form = HEADER.get(data[4] if len(data) > 4 else 0)
    if data[:4] != b"\x7fELF" or form is None or len(data) < struct.calcsize(form) or data[5] not in (1, 2):
        raise Refused(f"{path}: is a damaged or truncated ELF file: its header can't be read")
    form = form if data[5] == 1 else ">" + form[1:]
    _, bits, order, _, kind, machine, _, _, _, _, flags, *_ = struct.unpack_from(form, data)
    return Header(32 * bits, order == 1, kind, machine, flags)


def named(names: dict[str, int], number: int) -> str:
    """The name of a number of an enumeration of pyelftools, without its first part: `x86-64`."""
    found = next((name for name, value in names.items() if value == number and name[:3] in ("EM_", "ET_")), None)
    return found.partition("_")[2].replace("_", "-") if found else str(number)


def check_target(path: Path | str, header: Header) -> None:
    """Refuses what isn't code for 32-bit RISC-V that the machine can run."""
    if header.machine != RISCV:
        raise Refused(f"{path}: is for the machine {named(ENUM_E_MACHINE, header.machine).lower()}, not for RISC-V; "
                      f"compile it with {FLAGS_OF_OBJECTS}")
    if header.bits != 32:
        raise Refused(f"{path}: is for RISC-V of {header.bits} bits; compile it with {FLAGS_OF_OBJECTS}")
    if not header.little:
        raise Refused(f"{path}: is big-endian; compile it little-endian, with {FLAGS_OF_OBJECTS}")
    if header.flags & FLOAT_ABI:
        raise Refused(f"{path}: passes numbers in floating-point registers (ABI "
                      f"{FLOAT_ABIS[header.flags & FLOAT_ABI]}); compile it with {FLAGS_OF_OBJECTS}")
    if header.flags & EMBEDDED:
        raise Refused(f"{path}: is for the registers of RV32E; compile it with {FLAGS_OF_OBJECTS}")


@dataclass(frozen=True)
class Section:
    """A section: where it lies in memory and in its file."""
    path: Path
    name: str
    kind: str                       # sh_type
    flags: int
    address: int
    offset: int
    size: int

    @property
    def end(self) -> int:
        return self.address + self.size

    @property
    def in_file(self) -> bool:
        return self.kind not in ("SHT_NOBITS", "SHT_NULL")

    def data(self) -> bytes:
        """Its bytes, zeros where the file holds none. How many there are is for the caller to look at first."""
        return bytes_at(self.path, self.offset, self.size) if self.in_file else bytes(self.size)


@dataclass(frozen=True)
class Segment:
    """A segment that a loader puts into memory."""
    address: int
    length: int                     # in memory
    offset: int                     # in the file
    in_file: int


@dataclass(frozen=True)
class Symbol:
    """A symbol that is defined and has a name."""
    name: str
    value: int
    size: int
    kind: str                       # STT_OBJECT ..
    is_local: bool


def bytes_at(path: Path, offset: int, length: int) -> bytes:
    """Bytes of a file."""
    with path.open("rb") as file:
        file.seek(offset)
        return file.read(length)


def section_of(path: Path, one: Any) -> Section:
    return Section(path, one.name, str(one["sh_type"]), one["sh_flags"], one["sh_addr"], one["sh_offset"],
                   one["sh_size"])


def named_in(table: Any) -> Iterator[Any]:
    """The symbols of a table that have a name. The name's place comes first in a symbol."""
    data, length = table.data(), table["sh_entsize"]
    return (table.get_symbol(number) for number in range(table.num_symbols())
            if any(data[number * length:number * length + 4]))


def symbols_of(table: Any, header: Header) -> Iterator[Symbol]:
    """The symbols of a table that are defined and have a name. LLVM's code for RISC-V has one without a name for each
    line, and pyelftools takes long to read so many, and those of the C library: where they are as in each program of 32
    bits they are read here."""
    if (header.bits, header.little, table["sh_entsize"], table["sh_flags"] & PACKED) != (32, True, SYMBOL.size, 0):
        yield from (Symbol(one.name, one["st_value"], one["st_size"], str(one["st_info"]["type"]),
                           one["st_info"]["bind"] == "STB_LOCAL")
                    for one in named_in(table) if one["st_shndx"] != "SHN_UNDEF")
        return
    for place, value, size, kind, _, section in SYMBOL.iter_unpack(table.data()):
        name = table.stringtable.get_string(place) if place else ""
        if place and section:
            yield Symbol(name, value, size, KINDS.get(kind & 15, str(kind & 15)), kind >> 4 == LOCAL)


class Opened:
    """An ELF file: its header, its sections, its segments and its symbols, which have to lie in it."""

    def __init__(self, path: Path):
        self.path = path
        with path.open("rb") as file, reading(path, "what its headers say of its sections and symbols"):
            self.header = header_of(path, file.read(64))
            elf = ELFFile(file)
            self.sections = [section_of(path, one) for one in elf.iter_sections() if one["sh_type"] != "SHT_NULL"]
            self.segments = [Segment(one["p_vaddr"], one["p_memsz"], one["p_offset"], one["p_filesz"])
                             for one in elf.iter_segments() if one["p_type"] == "PT_LOAD"]
            self.tables = [(0, elf["e_ehsize"]), (elf["e_phoff"], elf["e_phnum"] * elf["e_phentsize"]),
                           (elf["e_shoff"], elf["e_shnum"] * elf["e_shentsize"])]
            ends = ([one["p_offset"] + one["p_filesz"] for one in elf.iter_segments()]
                    + [first + length for first, length in self.tables])
            self.check_length(max([*ends, *(one.offset + one.size for one in self.sections if one.in_file)]))
            table = elf.get_section_by_name(".symtab")
            self.symbols = [*symbols_of(table, self.header)] if table else []

    def check_length(self, end: int) -> None:
        length = self.path.stat().st_size
        if end > length:
            raise Refused(f"{self.path}: is a truncated ELF file: its sections end at {end}, and the file has {length} "
                          "bytes")

    def placed(self, flag: int = ALLOCATED) -> list[Section]:
        """The sections that are in memory, or those of them that are writable or executable; in order of address."""
        return sorted((one for one in self.sections if one.flags & ALLOCATED and one.flags & flag and one.size),
                      key=lambda one: one.address)


def is_linked(path: Path) -> bool:
    """Whether an ELF file is a linked program; an object is none, and others are refused."""
    header = Opened(path).header
    check_target(path, header)
    kind = f"ET_{named(ENUM_E_TYPE, header.kind)}"
    if kind == "ET_DYN":
        raise Refused(f"{path}: has relocations that are left to a loader (a shared object, or position-independent), "
                      "and there is no loader; "
                      "link it with -static -no-pie, or give its objects")
    if kind not in ("ET_REL", "ET_EXEC"):
        raise Refused(f"{path}: is an ELF file of the type {kind}, neither an object nor a program")
    return kind == "ET_EXEC"


class Program(Opened):
    """A linked program: its sections, symbols and lines of the source."""

    def section(self, name: str) -> Section | None:
        return next((one for one in self.sections if one.name == name), None)

    def contents(self, name: str) -> bytes:
        """The bytes of a section, zeros where the file holds none."""
        found = self.section(name)
        return found.data() if found is not None else b""

    def symbol(self, wanted: str) -> int | None:
        """The value of a symbol, or None."""
        return next((one.value for one in self.symbols if one.name == wanted), None)

    def variables(self, of_threads: int | None = None) -> list[tuple[int, str, int]]:
        """Address, name and length of each variable and constant, in order. Values of thread_local ones count from an
        address."""
        found = [(one.value, one.name, one.size) for one in self.symbols if one.kind == "STT_OBJECT"]
        found += [(of_threads + one.value, one.name, one.size) for one in self.symbols if one.kind == "STT_TLS"
                  and one.size and of_threads is not None]
        return sorted(found)

    def functions(self) -> list[str]:
        """The names of the global functions."""
        return sorted(word(one.name) for one in self.symbols if one.kind == "STT_FUNC" and not one.is_local)

    def relocations(self) -> list[str]:
        """The sections in memory with relocations that are still to be done."""
        return [word(one.name) for one in self.placed() if one.kind in ("SHT_REL", "SHT_RELA") and any(one.data())]

    @cached_property
    def data_marks(self) -> tuple[list[int], list[bool]]:
        """Where code and data among it begin, by the mapping symbols `$d` and `$x` of the psABI."""
        marks: dict[int, bool] = {}
        for one in self.symbols:
            if one.name[:2] in ("$d", "$x"):
                marks[one.value] = one.name[1] == "d" and marks.get(one.value, True)
        return sorted(marks), [marks[address] for address in sorted(marks)]

    def is_data(self, address: int) -> bool:
        """Whether an address of the code holds data."""
        addresses, kinds = self.data_marks
        found = bisect_right(addresses, address)
        return bool(found) and kinds[found - 1]

    def instructions(self) -> Iterator[tuple[int, int]]:
        """The address of each instruction, and its word; a compressed one takes half of it."""
        for section in self.placed(EXECUTABLE):
            data, place = section.data(), 0
            while place < len(data):
                one = int.from_bytes(data[place:place + 4], "little")
                is_data = self.is_data(section.address + place)
                if not is_data:
                    yield section.address + place, one
                place += 2 if one and one & 3 != 3 and not is_data else 4

    def place(self, pc: int, line: str | None) -> str:
        """Where an instruction is, for people: its function, its address, and the line of its source."""
        below = [one for one in self.symbols if one.value <= pc and one.name and not one.name.startswith(("$", ".L"))
                 and one.kind in ("STT_FUNC", "STT_NOTYPE")]
        near = max(below, key=lambda one: (one.value, one.kind == "STT_FUNC"), default=None)
        named_so = f"{word(near.name)}+{pc - near.value}, " if near else ""
        return f"{named_so}address {pc:08x}" + (f", {line}" if line else "")

    def unfit(self) -> dict[str, tuple[int, int]]:
        """The first instruction of each extension that RV32I hasn't: its address and its word."""
        found: dict[str, tuple[int, int]] = {}
        for pc, one in self.instructions():
            needed = extension_of(one)
            if needed:
                found.setdefault(needed, (pc, one))
        return found

    def check_sections(self, known: tuple[str, ...] | list[str]) -> None:
        """Refuses sections that need memory and have no place."""
        if self.relocations():
            raise Refused("relocations are left in " + ", ".join(self.relocations()) + "; link it with -static -no-pie")
        # GNU's linker may leave relocations of which each is none, all zeros
        lost = [one.name for one in self.placed() if one.name not in known and one.kind not in ("SHT_REL", "SHT_RELA")]
        if lost:
            raise Refused("\n".join(f"no place for the sections {word(name)}: {section_reason(name)}" for name in lost))
        packed = [word(one.name) for one in self.placed() if one.flags & PACKED]
        if packed:
            raise Refused(f"{self.path}: the sections {', '.join(packed)} are compressed, and nothing unpacks them")

    def check_segments(self) -> None:
        """Refuses a program whose sections and segments say different bytes of memory. Its sections are small enough to
        be read."""
        for section in self.placed():
            if section.flags & THREADS and not section.in_file:
                continue            # it takes no memory of the program's
            segment = next((one for one in self.segments if one.address <= section.address
                            and section.end <= one.address + one.length), None)
            if segment is None or self.loaded(segment, section.address, section.size) != section.data():
                raise Refused(f"{self.path}: is a damaged ELF file: its segments say other bytes at "
                              f"{section.address:08x} than its section {word(section.name)}")
        for segment in self.segments:
            self.check_whole(segment)

    def loaded(self, segment: Segment, address: int, length: int) -> bytes:
        """Bytes of memory as a segment says them."""
        skipped = address - segment.address
        data = bytes_at(self.path, segment.offset + skipped, max(0, min(length, segment.in_file - skipped)))
        return data + bytes(length - len(data))

    def check_whole(self, segment: Segment) -> None:
        """Refuses bytes of a segment that are in no section, but for the file's own tables and for zeros."""
        taken = ([(one.offset, one.offset + one.size) for one in self.placed() if one.in_file]
                 + [(first, first + length) for first, length in self.tables])
        place, end = segment.offset, segment.offset + segment.in_file
        for first, last in sorted(taken) + [(end, end)]:
            if place < min(first, end) and any(bytes_at(self.path, place, min(first, end) - place)):
                raise Refused(f"{self.path}: is a damaged ELF file: bytes at "
                              f"{segment.address + place - segment.offset:08x} are in a segment and in no section")
            place = max(place, last)


def unfit(extension: str, one: int) -> str:
    """Why the machine has no such instruction, and what to do."""
    if extension == "C":
        return f"the compressed instruction {one & 0xFFFF:04x} needs the extension C: {EXTENSIONS['C']}"
    if extension in ("system", "RV64I"):
        what = "is a system instruction" if extension == "system" else "is one of RV64I"
        return f"the instruction {one:08x} {what}: {EXTENSIONS[extension]}"
    if extension in EXTENSIONS:
        return f"the instruction {one:08x} needs the extension {extension}: {EXTENSIONS[extension]}"
    return f"the word {one:08x} is no instruction of RV32I: compile it with {FLAGS_OF_OBJECTS}"
