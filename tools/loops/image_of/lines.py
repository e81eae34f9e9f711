"""The lines of the source that instructions come from, by the line tables of DWARF."""

from bisect import bisect_right
from collections.abc import Iterator
from dataclasses import dataclass
from pathlib import Path
from typing import Any

from loops.names import word

from .elf import EXECUTABLE, LARGEST_DEBUG, Array, ELFFile, Program, ULInt8, reading
from .reasons import Refused

WHAT = "its line tables"


@dataclass
class Sequence:
    """Rows of a line table that belong together: the addresses of a part of the code, and what the source is there."""
    unit: Any                               # its compilation unit, of pyelftools
    rows: list[tuple[int, str]]             # from this address on, FILE:LINE or nothing; the last row is the end

    @property
    def first(self) -> int:
        return self.rows[0][0]

    @property
    def end(self) -> int:
        return self.rows[-1][0]

    def is_ordered(self) -> bool:
        return self.first < self.end and all(row[0] <= following[0] for row, following in zip(self.rows, self.rows[1:]))


class Lines:
    """FILE:LINE by address. Asking costs a search among all rows, however long the gaps between them are."""

    def __init__(self, sequences: list[Sequence]):
        self.addresses: list[int] = []
        self.told: list[str] = []
        for sequence in sorted(sequences, key=lambda one: one.first):
            if self.addresses and sequence.first < self.addresses[-1]:
                continue                    # two for the same code, as where a linker folds functions: the first
            for address, told in sequence.rows:
                self.addresses.append(address)
                self.told.append(told)

    def at(self, address: int) -> str | None:
        """The line of an address, or None."""
        found = bisect_right(self.addresses, address)
        return self.told[found - 1] or None if found else None


def name_of(program: Any, number: int) -> str:
    """The name of a file of a line table, without its folders: those of DWARF 5 are counted from 0."""
    entries = program["file_entry"]
    place = number if program["version"] >= 5 else number - 1
    return word(Path(entries[place].name.decode("utf-8", "surrogateescape")).name) if 0 <= place < len(entries) else "?"


def sequences_of(unit: Any, program: Any) -> Iterator[Sequence]:
    """The sequences of a unit's line table."""
    rows: list[tuple[int, str]] = []
    names: dict[int, str] = {}
    for row in (entry.state for entry in program.get_entries() if entry.state):
        told = ""
        if not row.end_sequence:
            name = names.get(row.file) or names.setdefault(row.file, name_of(program, row.file))
            # what a compiler ascribes to no line stands with the line above it
            told = f"{name}:{row.line}" if row.line else rows[-1][1] if rows else ""
        rows.append((row.address, told))
        if row.end_sequence:
            yield Sequence(unit, rows)
            rows = []


@dataclass
class Function:
    """A function of a unit: the line that it is declared in, and its names."""
    line: int
    names: set[str]


def functions_at(unit: Any, address: int) -> list[Function]:
    """The functions of a unit that begin at an address, in order of their lines."""
    found = []
    for die in unit.get_top_DIE().iter_children():
        low = die.attributes.get("DW_AT_low_pc")
        if die.tag != "DW_TAG_subprogram" or low is None or low.value != address:
            continue
        chain = ([die] + [die.get_DIE_from_attribute(name) for name in ("DW_AT_specification", "DW_AT_abstract_origin")
                          if name in die.attributes])
        lines = [one.attributes["DW_AT_decl_line"].value for one in chain if "DW_AT_decl_line" in one.attributes]
        names = {one.attributes[name].value.decode("utf-8", "replace") for one in chain
                 for name in ("DW_AT_name", "DW_AT_linkage_name") if name in one.attributes}
        found.append(Function(lines[0] if lines else 0, names))
    return sorted(found, key=lambda one: one.line)


def is_name(name: str, symbol: str) -> bool:
    """Whether a symbol is a function's of this name: as it is, with an ending of the compiler's, or as C++ spells
    it."""
    return symbol.partition(".")[0] == name or (symbol.startswith("_Z") and f"{len(name)}{name}" in symbol)


def is_alive(program: Program, sequence: Sequence, others: int) -> bool:
    """Whether a sequence is that of the code where it stands. What a linker has thrown away stands at 0 for GNU's, and
    code may be there too. Then the name of its function tells, which is the last one that is declared above its first
    line; and where there is none, whether no other sequence is there."""
    if sequence.first != 0:
        return True
    line = next((int(told.rpartition(":")[2]) for _, told in sequence.rows if told), 0)
    above = [one for one in functions_at(sequence.unit, 0) if one.line <= line]
    symbols = [one.name for one in program.symbols if one.value == 0 and one.kind in ("STT_FUNC", "STT_NOTYPE")]
    return any(is_name(name, symbol) for name in above[-1].names for symbol in symbols) if above else others == 0


def read(program: Program) -> list[Sequence]:
    """All sequences that lie in code that is in memory."""
    places, found = program.placed(EXECUTABLE), []
    debug = sum(one.size for one in program.sections if one.name.startswith((".debug_", ".zdebug_")))
    if debug > LARGEST_DEBUG:
        raise Refused(f"{program.path}: {WHAT} and what belongs to them take {debug} bytes, more than {LARGEST_DEBUG}")
    with program.path.open("rb") as file, reading(program.path, WHAT):
        elf = ELFFile(file)
        if not all(elf.get_section_by_name(name) for name in (".debug_info", ".debug_abbrev", ".debug_line")):
            return []
        dwarf = elf.get_dwarf_info(relocate_dwarf_sections=False, follow_links=False)
        for unit in dwarf.iter_CUs():
            # the checksums in clang's tables of files, which pyelftools before 0.30 can't skip
            unit.structs.Dwarf_dw_form.setdefault("DW_FORM_data16", Array(16, ULInt8("")))
            table = dwarf.line_program_for_CU(unit)
            found += [one for one in (sequences_of(unit, table) if table else [])
                      if one.is_ordered() and any(place.address <= one.first and one.end <= place.end
                                                  for place in places)]
        at_zero = sum(one.first == 0 for one in found)
        return [one for one in found if is_alive(program, one, at_zero - 1)]


def lines_of(program: Program) -> Lines:
    """The lines of a program's code. Refused where its tables can't be read."""
    return Lines(read(program))
