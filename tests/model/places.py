"""The caches of a machine, and where they have the bytes of memory, independent of the proved programs."""

from typing import NamedTuple


class Machine(NamedTuple):
    """The bytes of a line, the sets, the ways of each, the lines of a buffer, and what lies apart: the first address,
    how many bytes, and the bytes of a piece."""

    line: int
    sets: int
    ways: int
    buffer: int
    apart: tuple[int, int, int] = (0, 0, 4)

    def place(self, address: int, memory: int) -> int:
        """Where a byte lies for the caches: behind a memory of so many bytes, where it lies apart."""
        first, length, piece = self.apart
        if not first <= address < first + length:
            return address
        return memory + (address - first) // piece * self.line + (address - first) % piece

    def bytes_at(self, line: int, memory: int) -> dict[int, int]:
        """The bytes of the line at a place: by where each lies in it, its address."""
        first, _, piece = self.apart
        behind = first + (line - memory) // self.line * piece
        there = range(line, line + self.line) if line < memory else range(behind, min(behind + piece, memory))
        return {self.place(address, memory) - line: address for address in there
                if line <= self.place(address, memory) < line + self.line}


def machine_of(store: str, version: int) -> Machine:
    """The caches of a word: those of the version, but for what the word says."""
    usual = Machine(32, 4, 2, 8) if version == 2 else Machine(16, 4, 2, 4)
    asked = dict(pair.split("=") for pair in store.partition(":")[2].split(",") if pair)
    first, length, piece = asked.pop("apart", "0:0:4").split(":")
    return usual._replace(apart=(int(first, 16), int(length), int(piece)),
                          **{key: int(number) for key, number in asked.items()})
