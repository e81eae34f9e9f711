"""Archives: the members that a linker may take, read by the archive's own index. The form is that of System V and GNU,
as `ar` and `llvm-ar` write it."""

import struct
from collections.abc import Iterator
from pathlib import Path
from typing import BinaryIO

from loops.names import word

from .elf import check_target, header_of
from .reasons import Refused

WHOLE, THIN = b"!<arch>\n", b"!<thin>\n"
# A member's header: its name, date, user, group, mode, size and an end, all text
HEAD, END = 60, b"`\n"
INDEXES = {b"/": ">I", b"/SYM64/": ">Q"}
ELF_HEADER = 64


class Archive:
    """An archive: the places of the members that its index names, and what each is."""

    def __init__(self, path: Path):
        self.path = path
        with path.open("rb") as file:
            self.is_thin = file.read(len(WHOLE)) == THIN
            self.length = path.stat().st_size
            self.names = b""
            self.places: list[int] = []
            place = len(WHOLE)
            # the index and the table of long names stand in front
            while place < self.length:
                name, size = self.head(file, place)
                if name in INDEXES:
                    self.places += self.index(file.read(size), struct.Struct(INDEXES[name]))
                elif name == b"//":
                    self.names = file.read(size)
                else:
                    break
                place += HEAD + size + size % 2
            if not self.places and place < self.length:
                raise Refused(f"{path}: is an archive without an index; make one, as by riscv64-unknown-elf-ranlib")
            self.members = [(self.name_of(name), size, file.read(ELF_HEADER)) for place in sorted(set(self.places))
                            for name, size in [self.head(file, place)]]

    def damaged(self, why: str) -> Refused:
        return Refused(f"{self.path}: is a damaged archive: {why}")

    def head(self, file: BinaryIO, place: int) -> tuple[bytes, int]:
        """The name and the size of the member at a place; the file stands behind its header then."""
        file.seek(place)
        head = file.read(HEAD)
        size = head[48:58].strip()
        if len(head) < HEAD or head[58:] != END or not size.isdigit():
            raise self.damaged(f"at {place} there is no member")
        name = head[:16].rstrip()
        if place + HEAD + int(size) > self.length and (not self.is_thin or name in (*INDEXES, b"//")):
            raise self.damaged(f"its member at {place} ends behind the file's end")
        return name, int(size)

    def index(self, data: bytes, number: struct.Struct) -> Iterator[int]:
        """The places that an index names: how many, and then each."""
        count = number.unpack_from(data)[0] if len(data) >= number.size else len(data)
        if (count + 1) * number.size > len(data):
            raise self.damaged("its index is cut off")
        return (place for place, in number.iter_unpack(data[number.size:(count + 1) * number.size]))

    def name_of(self, name: bytes) -> str:
        """A member's name, where it is long from the table of names."""
        if name[:1] == b"/" and name[1:].isdigit():
            name = self.names[int(name[1:]):].partition(b"\n")[0]
        return name.removesuffix(b"/").decode("utf-8", "surrogateescape")

    def check(self) -> None:
        """Refuses an archive with members for other machines."""
        for name, _, head in self.members:
            if self.is_thin:
                member = self.path.parent / name
                if not member.is_file():
                    raise self.damaged(f"its member {word(name)} is not a file")
                with member.open("rb") as file:
                    head = file.read(ELF_HEADER)
            if head[:4] == b"\x7fELF":
                check_target(f"{self.path}({word(name)})", header_of(f"{self.path}({word(name)})", head))
