"""What turns change: what stands at a place of the store or of a core from a turn on. The lines that say so are read
and written here and nowhere else."""

import re
from collections.abc import Callable
from dataclasses import dataclass

from .images import Unreadable


@dataclass(frozen=True, slots=True)
class Running:
    """The attempt that a core runs."""
    epoch: int
    mode: str                               # `speculative`, `homefree` ..


@dataclass(frozen=True, slots=True)
class OfAttempt:
    """What a core runs: `attempt 0`."""
    core: int
    now: Running | None

    @property
    def place(self) -> str:
        return f"attempt {self.core}"

    @property
    def said(self) -> str:
        return f"{self.now.epoch} {self.now.mode}" if self.now else "-"


@dataclass(frozen=True, slots=True)
class Hand:
    """What a core has in hand: where it goes on, and how many instructions it has executed."""
    pc: int
    done: int


@dataclass(frozen=True, slots=True)
class OfHart:
    """What a core has in hand, as its last turn gave it: `hart 0`."""
    core: int
    now: Hand | None

    @property
    def place(self) -> str:
        return f"hart {self.core}"

    @property
    def said(self) -> str:
        return f"{self.now.pc:08x} {self.now.done}" if self.now else "-"


@dataclass(frozen=True, slots=True)
class Copy:
    """A copy of a line in a cache."""
    address: int
    state: str                              # `S`, `SpE` ..
    loaded: bool
    stored: int                             # a mask: the bytes that its epoch has stored
    data: bytes

    @property
    def mask(self) -> str:
        """The mask in hexadecimal digits, as it is printed: 8, and of a line of 64 bytes 16."""
        return f"{self.stored:0{max(8, len(self.data) // 4)}x}"


@dataclass(frozen=True, slots=True)
class OfWay:
    """What a way of a set holds: `line 0 3 1`."""
    core: int
    set: int
    way: int
    now: Copy | None

    @property
    def place(self) -> str:
        return f"line {self.core} {self.set} {self.way}"

    @property
    def said(self) -> str:
        copy = self.now
        return (f"{copy.address:08x} {copy.state} {'loaded' if copy.loaded else '-'} {copy.mask} {copy.data.hex()}"
                if copy else "-")


@dataclass(frozen=True, slots=True)
class OfBuffer:
    """The lines in a core's buffer: `orb 0`."""
    core: int
    lines: tuple[int, ...]

    @property
    def place(self) -> str:
        return f"orb {self.core}"

    @property
    def said(self) -> str:
        return " ".join(f"{line:08x}" for line in self.lines)


@dataclass(frozen=True, slots=True)
class OfKept:
    """What a core keeps of a row over the plain store, by masks: the bytes that were read from outside, and those
    stored."""
    core: int
    address: int
    read: int
    stored: int
    data: bytes

    @property
    def place(self) -> str:
        return f"kept {self.core} {self.address:08x}"

    @property
    def said(self) -> str:
        return f"{self.read:04x} {self.stored:04x} {self.data.hex()}"


@dataclass(frozen=True, slots=True)
class OfMemory:
    """A row of committed bytes: `at 00000040`."""
    address: int
    data: bytes

    @property
    def place(self) -> str:
        return f"at {self.address:08x}"

    @property
    def said(self) -> str:
        return self.data.hex()


Change = OfAttempt | OfHart | OfWay | OfBuffer | OfKept | OfMemory

# --- Reading -----------------------------------------------------------------

NUMBER, ADDRESS, BYTES = r"(\d+)", "([0-9a-f]{8})", "((?:[0-9a-f]{2})+)"
# Of a line of 64 bytes, or of a shorter one
MASK = "([0-9a-f]{16}|[0-9a-f]{8})"


def attempt_of(core: str, epoch: str | None, mode: str | None) -> Change:
    return OfAttempt(int(core), None if epoch is None or mode is None else Running(int(epoch), mode))


def hart_of(core: str, pc: str | None, done: str | None) -> Change:
    return OfHart(int(core), None if pc is None or done is None else Hand(int(pc, 16), int(done)))


def way_of(core: str, set_: str, way: str, address: str | None, *copy: str) -> Change:
    if address is None:
        return OfWay(int(core), int(set_), int(way), None)
    state, mark, stored, data = copy
    return OfWay(int(core), int(set_), int(way),
                 Copy(int(address, 16), state, mark == "loaded", int(stored, 16), bytes.fromhex(data)))


def buffer_of(core: str, lines: str) -> Change:
    return OfBuffer(int(core), tuple(int(line, 16) for line in lines.split()))


def kept_of(core: str, address: str, read: str, stored: str, data: str) -> Change:
    return OfKept(int(core), int(address, 16), int(read, 16), int(stored, 16), bytes.fromhex(data))


def memory_of(address: str, data: str) -> Change:
    return OfMemory(int(address, 16), bytes.fromhex(data))


# By its first word: the form of a line, and what it says.
FORMS: dict[str, tuple[re.Pattern[str], Callable[..., Change]]] = {
    "attempt": (re.compile(rf"attempt {NUMBER} (?:-|{NUMBER} (\S.*))"), attempt_of),
    "hart": (re.compile(rf"hart {NUMBER} (?:-|{ADDRESS} {NUMBER})"), hart_of),
    "line": (re.compile(rf"line {NUMBER} {NUMBER} {NUMBER} (?:-|{ADDRESS} (\w+) (loaded|-) {MASK} {BYTES})"), way_of),
    "orb": (re.compile(rf"orb {NUMBER}((?: [0-9a-f]{{8}})*)"), buffer_of),
    "kept": (re.compile(rf"kept {NUMBER} {ADDRESS} ([0-9a-f]{{4}}) ([0-9a-f]{{4}}) {BYTES}"), kept_of),
    "at": (re.compile(rf"at {ADDRESS} {BYTES}"), memory_of),
}


def change_of(line: str) -> Change:
    """What a line says that a turn changed."""
    form, made = FORMS.get(line.split(" ", 1)[0], (None, None))
    found = form.fullmatch(line) if form else None
    if found is None or made is None:
        raise Unreadable(f"{line!r} says no change")
    return made(*found.groups())
