"""The text of an image: a loop's code, its memory and its limits, and what its remarks name."""

import re
from dataclasses import dataclass, field
from functools import cached_property
from typing import TypeVar

from .instructions import access_spelled
from .names import word
from .texts import shown

# By versions of images: the most cores
MOST_CORES = {1: 8, 2: 16}
VARIABLE = re.compile(r" (\S+) ([0-9a-fA-F]{8}) (\d+)")
SOURCE = re.compile(r" code ([0-9a-fA-F]{8}) (\S+:\d+)")
# To a full stop that another sentence follows, or to the end; that of a number in front, as in `2. A histogram.`, is
# none.
SENTENCE = re.compile(r"(?:\d+\. )?.+?(?:\.(?= [\"'(]?[A-Z])|$)")


class Unreadable(ValueError):
    """A text that isn't of the form that was asked for; the words say where."""


Value = TypeVar("Value")


def there(value: Value | None) -> Value:
    """What has to be there, as the epoch of an entry `start`."""
    if value is None:
        raise Unreadable("something is said nowhere that has to be")
    return value


@dataclass(frozen=True)
class Variable:
    """A named stretch of memory, from a remark `# NAME ADDRESS BYTES`."""
    name: str
    address: int
    length: int


@dataclass
class Bytes:
    """Bytes of memory from an address on: a line `at`."""
    address: int
    data: bytes

    def text(self) -> str:
        return f"at {self.address:08x} {self.data.hex()}"


@dataclass
class Image:
    """What the text of an image says. The remarks are its lines with `#`, without that sign."""
    version: int = 1
    exit: bool = False
    size: int = 0
    epochs: int = 0
    limit: int = 0
    code: bytes = b""                                       # from address 0 on
    registers: dict[int, int] = field(default_factory=dict)
    data: list[Bytes] = field(default_factory=list)
    remarks: list[str] = field(default_factory=list)

    @cached_property
    def variables(self) -> list[Variable]:
        found = filter(None, map(VARIABLE.fullmatch, self.remarks))
        return [Variable(word(match[1]), int(match[2], 16), int(match[3])) for match in found]

    @cached_property
    def sources(self) -> dict[int, str]:
        """FILE:LINE of the instruction at an address, from remarks `# code PC FILE:LINE`."""
        found = filter(None, map(SOURCE.fullmatch, self.remarks))
        return {int(match[1], 16): word(match[2]) for match in found}

    @cached_property
    def about(self) -> str:
        """The first sentence of the remarks."""
        told: list[str] = []
        for remark in self.remarks:
            named = remark.startswith(">") or SOURCE.fullmatch(remark) or VARIABLE.fullmatch(remark)
            if not named and (not told or told[-1]):
                told.append(remark.strip())
        found = SENTENCE.match(" ".join(filter(None, told)))
        return shown(found[0]) if found else ""

    def variable_of(self, address: int) -> Variable | None:
        """The variable that has this byte."""
        return next((one for one in self.variables if one.address <= address < one.address + one.length), None)

    def variables_in(self, first: int, length: int) -> list[Variable]:
        """The variables that have some of so many bytes."""
        return [one for one in self.variables if one.address < first + length and first < one.address + one.length]

    def name_of(self, address: int) -> str:
        """`bins+4`, or the address where no remark names it."""
        found = self.variable_of(address)
        if found is None:
            return f"{address:08x}"
        return found.name if address == found.address else f"{found.name}+{address - found.address}"

    def instruction_at(self, pc: int) -> str | None:
        """The load or store there, in assembly."""
        return access_spelled(int.from_bytes(self.code[pc:pc + 4], "little"))

    def spelled(self, pc: int) -> str:
        """An instruction's address, and its line in the source where the remarks tell it."""
        return f"{pc:08x}" + (f" at {self.sources[pc]}" if pc in self.sources else "")

    @property
    def most_cores(self) -> int:
        """The most cores that the version allows."""
        return MOST_CORES.get(self.version, 8)

    def text(self) -> str:
        """The image's text: remarks, limits, code, registers and memory."""
        lines = [f"#{remark}" for remark in self.remarks]
        lines += [f"version {self.version}"] if self.version != 1 else []
        lines += ["exit"] if self.exit else []
        lines += [f"size {self.size}", f"epochs {self.epochs}", f"limit {self.limit}", f"code {self.code.hex()}"]
        lines += [f"reg {register} {value:08x}" for register, value in self.registers.items()]
        lines += [part.text() for part in self.data]
        return "\n".join(lines) + "\n"


def bytes_of(words: list[str]) -> Bytes:
    return Bytes(int(words[1], 16), bytes.fromhex(words[2]))


def read_line(image: Image, line: str) -> None:
    """Takes one line of an image's text in."""
    words = line.split(" ")
    if line.startswith("#"):
        image.remarks.append(line[1:])
    elif words[0] in ("version", "size", "epochs", "limit"):
        setattr(image, words[0], int(words[1]))
    elif words[0] == "exit":
        image.exit = True
    elif words[0] == "code":
        image.code = bytes.fromhex(words[1])
    elif words[0] == "reg":
        image.registers[int(words[1])] = int(words[2], 16)
    elif words[0] == "at":
        image.data.append(bytes_of(words))
    elif line:
        raise Unreadable(f"{words[0]!r} begins no line of an image")


def read_image(text: str) -> Image:
    """The image that a text says. The programs refuse what is wrong with one; here its form is taken for granted."""
    image = Image()
    for number, line in enumerate(text.split("\n"), 1):
        try:
            read_line(image, line)
        except (ValueError, IndexError) as wrong:
            raise Unreadable(f"line {number} of the image: {wrong}") from None
    return image
