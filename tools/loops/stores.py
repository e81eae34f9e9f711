"""The store that a run is over, and the machine of its caches; and the word that names both, as the programs take it.
How large caches may be, and how large they are where no word says it, stands here and nowhere else."""

import argparse
import re
from dataclasses import dataclass, fields, replace

LINE_LENGTHS = (16, 32, 64)
MOST_SETS, MOST_WAYS, MOST_BUFFER = 1024, 16, 64
# A number as the programs read it: decimal, without a further zero in front
NUMBER = re.compile(r"0|[1-9][0-9]{0,9}")


class BadStore(ValueError):
    """A word that names no store; the words say what one is."""


@dataclass(frozen=True, slots=True)
class Apart:
    """Bytes of memory that have lines of their own: each piece of them has one, behind memory."""
    first: int                              # the address of the first of them
    length: int                             # how many they are
    piece: int                              # bytes of a piece

    @staticmethod
    def of_text(text: str) -> "Apart":
        """What `ADDR:LENGTH:PIECE` says: eight hexadecimal digits, and two numbers."""
        first, length, piece = text.split(":")
        return Apart(int(first, 16), int(length), int(piece))

    def fits(self, line: int) -> bool:
        """Whether they are whole words, and a piece is whole words that fit into a line."""
        return (all(number % 4 == 0 for number in (self.first, self.length, self.piece))
                and self.length > 0 and 0 < self.piece <= line)

    @property
    def text(self) -> str:
        return f"{self.first:08x}:{self.length}:{self.piece}"

    def says(self) -> str:
        """For people."""
        return f"{self.length:,} bytes from {self.first:08x} on lie apart, {self.piece} in a line"


@dataclass(frozen=True, slots=True)
class Machine:
    """How large the caches of each core are, and which bytes have lines of their own. The fields are the keys of the
    word."""
    line: int                               # bytes of a line
    sets: int                               # sets of a cache
    ways: int                               # ways of a set, each of a line
    buffer: int                             # lines of a core's buffer
    apart: Apart | None = None              # bytes that have lines of their own

    @staticmethod
    def of_word(word: str, version: int = 1) -> "Machine":
        """The machine that the word of a store asks for in an image of this version; what it doesn't name is the
        version's. BadStore where it names none."""
        machine = BY_VERSION.get(version, BY_VERSION[1])
        return replace(machine, **asked_by(word))

    @property
    def lines(self) -> int:
        """The lines of a cache."""
        return self.sets * self.ways

    @property
    def is_one(self) -> bool:
        """Whether there are machines of this size, for some memory."""
        return (self.line in LINE_LENGTHS and 1 <= self.sets <= MOST_SETS and self.sets & (self.sets - 1) == 0
                and 1 <= self.ways <= MOST_WAYS and 1 <= self.buffer <= MOST_BUFFER
                and (self.apart is None or self.apart.fits(self.line)))

    def place_of(self, address: int, size: int) -> int:
        """Where the byte at an address of a memory of so many bytes lies for the caches: behind memory, where it lies
        apart."""
        if self.apart is None or not self.apart.first <= address < self.apart.first + self.apart.length:
            return address
        piece, rest = divmod(address - self.apart.first, self.apart.piece)
        return size + piece * self.line + rest

    def set_of(self, place: int) -> int:
        """The set in which the line at a place stands."""
        return place // self.line % self.sets

    @property
    def sizes(self) -> dict[str, int]:
        """How large the caches are, by the keys."""
        return {"line": self.line, "sets": self.sets, "ways": self.ways, "buffer": self.buffer}

    @property
    def word(self) -> str:
        """The word that asks for all of it."""
        asked = [f"{key}={number}" for key, number in self.sizes.items()]
        return "caches:" + ",".join(asked + ([f"apart={self.apart.text}"] if self.apart else []))

    def says(self) -> str:
        """For people."""
        return (f"{counted(self.sets, 'set')} of {counted(self.ways, 'way')} with lines of {self.line} bytes, "
                f"and buffers of {counted(self.buffer, 'line')}{f'; {self.apart.says()}' if self.apart else ''}")


# By versions of images, where no word says it
BY_VERSION = {1: Machine(line=16, sets=4, ways=2, buffer=4), 2: Machine(line=32, sets=4, ways=2, buffer=8)}
# Large caches, beside which others are seen
LARGE = {"sets": 64, "ways": 4, "buffer": 16}
KEYS = tuple(one.name for one in fields(Machine))
PAIR = rf"(?:(?:{'|'.join(BY_VERSION[1].sizes)})=[0-9]+|apart=[0-9a-f]{{8}}:[0-9]+:[0-9]+)"
FORM = re.compile(rf"(plain|caches)|caches:({PAIR}(?:,{PAIR})*)")
WANTED = (f"plain, caches or caches:KEY=N,.. with the keys line ({', '.join(map(str, LINE_LENGTHS))}), "
          f"sets (a power of two, 1 to {MOST_SETS}), "
          f"ways (1 to {MOST_WAYS}), buffer (1 to {MOST_BUFFER}) and apart (ADDR:LENGTH:PIECE, so that each PIECE of "
          f"these bytes has a line of its own), each at most once")
# What `gain` and `depends` are over where no word says it
USUAL = ("caches", "plain")


def counted(count: int, word: str) -> str:
    return f"{count:,} {word}" + ("" if count == 1 else "s")


def value_of(key: str, text: str) -> int | Apart:
    """The value of a key; ValueError where it is none."""
    numbers = text.split(":")[1:] if key == "apart" else [text]
    if not all(NUMBER.fullmatch(number) and int(number) < 1 << 32 for number in numbers):
        raise ValueError(text)
    return Apart.of_text(text) if key == "apart" else int(text)


def asked_by(word: str) -> dict[str, int | Apart]:
    """The keys of a word, each with its value. This is where a word is checked; the programs refuse the same. Pieces of
    what lies apart fit into a line that isn't named, where they do in some version; and the image says the memory."""
    found = FORM.fullmatch(word)
    pairs = [one.split("=") for one in (found[2] or "").split(",") if one] if found else []
    try:
        asked = {key: value_of(key, text) for key, text in pairs}
    except ValueError:
        found, asked = None, {}
    if (found is None or len(asked) < len(pairs)
            or not any(replace(machine, **asked).is_one for machine in BY_VERSION.values())):
        raise BadStore(f"{word!r} names no store; one is {WANTED}")
    return asked


def is_store(word: str) -> bool:
    """Whether a word names a store."""
    try:
        asked_by(word)
    except BadStore:
        return False
    return True


@dataclass(frozen=True, slots=True)
class Store:
    """What a run is over: the word as it was given, and the machine. Over the plain store that is the version's, by
    which `why` tells kinds of violations."""
    word: str
    machine: Machine

    @staticmethod
    def of_word(word: str, version: int = 1) -> "Store":
        """The store that a word names in an image of this version; BadStore where it names none."""
        return Store(word, Machine.of_word(word, version))

    @property
    def is_plain(self) -> bool:
        return self.word == "plain"

    @property
    def is_usual(self) -> bool:
        """Whether the word has no keys, so that the machine is the version's."""
        return self.word in USUAL

    def says(self) -> str:
        """For people, with the word as it was given."""
        if self.is_plain:
            return "the plain store"
        return self.word if self.is_usual else f"{self.word}: {self.machine.says()}"


def store_of(word: str | None, version: int) -> Store | None:
    """The store of a word, where one is given."""
    return None if word is None else Store.of_word(word, version)


def store_word(word: str) -> str:
    """The type of an option `--store`: a word that names a store, as it was given."""
    try:
        asked_by(word)
    except BadStore as wrong:
        raise argparse.ArgumentTypeError(str(wrong)) from None
    return word


def add_store(parser: argparse.ArgumentParser, says: str, default: str | None = None) -> None:
    """The option `--store`."""
    parser.add_argument("--store", type=store_word, default=default, metavar="STORE", help=f"{says}: {WANTED}")
