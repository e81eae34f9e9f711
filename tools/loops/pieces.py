"""JSON that stands in a file, read in pieces: of a long list one item at a time is in memory."""

import codecs
import json
import re
from collections.abc import Callable, Iterable, Iterator
from pathlib import Path
from typing import Any, BinaryIO

from .images import Unreadable
from .texts import text_out

# How many bytes are read at once.
CHUNK = 1 << 16
BLANKS = re.compile("[ \t\n\r]*")
# One of these stands behind a value that has come whole. A number might go on behind anything else.
BEHIND = frozenset(" \t\n\r,:]}")
DECODER = json.JSONDecoder()
# In a table of places, what says that a list stands there.
LIST = "list"


def behind_blanks(text: str, place: int = 0) -> int:
    """The place of the next character of a text that is no blank."""
    blanks = BLANKS.match(text, place)
    return blanks.end() if blanks else place


class Items:
    """A list of which no item is kept: they are read anew each time."""

    def __init__(self, begin: Callable[[], Iterable[Any]]):
        self.begin = begin

    def __iter__(self) -> Iterator[Any]:
        return iter(self.begin())

    def check(self) -> "Items":
        """Reads all once, so that what is wrong with one is told before anything is written."""
        for _ in self:
            pass
        return self


class Reader:
    """Takes JSON off a file from an offset on. What has been taken is forgotten."""

    def __init__(self, source: BinaryIO, offset: int = 0):
        source.seek(offset)
        self.source = source
        self.read = offset              # bytes of the file
        self.decoder = codecs.getincrementaldecoder("utf-8")("surrogateescape")
        self.buffer = ""
        self.place = 0                  # of what is next, in the buffer
        self.ended = False

    def more(self, length: int) -> None:
        """Reads so many bytes more."""
        data = self.source.read(length)
        self.read += len(data)
        self.ended = not data
        self.buffer = self.buffer[self.place:] + self.decoder.decode(data, self.ended)
        self.place = 0

    def peek(self) -> str:
        """The next character that is no blank, which is the next one to be taken then; nothing at the end."""
        self.place = behind_blanks(self.buffer, self.place)
        while self.place == len(self.buffer) and not self.ended:
            self.more(CHUNK)
            self.place = behind_blanks(self.buffer)
        return self.buffer[self.place:self.place + 1]

    def take(self, marks: str) -> str:
        """Takes the next character, which is one of these."""
        mark = self.peek()
        if not mark or mark not in marks:
            raise Unreadable(f"{mark!r} stands where one of {marks!r} belongs")
        self.place += 1
        return mark

    def value(self) -> Any:
        """Takes a value. Where the buffer ends in its middle, twice as much is read each time, so a long one costs time
        by its length."""
        self.peek()
        length = CHUNK
        while True:
            try:
                value, end = DECODER.raw_decode(self.buffer, self.place)
                if self.ended or self.buffer[end:end + 1] in BEHIND:
                    self.place = end
                    return value
            except json.JSONDecodeError:
                if self.ended:
                    raise
            self.more(length)
            length *= 2

    def keys(self) -> Iterator[str]:
        """The keys of an object. The value of each is taken before the next key is asked for."""
        self.take("{")
        mark = self.peek()
        while mark != "}":
            if self.peek() != '"':
                raise Unreadable("a key is no string")
            key = self.value()
            self.take(":")
            yield key
            mark = self.take(",}")
            self.place -= mark == "}"
        self.take("}")

    def items(self) -> Iterator[Any]:
        """The items of a list."""
        self.take("[")
        mark = self.peek()
        while mark != "]":
            yield self.value()
            mark = self.take(",]")
            self.place -= mark == "]"
        self.take("]")

    def offset(self) -> int:
        """The bytes of the file before what is next."""
        return self.read - len(self.decoder.getstate()[0]) - len(text_out(self.buffer[self.place:]))


def items_at(path: Path, offset: int) -> Iterator[Any]:
    """The items of the list that stands there in a file."""
    with path.open("rb") as source:
        yield from Reader(source, offset).items()


def skip_list(reader: Reader, path: Path) -> Items:
    """Takes a list, and keeps where it stands."""
    reader.peek()
    offset = reader.offset()
    for _ in reader.items():
        pass
    return Items(lambda: items_at(path, offset))


def read_value(reader: Reader, path: Path, places: Any) -> Any:
    """Takes a value. Of the lists that stand at some places in it, no item is kept: `places` is LIST, or a table of the
    places below each key, or None."""
    mark = reader.peek()
    if places == LIST and mark == "[":
        return skip_list(reader, path)
    if not isinstance(places, dict) or mark != "{":
        return reader.value()
    told: dict[str, Any] = {}
    for key in reader.keys():
        if key in told:
            raise Unreadable(f"{key!r} is said twice")
        told[key] = read_value(reader, path, places.get(key))
    return told


def read_document(path: Path, lists: dict[str, dict[str, Any]]) -> dict[str, Any]:
    """The document that stands in a file. `lists` says for each form which lists aren't kept; where the form isn't said
    before the content, all is."""
    told: dict[str, Any] = {}
    with path.open("rb") as source:
        reader = Reader(source)
        for key in reader.keys():
            if key in told:
                raise Unreadable(f"{key!r} is said twice")
            told[key] = read_value(reader, path, lists.get(told.get("form", "")) if key == "content" else None)
        if reader.peek():
            raise Unreadable("something stands behind the document")
    return told
