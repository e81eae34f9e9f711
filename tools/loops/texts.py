"""Text from outside. It comes in and goes out as UTF-8, with bytes that are none kept as they are; where people read
it, `shown` takes out what isn't to be seen."""

import re
import shutil
import sys
from collections.abc import Iterable, Iterator
from pathlib import Path

# What would break XML, drive a terminal, end a line, or turn the direction of what stands beside it: control
# characters, line and paragraph separators, the marks and embeddings of the Unicode Bidirectional Algorithm (UAX 9),
# halves of surrogate pairs (so bytes that aren't UTF-8), and what is no character.
UNSEEN = re.compile("[\x00-\x1f\x7f-\x9f\u061c\u200e\u200f\u2028-\u202e\u2066-\u2069\ud800-\udfff\ufffe\uffff]")
REPLACEMENT = "\ufffd"


def text_in(data: bytes) -> str:
    """The text of bytes from outside."""
    return data.decode("utf-8", "surrogateescape")


def text_out(text: str) -> bytes:
    """The bytes of a text: those that it was read from."""
    return text.encode("utf-8", "surrogateescape")


def read_input() -> str:
    """All of standard input."""
    return text_in(sys.stdin.buffer.read())


def keep_input(path: Path) -> None:
    """All of standard input as a file, for what reads it more than once and keeps none of it in memory."""
    with path.open("wb") as kept:
        shutil.copyfileobj(sys.stdin.buffer, kept)


def iter_lines(path: Path) -> Iterator[str]:
    """The lines of a file, each with its line feed. Nothing but a line feed ends one, as in the programs."""
    with path.open("rb") as source:
        for line in source:
            yield text_in(line)


def iter_split(texts: Iterable[str]) -> Iterator[str]:
    """The lines of all texts, without their ends, as `splitlines` has them."""
    return (line for text in texts for line in text.splitlines())


def write_output(text: str) -> None:
    """Writes a text on standard output."""
    sys.stdout.buffer.write(text_out(text))


def shown(text: str) -> str:
    """A text for one line of a picture, a page, a plot or a terminal: a tab is a space, and another such character is
    the replacement character."""
    return UNSEEN.sub(REPLACEMENT, text.replace("\t", " "))
