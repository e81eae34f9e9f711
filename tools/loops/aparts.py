"""The option `--apart`: a variable whose pieces have lines of their own, by its name in the image's remarks."""

import argparse
from collections.abc import Callable
from dataclasses import dataclass

from .images import Image, Unreadable, Variable
from .stores import NUMBER, Apart, BadStore, asked_by
from .texts import shown

# Bytes of a word: what lies apart is whole words.
WORD = 4


@dataclass(frozen=True)
class Named:
    """A variable, and how many bytes each of its pieces has."""
    name: str
    piece: int


def named_apart(word: str) -> Named:
    """The type of the option: what `NAME:BYTES` says. A name may have colons of its own."""
    name, _, piece = word.rpartition(":")
    if not name or NUMBER.fullmatch(piece) is None:
        raise argparse.ArgumentTypeError(f"{word!r} isn't NAME:BYTES, as counter:4")
    return Named(name, int(piece))


def apart_of(variable: Variable, piece: int) -> Apart:
    """A variable, with the rest of its first and last word, in such pieces."""
    first, end = variable.address // WORD * WORD, -(-(variable.address + variable.length) // WORD) * WORD
    return Apart(first, end - first, piece)


def store_apart(store: str | None, asked: Named | None, image: Callable[[], Image]) -> str | None:
    """The word of a store of this image, caches where none is given, with the key `apart` for the variable that is
    asked for. Unreadable where the image names no such variable, or where there is no such store."""
    if asked is None:
        return store
    variable = next((one for one in image().variables if one.name == asked.name), None)
    if variable is None:
        raise Unreadable(f"no remark of the image names a variable {shown(asked.name)}")
    word = store or "caches"
    told = f"{word}{',' if ':' in word else ':'}apart={apart_of(variable, asked.piece).text}"
    try:
        asked_by(told)
    except BadStore as wrong:
        raise Unreadable(str(wrong)) from None
    return told


def add_apart(parser: argparse.ArgumentParser) -> None:
    """The option `--apart`."""
    parser.add_argument("--apart", type=named_apart, metavar="NAME:BYTES",
                        help="each BYTES of the variable NAME have a line of their own in these caches")
