"""The way of a value through registers, from a load to a store, as far as the code between them says: a guess for
advice, and no claim."""

from enum import Enum

from loops import Image

LOAD, IMMEDIATE, OPERATION, STORE, BRANCH = 0b0000011, 0b0010011, 0b0110011, 0b0100011, 0b1100011
JUMPS = {BRANCH, 0b1101111, 0b1100111}
# A load, a few instructions without a jump and the store change a word at once.
MOST_AT_ONCE = 8


class Way(Enum):
    """How a loaded value gets into what is stored."""
    NONE = "not at all"
    COMPUTED = "by arithmetic"
    LOADED = "by loads at addresses that are made of it"


def word_at(image: Image, pc: int) -> int:
    return int.from_bytes(image.code[pc:pc + 4], "little")


def step(word: int, made: dict[int, Way]) -> None:
    """What one instruction makes of the registers that have something of the value."""
    opcode, target, first, second = word & 127, word >> 7 & 31, word >> 15 & 31, word >> 20 & 31
    if opcode in (STORE, BRANCH) or target == 0:
        return
    sources = {OPERATION: [first, second], IMMEDIATE: [first], LOAD: [first]}.get(opcode, [])
    ways = [made[one] for one in sources if one in made]
    made.pop(target, None)
    if ways:
        made[target] = Way.LOADED if opcode == LOAD or Way.LOADED in ways else Way.COMPUTED


def way_of(image: Image, load: int, store: int) -> Way:
    """How the value of a load gets into what a store behind it stores, along the code between them."""
    made = {word_at(image, load) >> 7 & 31: Way.COMPUTED}
    for pc in range(load + 4, store, 4):
        step(word_at(image, pc), made)
    return made.get(word_at(image, store) >> 20 & 31, Way.NONE) if store > load else Way.NONE


def is_at_once(image: Image, load: int, store: int) -> bool:
    """Whether a word is loaded, changed and stored by a few instructions, one behind the other."""
    between = range(load + 4, store, 4)
    return (load < store and len(between) <= MOST_AT_ONCE
            and all(word_at(image, pc) & 127 not in JUMPS for pc in between))
