#!/usr/bin/env python3
"""Runs every row of the instruction vectors as an image.

Usage: tests/vectors/check.py [--only WORD] [COMMAND ..]

COMMAND reads an image on standard input and ends with the word `seq`; without
it `./trace_cli seq` of this repository is tested. Each row becomes an image of
one epoch that shows its result in the report; one row of each instruction also
runs under a limit that it just uses up. Exits with 1 where a report differs
from the row.
"""

import sys
from collections.abc import Callable, Iterator, Mapping, Sequence
from functools import wraps
from pathlib import Path
from typing import NamedTuple

HERE = Path(__file__).resolve().parent
sys.path.insert(0, str(HERE.parent))

from common import Check, Part, Script, called, differs  # noqa: E402

RETURN = 0x00008067
ECALL = 0x00000073
MASK32 = 0xFFFFFFFF
PATTERN = "00112233445566778899aabbccddeeff"
MARK = "a5a5a5a5"

# Branches and jumps stand in the middle of a field of ECALL words, so that the
# fault that ends the epoch tells where they went.
FIELD_WORDS = 4096
MIDDLE = 8192
LINK_PLACE = 4 * FIELD_WORDS


class Case(NamedTuple):
    """A row: its text, its image, and the report of that."""

    text: str
    image: str
    report: str


def rows(name: str) -> Iterator[list[str]]:
    """The rows of a file, with hexadecimal columns as they are spelled."""
    for line in (HERE / f"{name}.txt").read_text().splitlines():
        if not line.startswith("#"):
            yield line.split(" | ")


def store_word(register: int, place: int, base: int = 0) -> int:
    """The word of SW register, place(base)."""
    return (place >> 5) << 25 | register << 20 | base << 15 | 2 << 12 | (place & 31) << 7 | 0x23


def jump_word(offset: int) -> int:
    """The word of JAL x0 by a positive offset."""
    bits = (offset >> 20 & 1) << 31 | (offset >> 1 & 0x3FF) << 21 | (offset >> 11 & 1) << 20
    return bits | (offset >> 12 & 0xFF) << 12 | 0x6F


def number(word: str) -> int:
    return int(word, 16)


def image(words: Sequence[int], registers: Mapping[int, int] | None = None, data: Sequence[tuple[int, str]] = (),
          size: int = 256, limit: int = 100) -> str:
    """An image text of one epoch; x5 starts with a value that no row expects."""
    code = b"".join(word.to_bytes(4, "little") for word in words).hex()
    lines = [f"size {size}", "epochs 1", f"limit {limit}", f"code {code}"]
    lines += [f"reg {register} {value:08x}" for register, value in {5: 0x5A5A5A5A, **(registers or {})}.items()
              if register]
    lines += [f"at {place:08x} {digits}" for place, digits in data]
    return "\n".join(lines) + "\n"


def little(value: int) -> str:
    return value.to_bytes(4, "little").hex()


def shown(value: int, place: int = 0x40) -> str:
    """The report line of a word stored over the mark at the start of a row."""
    return f"at {place:08x} {little(value)}{MARK * 3}\n"


def result_image(word: int, target: int, registers: Mapping[int, int]) -> str:
    """Runs the word and stores the target register at 0x40."""
    return image([word, store_word(target, 0x40), RETURN], registers, [(0x40, MARK * 4)])


def arithmetic() -> Iterator[Case]:
    for text, word, first, second, result in [*rows("register"), *rows("immediate")]:
        registers = {6: number(first), 7: number(second)}
        yield Case(text, result_image(number(word), 5, registers), "end done 1\n" + shown(number(result)))


def upper() -> Iterator[Case]:
    for text, word, result in rows("upper"):
        yield Case(text, result_image(number(word), 5, {}), "end done 1\n" + shown(number(result)))


def other_registers() -> Iterator[Case]:
    for text, word, *numbers in rows("registers"):
        first, a, second, b, target, result = map(number, numbers)
        yield Case(text, result_image(number(word), target, {target: 0x5A5A5A5A, first: a, second: b}),
                   "end done 1\n" + shown(result))


def loads() -> Iterator[Case]:
    for text, word, base, result in rows("load"):
        made = image([number(word), store_word(5, 0x50), RETURN], {6: number(base)},
                     [(0x40, PATTERN), (0x50, MARK * 4)])
        yield Case(text, made, "end done 1\n" + shown(number(result), 0x50))


def stores() -> Iterator[Case]:
    for text, word, base, value, result in rows("store"):
        made = image([number(word), RETURN], {6: number(base), 7: number(value)}, [(0x40, PATTERN)])
        yield Case(text, made, f"end done 1\nat 00000040 {result}\n")


def field(word: int, at_target: tuple[int, int] | None = None) -> list[int]:
    """The ECALL field with a word in the middle and (place, word) at a target."""
    words = [ECALL] * FIELD_WORDS
    words[0] = jump_word(MIDDLE)
    words[MIDDLE // 4] = word
    if at_target:
        words[at_target[0] // 4] = at_target[1]
    return words


def branches() -> Iterator[Case]:
    for text, word, first, second, offset in rows("branch"):
        made = image(field(number(word)), {6: number(first), 7: number(second)}, size=LINK_PLACE + 16)
        yield Case(text, made, f"end fault 0 2 {MIDDLE + number(offset) & MASK32:08x}\n")


def jump(text: str, word: str, registers: Mapping[int, int], link: str, offset: str) -> Case:
    """A jump whose link is stored at its target; the word after it faults."""
    target_register = number(word) >> 7 & 31
    target = MIDDLE + number(offset) & MASK32
    base = 9
    made = image(field(number(word), (target, store_word(target_register, 0, base))), {**registers, base: LINK_PLACE},
                 [(LINK_PLACE, MARK * 4)], size=LINK_PLACE + 16)
    linked = MIDDLE + number(link) if target_register else 0
    return Case(text, made, f"end fault 0 2 {target + 4:08x}\n" + shown(linked, LINK_PLACE))


def jumps() -> Iterator[Case]:
    for text, word, link, offset in rows("jal"):
        yield jump(text, word, {}, link, offset)
    for text, word, source, link, offset in rows("jalr"):
        register = number(word) >> 15 & 31
        yield jump(text, word, {register: MIDDLE + number(source) & MASK32}, link, offset)


def stops() -> Iterator[Case]:
    for text, word in rows("fence"):
        yield Case(text, image([number(word), RETURN]), "end done 1\n")
    for text, word in rows("system"):
        yield Case(text, image([number(word), RETURN]), "end fault 0 2 00000000\n")
    for text, word, _ in rows("illegal"):
        yield Case(text, image([number(word), RETURN]), "end fault 0 1 00000000\n")


def of_each_instruction(name: str) -> Iterator[list[str]]:
    """The first row of each instruction in a file."""
    seen: set[str] = set()
    for row in rows(name):
        instruction = row[0].split()[0]
        if instruction not in seen:
            seen.add(instruction)
            yield row


def counted() -> Iterator[Case]:
    """One instruction of each kind under a limit after which the next one faults."""
    for name in ("register", "immediate", "upper", "fence"):
        for text, word, *_ in of_each_instruction(name):
            yield Case(f"{text}, counted", image([number(word), RETURN], limit=1), "end fault 0 8 00000004\n")
    for name in ("load", "store"):
        for text, word, base, *_ in of_each_instruction(name):
            made = image([number(word), RETURN], {6: number(base), 7: 0xA5A5A5A5}, [(0x40, MARK * 4)], limit=1)
            yield Case(f"{text}, counted", made, "end fault 0 8 00000004\n")
    for text, word, first, second, offset in of_each_instruction("branch"):
        made = image(field(number(word)), {6: number(first), 7: number(second)}, size=LINK_PLACE, limit=2)
        yield Case(f"{text}, counted", made, f"end fault 0 8 {MIDDLE + number(offset) & MASK32:08x}\n")
    for text, word, _, offset in of_each_instruction("jal"):
        made = image(field(number(word)), size=LINK_PLACE, limit=2)
        yield Case(f"{text}, counted", made, f"end fault 0 8 {MIDDLE + number(offset) & MASK32:08x}\n")
    for text, word, source, _, offset in of_each_instruction("jalr"):
        registers = {number(word) >> 15 & 31: MIDDLE + number(source) & MASK32}
        made = image(field(number(word)), registers, size=LINK_PLACE, limit=2)
        yield Case(f"{text}, counted", made, f"end fault 0 8 {MIDDLE + number(offset) & MASK32:08x}\n")


def part_of(cases: Callable[[], Iterator[Case]], command: list[str]) -> Part:
    """The part of a script that runs these images."""
    @wraps(cases)
    def part() -> Iterator[Check]:
        for text, made, report in cases():
            done = called(command, made)
            wanted = report, "", 0 if report.startswith("end done") else 1
            yield text, differs((done.stdout, done.stderr, done.returncode), wanted)
    return part


GROUPS = (arithmetic, upper, other_registers, loads, stores, branches, jumps, stops, counted)


def main() -> int:
    script = Script()
    script.run(*(part_of(cases, script.command()) for cases in GROUPS))
    return script.ended("rows")


if __name__ == "__main__":
    sys.exit(main())
