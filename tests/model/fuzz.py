#!/usr/bin/env python3
"""Compares `trace_cli seq` with the reference model on random image texts.

Usage: tests/model/fuzz.py [--only WORD] [--seed S] [--count N] [--seconds T] [--keep DIR] [COMMAND ..]

COMMAND reads an image on standard input and ends with the word `seq`; without
it `./trace_cli seq` of this repository is tested. Case number I of seed S is
always the same text. Standard output, standard error and status have to be
equal. A differing text is written to DIR (the current directory unless said)
as fuzz-S-I.image; the first one ends the run with status 1.

Half of the texts are well formed: random programs of mostly valid
instructions, with loops, branches and accesses near the edges of memory. The
others are well-formed texts that were damaged in one to three places.
"""

import argparse
import random
import shlex
import sys
import time
from collections import Counter
from collections.abc import Callable, Iterator
from functools import partial
from pathlib import Path
from typing import NamedTuple

import rv32_seq
from rv32_seq import Outcome

sys.path.insert(0, str(Path(__file__).resolve().parent.parent))

from common import ROOT, Check, Script, called_bytes, differs, kept, to_first_failure  # noqa: E402

MASK32 = 0xFFFFFFFF
RETURN = 0x00008067

EDGE_VALUES = [0, 1, 2, 31, 32, 33, 0x7F, 0x80, 0xFF, 0x7FFF, 0x8000, 0xFFFF,
               0x7FFFFFFF, 0x80000000, 0x80000001, 0xFFFFFFFE, MASK32]
EDGE_IMMEDIATES = [0, 1, -1, 2, 3, 4, 7, 8, 16, 31, 32, 63, 64, -4, -16, 2047, -2047, -2048]


# --- Words -----------------------------------------------------------------

def word_of_i(match: int, rd: int, rs1: int, imm: int) -> int:
    return match | rd << 7 | rs1 << 15 | (imm & 0xFFF) << 20


def word_of_s(match: int, rs1: int, rs2: int, imm: int) -> int:
    return match | rs1 << 15 | rs2 << 20 | (imm & 31) << 7 | (imm >> 5 & 127) << 25


def word_of_b(match: int, rs1: int, rs2: int, imm: int) -> int:
    return (match | rs1 << 15 | rs2 << 20 | (imm >> 11 & 1) << 7 | (imm >> 1 & 15) << 8
            | (imm >> 5 & 63) << 25 | (imm >> 12 & 1) << 31)


def word_of_j(rd: int, imm: int) -> int:
    return (0x6F | rd << 7 | (imm >> 12 & 255) << 12 | (imm >> 11 & 1) << 20
            | (imm >> 1 & 0x3FF) << 21 | (imm >> 20 & 1) << 31)


MATCH = {name: match for name, _, _, match in rv32_seq.TABLE}
FORM = {name: form for name, form, _, _ in rv32_seq.TABLE}
BRANCHES = [name for name, form in FORM.items() if form == "B"]
LOADS = ["lb", "lh", "lw", "lbu", "lhu"]
STORES = ["sb", "sh", "sw"]
OF_REGISTERS = [name for name, form in FORM.items() if form == "R"]
OF_IMMEDIATE = [name for name, form in FORM.items() if form in ("I", "shift")
                and name not in LOADS and name != "jalr"]
WIDTH = {"lb": 1, "lbu": 1, "sb": 1, "lh": 2, "lhu": 2, "sh": 2, "lw": 4, "sw": 4}


class ProgramMaker:
    """A random program over a memory of which some registers know the places."""

    def __init__(self, rng: random.Random, size: int, code_length: int) -> None:
        self.rng = rng
        self.size = size
        self.code_length = code_length
        self.values = [2, 3, 5, 6, 7, 11, 12, 16, 28, 31]
        self.pointers = {8: self.place(), 9: code_length if rng.random() < 0.9 else self.place()}
        self.counter = 13

    def place(self) -> int:
        """An address in memory, mostly one that may be stored to."""
        if self.rng.random() < 0.1 or self.code_length >= self.size:
            return self.rng.choice([0, self.size - 4, self.size, self.code_length - 4]) & MASK32
        return self.rng.randrange(self.code_length, self.size) & ~3

    def source(self) -> int:
        return self.rng.choice(self.values + [0, 1, 8, 10])

    def target(self) -> int:
        if self.rng.random() < 0.03:
            return self.rng.choice([0, 1, 8, 10, 10, 13])
        return self.rng.choice(self.values)

    def immediate(self) -> int:
        if self.rng.random() < 0.6:
            return self.rng.choice(EDGE_IMMEDIATES)
        return self.rng.randrange(-2048, 2048)

    def arithmetic(self) -> int:
        if self.rng.random() < 0.5:
            name = self.rng.choice(OF_REGISTERS)
            return MATCH[name] | self.target() << 7 | self.source() << 15 | self.source() << 20
        if self.rng.random() < 0.15:
            name = self.rng.choice(["lui", "auipc"])
            return MATCH[name] | self.target() << 7 | self.rng.getrandbits(20) << 12
        name = self.rng.choice(OF_IMMEDIATE)
        immediate = self.rng.randrange(32) if FORM[name] == "shift" else self.immediate()
        return word_of_i(MATCH[name], self.target(), self.source(), immediate)

    def access(self) -> int:
        """A load or store, mostly aligned and in memory."""
        name = self.rng.choice(LOADS + STORES)
        base = self.rng.choice([8, 8, 9, 9, 0])
        start = self.pointers.get(base, 0)
        aim = self.place() + self.rng.randrange(4)
        if self.rng.random() < 0.98:
            aim -= aim % WIDTH[name]
        if self.rng.random() < 0.05:
            aim = self.rng.choice([self.size - WIDTH[name], self.size, self.code_length - 4, self.code_length])
        offset = max(-2048, min(2047, aim - start))
        if self.rng.random() < 0.97:
            offset -= (start + offset) % WIDTH[name]
            offset = offset if offset >= -2048 else 0
        if name in LOADS:
            return word_of_i(MATCH[name], self.target(), base, offset)
        return word_of_s(MATCH[name], base, self.source(), offset)

    def jump(self, here: int, end: int) -> int:
        """A branch or jump at word `here`, mostly forwards to a word not past `end`."""
        ahead = self.rng.randint(1, max(1, min(6, end - here)))
        offset = 4 * ahead
        if self.rng.random() < 0.05:
            offset = self.rng.choice([2, 6, -2, -4, -8, 0, 2048, -2048, 4094, -4096])
        chance = self.rng.random()
        if chance < 0.1:
            return word_of_j(self.target(), offset)
        if chance < 0.2 and 4 * (here + ahead) < 2048:
            return word_of_i(0x67, self.target(), 0, 4 * (here + ahead) + self.rng.choice([0, 0, 1]))
        return word_of_b(MATCH[self.rng.choice(BRANCHES)], self.source(), self.source(), offset)

    def odd(self) -> int:
        """A word that may be refused, or a rare way to end or to jump."""
        choice = self.rng.randrange(7)
        if choice == 0:
            return self.rng.getrandbits(32)
        if choice == 1:
            return self.arithmetic() ^ 1 << self.rng.randrange(32)
        if choice == 2:
            return self.arithmetic() ^ 1 << self.rng.randrange(25, 32)
        if choice == 3:
            return self.rng.choice([0, MASK32, 0x73, 0x100073, 0x100F, 0x0FF0000F, 0x30200073])
        if choice == 4:
            return word_of_i(0x67, self.target(), 1, self.rng.choice([0, 1, 2, 3, 4, -4]))
        if choice == 5:
            return word_of_i(0x67, self.target(), self.source(), self.immediate())
        return 0x0000000F | self.rng.getrandbits(17) << 15 | self.rng.getrandbits(5) << 7

    def one(self, here: int, end: int) -> int:
        chance = self.rng.random()
        if chance < 0.50:
            return self.arithmetic()
        if chance < 0.80:
            return self.access()
        if chance < 0.98:
            return self.jump(here, end)
        return self.odd()

    def loop(self, here: int, length: int) -> list[int]:
        """Words that run `length` random ones some times, counted in x13."""
        body = [self.one(here + 1 + i, here + 1 + length) for i in range(length)]
        step = [word_of_i(0x13, self.counter, self.counter, -1),
                word_of_b(MATCH["bne"], self.counter, 0, -4 * (length + 1))]
        return [word_of_i(0x13, self.counter, 0, self.rng.randint(1, 9))] + body + step

    def show(self, count: int) -> list[int]:
        """Stores of registers, so that the report tells what they hold."""
        room = (self.size - self.pointers[9]) // 4
        registers = self.rng.sample(self.values + [0, 1, 8, 10, 13], min(count, room, 12))
        return [word_of_s(MATCH["sw"], 9, register, 4 * i) for i, register in enumerate(registers)]

    def words(self, count: int) -> list[int]:
        """About `count` words that mostly show some registers and return."""
        last = [RETURN] if self.rng.random() < 0.95 else [self.one(count, count)]
        if self.rng.random() < 0.9 and self.pointers[9] >= self.code_length:
            last = self.show(count // 3) + last
        made: list[int] = []
        end = count - len(last)
        while len(made) < end:
            left = end - len(made)
            if left >= 6 and self.rng.random() < 0.08:
                made += self.loop(len(made), self.rng.randint(1, left - 4))
            else:
                made.append(self.one(len(made), end))
        return made + last


# --- Texts -----------------------------------------------------------------

def data_line(rng: random.Random, size: int, code_length: int, start: int, length: int) -> str:
    """An `at` line of random bytes, rarely outside of memory."""
    if rng.random() < 0.01:
        start = rng.choice([0, code_length - 1, size - 1, size, MASK32])
    return f"at {start:08x} {rng.randbytes(length).hex()}"


def data_lines(rng: random.Random, size: int, code_length: int) -> list[str]:
    """Some `at` lines, the first one often over much of memory."""
    lines = []
    if code_length < size and rng.random() < 0.8:
        lines.append(data_line(rng, size, code_length, code_length, min(512, size - code_length)))
    for _ in range(rng.choice([0, 0, 1, 3])):
        start = rng.randrange(min(code_length, size - 1), size)
        lines.append(data_line(rng, size, code_length, start, rng.randint(1, min(24, size - start))))
    return lines


def well_formed(rng: random.Random) -> list[str]:
    """The lines of an image text; a few have a fault by a range or a place."""
    version = rng.choice([None, None, None, 1, 2])
    size = 16 * rng.choice([1, 2, 4, 8, 16, 16, 16, 64, 128, 256])
    if version == 2:
        size = 32 * rng.choice([1, 2, 4, 8, 8, 64, 2048, 32_768]) if rng.random() < 0.95 else size
    count = rng.randint(1, min(size // 4, rng.choice([3, 8, 20, 20, 40])))
    maker = ProgramMaker(rng, size, 4 * count)
    code = b"".join(word.to_bytes(4, "little") for word in maker.words(count))
    lines = [f"size {size}", f"code {code.hex()}"]
    others = [f"epochs {rng.choice([0, 1, 1, 2, 3, 4, 7])}",
              f"limit {rng.choice([1, 2, 5, 20, 200, 200, 500, 500, 1500, 1500])}"]
    others += [f"reg {register} {value:08x}" for register, value in maker.pointers.items()]
    for register in maker.values:
        if rng.random() < 0.8:
            value = rng.choice(EDGE_VALUES) if rng.random() < 0.6 else rng.getrandbits(32)
            others.append(f"reg {register} {value:08x}")
    for line in others:
        lines.insert(rng.randint(0, len(lines)), line)
    if rng.random() < 0.4:
        lines.insert(rng.randint(0, len(lines)), "exit")
    for line in data_lines(rng, size, 4 * count):
        below = max(i for i, text in enumerate(lines) if text.startswith(("size", "code", "at")))
        lines.insert(rng.randint(below + 1, len(lines)), line)
    if version is not None:
        lines.insert(0 if rng.random() < 0.98 else rng.randint(0, len(lines)), f"version {version}")
    return lines


def upper_case(line: str) -> str:
    """A code line with its ASCII letters after the keyword in upper case."""
    return "code " + line[5:].encode("latin-1").upper().decode("latin-1")


def dressed(rng: random.Random, lines: list[str]) -> bytes:
    """The bytes of a text, with some remarks, empty lines and upper case digits."""
    lines = list(lines)
    for _ in range(rng.choice([0, 0, 1, 3])):
        lines.insert(rng.randint(0, len(lines)), rng.choice(["", "#", "# a remark", "#size 0", "##  x "]))
    if rng.random() < 0.1:
        lines = [upper_case(line) if line.startswith("code ") else line for line in lines]
    text = "\n".join(lines)
    return (text if rng.random() < 0.2 else text + "\n").encode("latin-1")


NASTY_WORDS = ["", "0", "00", "0256", "+4", "-1", "16", "17", "31", "32", "65535", "65536", "65552", "1000000",
               "1000001", "4294967295", "4294967296", "4294967301", "9999999999", "10000000000", "x", "zz", "7",
               "0000000g", "00000000", "000000000", "0000000", "ffffffff", "FFFFFFFC", "00000040", "1e1", "0x10",
               "deadbeef", "6780000", "67800000", "1", "10", "size", "code", "at", "reg", "limit", "epochs",
               "version", "exit", "trace", "#", "\t", "\r", "\xff"]
NASTY_LINES = ["size 16", "size 0", "size 65536", "size 65552", "size 24", "epochs 0", "epochs 65535", "epochs 65536",
               "limit 0", "limit 1", "limit 1000000", "limit 1000001", "code 67800000", "code 678000", "code",
               "code ", "reg 0 00000000", "reg 1 00000000", "reg 10 00000000", "reg 31 00000001", "reg 32 00000000",
               "reg 40 zz", "reg 5 0000000", "reg 8 00000000", "at 00000000 00", "at 00000040 0", "at 00000040 zz",
               "at 000000ff 0000", "at 00000040 00", "at 40 00", " ", "  ", "\t", "\r", " # x", "size", "trace 1",
               "version 1", "version 2", "version 3", "version 0", "version 02", "version", "version 4294967298",
               "exit",
               "exit", "exit 0", "exit ", " exit", "size 32", "size 48", "size 1048576", "size 1048608", "SIZE 16",
               "size  16", "size 16 ", " size 16", "size 16 16"]


def damaged(rng: random.Random, lines: list[str]) -> bytes:
    """The bytes of a text with one to three places changed."""
    lines = list(lines)
    for _ in range(rng.randint(1, 3)):
        if rng.random() < 0.75:
            damage_line(rng, lines)
    data = bytearray(dressed(rng, lines))
    if rng.random() < 0.4:
        damage_byte(rng, data)
    return bytes(data)


def damage_line(rng: random.Random, lines: list[str]) -> None:
    place = rng.randrange(len(lines)) if lines else 0
    choice = rng.randrange(8) if lines else 1
    if choice == 0:
        lines.insert(rng.randint(0, len(lines)), lines[place])
    elif choice == 1:
        lines.insert(rng.randint(0, len(lines)), rng.choice(NASTY_LINES))
    elif choice == 2:
        del lines[place]
    elif choice == 3:
        other = rng.randrange(len(lines))
        lines[place], lines[other] = lines[other], lines[place]
    else:
        damage_word(rng, lines, place)


def damage_word(rng: random.Random, lines: list[str], place: int) -> None:
    words = lines[place].split(" ")
    word = rng.randrange(len(words))
    choice = rng.randrange(5)
    if choice == 0:
        words.insert(word, rng.choice(NASTY_WORDS))
    elif choice == 1:
        del words[word]
    elif choice == 2 and words[word]:
        words[word] = words[word][:-1]
    elif choice == 3:
        words[word] += rng.choice(["0", "f", "g", "00", " ", "\r"])
    else:
        words[word] = rng.choice(NASTY_WORDS)
    lines[place] = " ".join(words)


def damage_byte(rng: random.Random, data: bytearray) -> None:
    place = rng.randint(0, len(data))
    choice = rng.randrange(4)
    byte = rng.choice(b"\n\n  #09afgzAFG\r\t\x00\x7f\x80\xff") if rng.random() < 0.8 else rng.getrandbits(8)
    if choice == 0:
        data.insert(place, byte)
    elif choice == 1 and place < len(data):
        del data[place]
    elif choice == 2 and place < len(data):
        data[place] = byte
    else:
        del data[place:]


def case(seed: str, index: int) -> bytes:
    """The text of one case."""
    rng = random.Random(f"{seed}/{index}")
    lines = well_formed(rng)
    if rng.random() < 0.002:
        padding = b"#" * (rv32_seq.MAX_TEXT - rng.choice([-1, 0, 1]))
        return padding if rng.random() < 0.5 else dressed(rng, lines) + padding
    return dressed(rng, lines) if rng.random() < 0.5 else damaged(rng, lines)


# --- Comparing -------------------------------------------------------------

def outcome_of(command: list[str], text: bytes) -> Outcome:
    result = called_bytes(command, text)
    return result.stdout.decode("latin-1"), result.stderr.decode("latin-1"), result.returncode


def kind(outcome: Outcome) -> str:
    """A short name of an outcome, for the summary."""
    out, err, _ = outcome
    if err:
        return err.split()[-1]
    words = out.split("\n", 1)[0].split()
    return f"fault {words[3]}" if words[1] == "fault" else words[1]


class Compared(NamedTuple):
    """What a program is compared with on drawn inputs: the name and the ending of one that is kept, how one is drawn
    from a seed, what has to come of it, and a short name of that."""

    name: str
    ending: str
    case: Callable[[str, int], bytes]
    model: Callable[[bytes], Outcome]
    kind: Callable[[Outcome], str]


# How often each kind of outcome came.
kinds: Counter[str] = Counter()


def cases(compared: Compared, given: argparse.Namespace, command: list[str]) -> Iterator[Check]:
    """Each input of a seed, until the time is up."""
    begun = time.monotonic()
    for index in range(given.count):
        if given.seconds and time.monotonic() - begun > given.seconds:
            break
        text = compared.case(given.seed, index)
        expected = compared.model(text)
        wrong = differs(outcome_of(command, text), expected)
        kinds[compared.kind(expected)] += 1
        name = f"{compared.name}-{given.seed}-{index}"
        yield name, wrong and kept(given.keep, f"{name}.{compared.ending}", text, wrong)


def parser_of(description: str) -> argparse.ArgumentParser:
    """The words that a comparison takes."""
    parser = argparse.ArgumentParser(description=description)
    parser.add_argument("--seed", default="1")
    parser.add_argument("--count", type=int, default=1000)
    parser.add_argument("--seconds", type=float, help="stop after this time, whatever the count")
    parser.add_argument("--keep", type=Path, default=Path("."))
    parser.add_argument("command", nargs=argparse.REMAINDER)
    return parser


def compare(script: Script, compared: Compared, given: argparse.Namespace, command: list[str]) -> int:
    """Compares up to the first input that differs, and tells which kinds there were; the status of the script."""
    def drawn() -> Iterator[Check]:
        return to_first_failure(cases(compared, given, command))

    script.run(drawn)
    print(f"seed {given.seed}:", ", ".join(f"{count} {kind}" for kind, count in sorted(kinds.items())))
    return script.ended("cases")


def main() -> int:
    script = Script()
    parser = parser_of("Compares a program with the reference model.")
    parser.add_argument("--model", help="a command to compare with instead of the reference model")
    given = parser.parse_args(script.words)
    model: Callable[[bytes], Outcome] = rv32_seq.outcome
    if given.model:
        model = partial(outcome_of, shlex.split(given.model))
    command = given.command or [str(ROOT / "trace_cli"), "seq"]
    return compare(script, Compared("fuzz", "image", case, model, kind), given, command)


if __name__ == "__main__":
    sys.exit(main())
