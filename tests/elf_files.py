#!/usr/bin/env python3
"""ELF files that are damaged or made to mislead, as tools/image-of takes them: what is told is a reason, and what is
made has the file's bytes.

Usage: tests/elf_files.py [--count N] [--seed S]

Six good files, of both compilers and linkers, are changed at a few places drawn from a seed (2,000 times): bytes, words
and lengths. Each then has to end in an image or a refusal, in a short time, and an image has to have the bytes that the
file's own tables say, which a reader of this test's looks up. Names with line feeds and blanks, and variables far
larger than memory, are tried too. What isn't installed is left out, and a line says so. Exits with 1 where a check
failed.
"""

import argparse
import contextlib
import io
import os
import random
import re
import resource
import shutil
import struct
import subprocess
import sys
import tempfile
import time
from collections.abc import Iterator
from dataclasses import dataclass
from functools import partial
from pathlib import Path
from types import ModuleType

from common import Check, Script, called_well, left_out

TOOLS = Path(__file__).resolve().parent.parent / "tools"
sys.path.insert(0, str(TOOLS))
sys.dont_write_bytecode = True

GCC = ["riscv64-unknown-elf-gcc", "-march=rv32i", "-mabi=ilp32", "-O1", "-ffreestanding", "-msmall-data-limit=0"]
CLANG = ["clang", "--target=riscv32-unknown-elf", "-march=rv32i", "-mabi=ilp32", "-O1", "-ffreestanding",
         "-msmall-data-limit=0"]
LD = ["riscv64-unknown-elf-ld", "--no-warn-rwx-segments", "-m", "elf32lriscv", "-e", "body"]
LLD = ["ld.lld", "-m", "elf32lriscv", "-e", "body"]
SOURCE = ("unsigned out[4], given[3] = {1, 2, 3};\nconst unsigned char table[5] = {9, 8, 7, 6, 5};\nvoid body(unsigned "
          "e) { out[e] = given[e & 1] + table[e]; }\n")
OWN = "_Thread_local unsigned kept[2] = {4, 5};\nunsigned out[4];\nvoid body(unsigned e) { out[e] = kept[e & 1]++; }\n"
# No relocation changes what this object's sections say.
ALONE = (" .globl body\n .type body, @function\nbody:\n lui t0, 1\n add t0, t0, a0\n lbu t1, 0(t0)\n sb t1, 16(t0)\n "
         "ret\n .size body, .-body\n .data\n .balign 16\n .globl kept\n"
         " .type kept, @object\n .size kept, 8\nkept:\n .word 0x04030201, 0x08070605\n")
# Each file with its share of the changes: those that a linker reads cost more.
SHARES = {"gnu.elf": 500, "lld.elf": 450, "own.elf": 400, "apart.elf": 450, "alone.o": 140, "alone.a": 60}
MOST_SECONDS = 20
WORDS = (0, 1, 0x7F, 0xFFFF, 0x10000, 0x7FFFFFFF, 0x80000000, 0xFFFFFFFF)


def do(*command: str, cwd: Path) -> None:
    called_well([str(one) for one in command], cwd=cwd)


def furnish(folder: Path) -> None:
    """Makes the six good files."""
    for name, text in (("source.c", SOURCE), ("own.c", OWN), ("alone.s", ALONE)):
        (folder / name).write_text(text)
    do(*GCC, "-gdwarf-5", "-c", "source.c", "-o", "gnu.o", cwd=folder)
    do(*CLANG, "-gdwarf-4", "-c", "source.c", "-o", "clang.o", cwd=folder)
    do(*GCC, "-g", "-ffunction-sections", "-c", "own.c", "-o", "own.o", cwd=folder)
    do(*GCC, "-g", "-c", "alone.s", "-o", "alone.o", cwd=folder)
    do(*LD, "-Ttext=0x20", "gnu.o", "-o", "gnu.elf", cwd=folder)
    do(*LLD, "-Ttext=0x20", "clang.o", "-o", "lld.elf", cwd=folder)
    do(*LD, "--gc-sections", "-Ttext=0x20", "own.o", "-o", "own.elf", cwd=folder)
    do(*CLANG, "-gdwarf-5", "-c", "source.c", "-o", "apart.o", cwd=folder)
    do(*LD, "-z", "separate-code", "-Ttext=0x40", "apart.o", "-o", "apart.elf", cwd=folder)
    do("riscv64-unknown-elf-ar", "rc", "alone.a", "alone.o", cwd=folder)


# --- The tool, in this process ------------------------------------------------

@dataclass
class Answer:
    """What the tool said: its status, its image, its lines on standard error, and an exception that it let through."""
    status: int | None
    image: str
    errors: str
    raised: str | None
    seconds: float


def tool() -> ModuleType:
    """tools/image-of as a module."""
    from loops.commands import image_of
    return image_of


def answer_of(module: ModuleType, words: list[str]) -> Answer:
    """Calls the tool with these words."""
    data, err = io.BytesIO(), io.StringIO()
    out = io.TextIOWrapper(data, encoding="utf-8")
    begun, status, raised = time.process_time(), None, None
    with contextlib.redirect_stdout(out), contextlib.redirect_stderr(err):
        try:
            status = module.answer(words)
        except Exception as wrong:      # what a person would see as a traceback
            raised = f"{type(wrong).__name__}: {wrong}"
    out.flush()
    return Answer(status, data.getvalue().decode("utf-8", "surrogateescape"), err.getvalue(), raised,
                  time.process_time() - begun)


# --- What a file says, read apart from the tool -------------------------------

def memory_of(image: str) -> dict[int, int]:
    """The bytes of an image, by address."""
    code = bytes.fromhex((re.search(r"(?m)^code ([0-9a-f]+)$", image) or [""] * 2)[1])
    found = dict(enumerate(code))
    for address, digits in re.findall(r"(?m)^at ([0-9a-f]{8}) ([0-9a-f]+)$", image):
        found.update({int(address, 16) + place: byte for place, byte in enumerate(bytes.fromhex(digits))})
    return found


def headers(data: bytes) -> Iterator[tuple[int, ...]]:
    """The section headers, of an ELF file of 32 bits: name, type, flags, address, offset, size, .."""
    first, (size, count) = struct.unpack_from("<I", data, 32)[0], struct.unpack_from("<HH", data, 46)
    for number in range(count):
        yield struct.unpack_from("<10I", data, first + number * size)


def placed(data: bytes) -> list[tuple[int, bytes]]:
    """Address and bytes of each section in memory that the file holds."""
    return [(address, data[offset:offset + size]) for _, kind, flags, address, offset, size, *_ in headers(data)
            if flags & 2 and kind not in (0, 8)]


def segments(data: bytes) -> Iterator[tuple[int, bytes]]:
    """Address and bytes of each segment that is loaded."""
    first, (size, count) = struct.unpack_from("<I", data, 28)[0], struct.unpack_from("<HH", data, 42)
    for number in range(count):
        kind, offset, address, _, length, in_memory, *_ = struct.unpack_from("<8I", data, first + number * size)
        if kind == 1:
            yield address, data[offset:offset + length] + bytes(max(0, min(in_memory, 1 << 20) - length))


def wrong_of_linked(data: bytes, image: str) -> str | None:
    """Whether each byte of a section is what the section says, and what the loader would put there."""
    memory, loaded = memory_of(image), {address + place: byte for address, part in segments(data)
                                        for place, byte in enumerate(part)}
    for address, part in placed(data):
        for place, byte in enumerate(part, address):
            if not memory.get(place, 0) == byte == loaded.get(place):
                return (f"at {place:08x} the image has {memory.get(place, 0):02x}, the section {byte:02x}, the segment "
                        f"{loaded.get(place)}")
    return None


def wrong_of_object(data: bytes, image: str) -> str | None:
    """Whether the object's sections, which no relocation changes, are in the image."""
    memory = memory_of(image)
    whole = bytes(memory.get(place, 0) for place in range(max(memory, default=0) + 17))
    for _, part in placed(data):
        if part.strip(b"\0") and part not in whole:
            return f"the bytes {part.hex()} aren't in the image"
    return None


# --- The changes ---------------------------------------------------------------

def changed(draw: random.Random, data: bytes) -> bytes:
    """A file with one to four changes: a bit, a byte, a word, a number of a table, or its end."""
    made = bytearray(data)
    for _ in range(draw.choice((1, 1, 1, 2, 4))):
        kind, place = draw.randrange(6), draw.randrange(len(made))
        if kind == 0:
            made[place] ^= 1 << draw.randrange(8)
        elif kind == 1:
            made[place] = draw.randrange(256)
        elif kind == 2:
            struct.pack_into("<I", made, min(place, len(made) - 4) & ~3, draw.choice(WORDS))
        elif kind == 3:         # the header, and the tables at the end
            near = draw.choice((draw.randrange(84), len(made) - 1 - draw.randrange(min(len(made), 900))))
            made[near] = draw.choice((0, 1, 0xFF, draw.randrange(256)))
        elif kind == 4:
            length = draw.randrange(1, 40)
            made[place:place + length] = draw.randbytes(len(made[place:place + length]))
        elif draw.randrange(8) == 0:
            del made[draw.randrange(60, len(made)):]
            made += b"\0" * 4
    return bytes(made)


def wrong_answer(answer: Answer, name: str, data: bytes) -> str | None:
    """What is wrong with what the tool said of a file."""
    if answer.raised:
        return f"a traceback: {answer.raised}"
    if answer.seconds > MOST_SECONDS:
        return f"{answer.seconds:.0f} s"
    if answer.status == 0:
        # of an archive the linker takes the member's bytes as they stand behind two headers
        member = data[data.rfind(b"\x7fELF"):] if name.endswith(".a") else data
        return wrong_of_linked(data, answer.image) if name.endswith(".elf") else wrong_of_object(member, answer.image)
    if (answer.status != 1 or answer.image or not re.match(r"image-of\S*: \S", answer.errors)
        or any(not line.isprintable() for line in answer.errors.splitlines())):
        return f"the status {answer.status} and {answer.errors[:300]!r}"
    return None


def mutations(module: ModuleType, folder: Path, count: int, seed: int) -> Iterator[Check]:
    """The changed files, and how the tool took them."""
    draw, images, begun = random.Random(seed), 0, time.process_time()
    for name, share in SHARES.items():
        good = (folder / name).read_bytes()
        words = ["--epochs", "4", "--version", "2", *(["--reg", "2=0x1000"] if name[-1] in "oa" else [])]
        plain = answer_of(module, [*words, str(folder / name)])
        yield f"{name} as it was made", plain.errors if plain.status else wrong_answer(plain, name, good)
        wrong = []
        for number in range(count * share // sum(SHARES.values())):
            data = changed(draw, good)
            path = folder / f"changed{Path(name).suffix}"
            path.write_bytes(data)
            answer = answer_of(module, [*words, *(["-g"] if number % 2 else []), str(path)])
            images += answer.status == 0
            told = wrong_answer(answer, name, data)
            if told:
                kept = Path(tempfile.gettempdir(), f"elf_files-{name}-{number}")
                kept.write_bytes(data)
                wrong.append(f"{number} ({kept}): {told}")
        yield f"{name} changed", "\n  ".join(wrong[:4]) + f"\n  {len(wrong)} in all" if wrong else None
    print(f"{images} of the changed files are images still; {time.process_time() - begun:.0f} s of the processor")
    yield ("some are images still, and most aren't",
           None if count < 500 or count // 50 < images < count else f"{images} of {count}")


# --- Names and sizes ------------------------------------------------------------

def names(module: ModuleType, folder: Path) -> Iterator[Check]:
    """A name writes nothing into an image but itself."""
    evil = "kept 00000000 4\nexit\n#"
    do("riscv64-unknown-elf-objcopy", "--redefine-sym", f"kept={evil}", "alone.o", "named.o", cwd=folder)
    do(*LD, "-Ttext=0", "named.o", "-o", "named.elf", cwd=folder)
    plain = answer_of(module, ["--epochs", "4", "--reg", "2=64", str(folder / "alone.o")]).image
    for name in ("named.o", "named.elf"):
        got = answer_of(module, ["--epochs", "4", "--version", "2", "--reg", "2=64", str(folder / name)])
        lines = got.image.splitlines()
        right = ("# kept\\x2000000000\\x204\\x0aexit\\x0a# " in got.image and "exit" not in lines
                 and [line for line in lines if line[0] != "#"][0] == "version 2")
        yield f"a name with line feeds in {name}", None if right else f"got {got}"
    source = folder / "one\nexit\nend.s"
    source.write_text("# A remark.\x1b[31m \x07\n" + ALONE)
    got = answer_of(module, ["--epochs", "4", "--reg", "2=64", str(source)])
    right = [line for line in got.image.splitlines() if line[0] != "#"] == [line for line in plain.splitlines()
                                                                            if line[0] != "#"]
    yield ("a file's name with line feeds",
           None if right and "# Made from one\\x0aexit\\x0aend.s by" in got.image and "\x1b" not in got.image
           else f"got {got}")
    (folder / "asks.c").write_text("unsigned a[4];\nunsigned far(unsigned) __asm__(\"f\\033[31m\");\nvoid "
                                   "body(unsigned e) { a[e] = far(e); }\n")
    got = answer_of(module, ["--epochs", "4", "--stack", "64", str(folder / "asks.c")])
    yield ("a name with control characters in a refusal",
           None if got.status == 1 and "\x1b" not in got.errors else f"got {got}")


def in_own_process(folder: Path, *words: str) -> tuple[str, float, int]:
    """What the tool says in a process of its own, and what that took: seconds of the processor, and kilobytes at its
    most."""
    done = subprocess.Popen([sys.executable, TOOLS / "image-of", *words], cwd=folder, stdout=subprocess.PIPE,
                            stderr=subprocess.STDOUT, text=True)
    told = done.stdout.read() if done.stdout else ""
    _, _, used = os.wait4(done.pid, 0)
    return told, used.ru_utime + used.ru_stime, used.ru_maxrss


def sizes(folder: Path) -> Iterator[Check]:
    """What is far larger than memory is refused before it is taken."""
    huge = "unsigned a[200000000]{};\nunsigned b = 1;\nvoid body(unsigned e) {{ a[e] = b; }}\n"
    (folder / "zeros.c").write_text(huge.format(""))
    (folder / "ones.c").write_text(huge.format(" = {1}"))
    do(*GCC, "-fcommon", "-c", "zeros.c", "-o", "common.o", cwd=folder)
    do(*LD, "-Ttext=0x20", "common.o", "-o", "common.elf", cwd=folder)
    (folder / "bare.elf").write_bytes((folder / "gnu.elf").read_bytes())
    for name in ("zeros.c", "ones.c", "common.o", "common.elf"):
        told, seconds, kilobytes = in_own_process(folder, "--epochs", "4", "--version", "2", name)
        right = told.startswith("image-of: ") and ("than memory can" in told or "write more than" in told
                                                   or "memory ends at" in told)
        yield (f"800 MB of {name}",
               None if right and seconds < 5 and kilobytes < 200_000
               else f"{told[:300]!r}, {seconds:.1f} s, {kilobytes} KB")


def lacking() -> list[str]:
    return [name for name in (GCC[0], LD[0], "riscv64-unknown-elf-objcopy", CLANG[0], LLD[0]) if not shutil.which(name)]


def main() -> int:
    script = Script()
    parser = argparse.ArgumentParser(description="Damaged and misleading ELF files by tools/image-of.")
    parser.add_argument("--count", type=int, default=2000, metavar="N", help="how many changed files (2000)")
    parser.add_argument("--seed", type=int, default=58, metavar="S", help="from which the changes are drawn (58)")
    given = parser.parse_args(script.words)
    if lacking():
        left_out("tools/image-of on damaged ELF files", f"{' and '.join(lacking())} isn't installed")
        return 0
    module = tool()
    vars(module)["CALLED"] = "image-of"
    from loops.image_of import limits
    from loops.image_of.elf import ELFFile
    if ELFFile is None:
        left_out("tools/image-of on damaged ELF files", "python3-pyelftools isn't installed")
        return 0
    limits.SECONDS = MOST_SECONDS / 4
    resource.setrlimit(resource.RLIMIT_CORE, (0, 0))
    with tempfile.TemporaryDirectory() as name:
        folder = Path(name)
        furnish(folder)
        script.run(partial(names, module, folder), partial(sizes, folder),
                   partial(mutations, module, folder, given.count, given.seed))
    return script.ended()


if __name__ == "__main__":
    sys.exit(main())
