#!/usr/bin/env python3
"""Programs from C, C++, assembly, LLVM IR, objects, archives and linked files to their reports by tools/image-of, and
inputs that it refuses.

Usage: tests/image_of.py [COMMAND ..]

COMMAND reads an image on standard input and ends with the word `seq`; without it `./trace_cli seq` of this repository
is tested. Each program is run in order and on four cores; which bytes its variables have in the end was worked out by
hand. With -g the code has to be the same, and its remarks have to name lines that are there. What isn't installed is
left out, and a line says so. c_programs.py has the C programs, and what is told of C sources. Exits with 1 where a
check failed.
"""

import re
import shutil
import struct
import sys
import tempfile
from collections.abc import Iterator
from functools import partial
from pathlib import Path

from common import ROOT, Check, Script, beside, called, called_bytes, called_tool, differs, left_out, there

# What a check is of, and what is wrong or None; the words of a command line, how the loop ends, and the bytes of its
# variables then
Results = Iterator[Check]
Row = tuple[list[str | Path], str, dict[str, bytes]]
TOOLS = ROOT / "tools"
C_SOURCES = TOOLS / "loops" / "image_of" / "sources"
GCC = ["riscv64-unknown-elf-gcc", "-march=rv32i", "-mabi=ilp32", "-O2", "-ffreestanding", "-msmall-data-limit=0"]
# What each compiler needs.
NEEDED = {"gcc": [GCC[0]], "clang": ["clang", "ld.lld", "llvm-ar", "llvm-as"]}
CLANG = ["clang", "--target=riscv32-unknown-elf", "-march=rv32i", "-mabi=ilp32", "-O2", "-ffreestanding",
         "-msmall-data-limit=0"]
LD = ["riscv64-unknown-elf-ld", "--no-warn-rwx-segments", "-m", "elf32lriscv", "-e", "body"]
LLD = ["ld.lld", "-m", "elf32lriscv", "-e", "body"]
PICOLIBC = Path("/usr/lib/picolibc/riscv64-unknown-elf/lib/rv32i/ilp32/libc.a")
LIBGCC = sorted(Path("/usr/lib/gcc/riscv64-unknown-elf").glob("*/rv32i/ilp32/libgcc.a"))


def words(*numbers: int) -> bytes:
    return struct.pack(f"<{len(numbers)}I", *(number & 0xFFFFFFFF for number in numbers))


# Epoch e adds STEP * (e + 1): 2 and 4 and 6 and 8 are 20.
C = ("#include \"step.h\"\nunsigned sum, last[4];\nvoid body(unsigned epoch)\n{\n"
     "    for (unsigned i = 0; i <= epoch; i++)\n        sum += STEP;\n    last[epoch] = sum;\n}\n")
CPP = ("// image: --epochs 4\ntemplate <class T> struct Sum { T total; void add(T one) { total += one; } };\n"
       "Sum<unsigned> sum;\nextern \"C\" void body(unsigned epoch)\n{\n    sum.add(epoch + 5);\n}\n")
ASSEMBLY = ("# Three more each time.\n# image: --epochs 4 --limit 20\n .globl body\n .type body, @function\nbody:\n"
            " la t0, count\n lw t1, 0(t0)\n addi t1, t1, 3\n"
            " sw t1, 0(t0)\n ret\n .size body, .-body\n .bss\n .align 4\n .type count, @object\n .size count, 4\n"
            "count:\n .zero 4\n")
SQUARES = "unsigned table[4] __attribute__((aligned(16)));\nvoid body(unsigned epoch) { table[epoch] = epoch << 3; }\n"
# The entry stands behind another function.
SECOND = ("unsigned out[4];\n__attribute__((noinline, used)) unsigned far(unsigned e) { return e + 7; }\n"
          "void loop(unsigned e) { out[e] = e ^ 3; }\n")
LIBRARY = "unsigned add(unsigned a, unsigned b);\nunsigned out[4];\nvoid body(unsigned e) { out[e] = add(e, 40); }\n"
SEARCH = ("unsigned char keys[8] = {1}; unsigned wanted;\n"
          "unsigned body(unsigned e) { wanted += 1; return keys[e] == 9; }\n")
MEMORY = ("void *memcpy(void *, const void *, unsigned long), *memset(void *, int, unsigned long), *memmove(void *, "
          "const void *, unsigned long);\n"
          "int memcmp(const void *, const void *, unsigned long);\nunsigned long strlen(const char *);\n"
          "void *malloc(unsigned long), *allocate(unsigned, unsigned long);\n"
          "char text[16] = \"abcdefgh\", moved[2][16];\nint told[4], null[2];\n"
          "void body(unsigned e)\n{\n    char *part = malloc(12);\n    memcpy(part, text, 9);\n"
          "    memmove(part + 1 - e, part + e, 5);\n    told[e] = (int)strlen(part);\n"
          "    told[2 + e] = memcmp(part, text, 8);\n    memset(moved[e], 'x', 9);\n    memcpy(moved[e], part, 6);\n"
          "    null[e] = allocate(e, 16) == 0 || allocate(e, 33) != 0;\n}\n")

# thread_local: 5 and 8 and 9 and 8 and 9 in turn
OWN = ("_Thread_local unsigned given = 5, seen[4];\nstatic _Thread_local unsigned many[3] = {7, 8, 9};\n"
       "unsigned out[4];\n"
       "void body(unsigned e) { seen[e] = given; given += many[e % 2 + 1]; out[e] = given; }\n")
OWN_END = {"out": words(13, 22, 30, 39), "given": words(39), "seen": words(5, 13, 22, 30)}
CALLED = ("unsigned out[4]; float f[4] = {1, 2, 3, 4};\n"
          "void body(unsigned e) { out[e] = __builtin_clz(e + 1) * (e + 3); f[e] = f[e] * 1.5f; }\n")
LIBC = ("#include <errno.h>\n#include <stdlib.h>\n#include <string.h>\nunsigned out[4];\n"
        "void body(unsigned e) { char *p = malloc(20); strcpy(p, \"3.25\"); out[e] = (unsigned)(4 * strtod(p, 0)) + e "
        "+ (rand() >= 0); errno = (int)e; free(p); }\n")
GROWS = "unsigned out[4];\nvoid body(unsigned e) { volatile unsigned b[e + 1]; b[e] = e + 3; out[e] = b[e]; }\n"
ALLOCA = ("unsigned out[4];\nvoid body(unsigned e) { volatile unsigned *b = __builtin_alloca(4 * e + 4); b[e] = e + 3; "
          "out[e] = b[e]; }\n")
TURNS = ("unsigned out[40]; __attribute__((noinline)) unsigned next(volatile unsigned *p) { return *p + 1; }\n"
         "void body(unsigned e) { volatile unsigned x = e; out[e] = next(&x); }\n")
ROWS = "unsigned out[40];\nvoid body(unsigned e) { out[e] += 3 * e + 1; }\n"
LEAVES = "unsigned out[40];\nunsigned body(unsigned e) { out[e] += 3 * e + 1; return e == 29; }\n"
# A list of eight nodes, the last made in front, with 70 * 7 + 5, 60 * 6 + 5 .. in them, and a table of 1000 / (i + 1)
PREPARED = ("struct node { struct node *next; unsigned value; };\nstatic struct node nodes[8];\nstruct node *first;\n"
            "unsigned table[10], out[8], given;\n"
            "void prepare(void)\n{\n    volatile unsigned big[200];\n    for (unsigned i = 0; i < 200; i++)\n"
            "        big[i] = i;\n    for (unsigned i = 0; i < 8; i++) {\n"
            "        nodes[i].value = big[i * 10] * i + given;\n        nodes[i].next = first;\n"
            "        first = &nodes[i];\n    }\n"
            "    for (unsigned i = 0; i < 10; i++)\n        table[i] = 1000 / (i + 1);\n}\n"
            "void body(unsigned e)\n{\n    struct node *at = first;\n    for (unsigned i = 0; i < e; i++)\n"
            "        at = at->next;\n    out[e] = at->value + table[e];\n}\n")
WRONGLY = ("unsigned out[4];\nvoid leaves(void) { *(volatile unsigned *)0x30000000 = 1; }\n"
           "void gives_up(void) { __builtin_trap(); }\n"
           "void writes(void) { *(volatile unsigned *)(0x1000 - 0xffc) = 1; }\nvoid body(unsigned e) { out[e] = e; }\n")
# Two units with one template's function, at lines 5 and 6 of the first, and 7 and 8 of the second; the linker keeps
# that of the object that comes first.
TEMPLATE = "template <class T>\n__attribute__((noinline)) T twice(volatile T *p) {\n  *p = *p + 1;\n  return *p;\n}\n"
FIRST = ("extern \"C\" unsigned other(unsigned), out[8];\nunsigned out[8];\n" + TEMPLATE
         + "extern \"C\" void body(unsigned e) {\n  out[e] = 3;\n  out[e] = twice<unsigned>(&out[e]) + other(e);\n}\n")
OTHER = ("\n\nextern \"C\" unsigned other(unsigned), out[8];\n" + TEMPLATE
         + "extern \"C\" unsigned other(unsigned e) {\n  return twice<unsigned>(&out[e]);\n}\n")
# The function that a linker leaves out stands above the one that is there.
DEAD = ("unsigned out[8];\nunsigned dead(unsigned e) {\n  out[e] = 1;\n  out[e + 1] = 2;\n  out[0] = 5;\n"
        "  return out[e];\n}\n"
        "void body(unsigned e) {\n  out[e] = e;\n\n  out[7] = 3;\n}\n")
# The same, and its table is as short as that of what is there.
SHORT = ("unsigned out[8];\nunsigned dead(unsigned e) {\n  return out[e];\n}\nvoid body(unsigned e) {\n  out[e] = e;\n"
         "\n  out[7] = 3;\n}\n")

LINES = "volatile unsigned a, b;\nvoid body(unsigned epoch)\n{\n    a = epoch;\n\n    b = 3;\n}\n"


def do(*command: str | Path, cwd: Path) -> None:
    done = called([str(word) for word in command], cwd=cwd)
    if done.returncode:
        raise RuntimeError(f"{' '.join(map(str, command))}: {done.stderr}")


def image_of(folder: Path, *given: str | Path) -> tuple[str, str, int]:
    done = called_tool("image-of", *given, cwd=folder)
    return done.stdout, done.stderr, done.returncode


def furnish(folder: Path) -> None:
    """Writes the sources, and makes objects, archives and linked files of them."""
    for name, text in (("loop.c", C), ("step.h", ""), ("sum.cpp", CPP), ("count.s", ASSEMBLY), ("squares.c", SQUARES),
                       ("second.c", SECOND), ("library.c", LIBRARY),
                       ("search.c", SEARCH), ("blocks.c", MEMORY), ("lines.c", LINES),
                       ("add.c", "unsigned add(unsigned a, unsigned b) { return a + b; }\n"),
                       ("own.c", OWN), ("called.c", CALLED), ("libc.c", LIBC), ("grows.c", GROWS), ("alloca.c", ALLOCA),
                       ("turns.c", TURNS), ("rows.c", ROWS),
                       ("leaves.c", LEAVES), ("first.cpp", FIRST), ("other.cpp", OTHER), ("dead.c", DEAD),
                       ("short.c", SHORT), ("prepared.c", PREPARED), ("wrongly.c", WRONGLY),
                       ("beside.c", "unsigned add(unsigned a, unsigned b, unsigned c) { return a + b; }\n"),
                       ("count.S", ASSEMBLY.replace("addi t1, t1, 3", "addi t1, t1, STEP"))):
        Path(folder, name).write_text(text)
    Path(folder, "five.bin").write_bytes(words(5))
    Path(folder, "keys.bin").write_bytes(bytes([0, 0, 0, 0, 0, 9]))


def made(folder: Path, compiler: str) -> None:
    """Objects, an archive and a linked file by one compiler."""
    compile_, link, archive = {"gcc": (GCC, LD, "riscv64-unknown-elf-ar"), "clang": (CLANG, LLD, "llvm-ar")}[compiler]
    for name in ("second", "library", "add"):
        do(*compile_, "-g", "-c", f"{name}.c", "-o", f"{name}-{compiler}.o", cwd=folder)
    do(*compile_, "-DSTEP=2", "-c", "loop.c", "-o", f"loop-{compiler}.o", cwd=folder)
    do(archive, "rc", f"lib-{compiler}.a", f"library-{compiler}.o", f"add-{compiler}.o", cwd=folder)
    long_name = f"a-long-name-of-a-member-{compiler}.o"
    Path(folder, long_name).write_bytes(Path(folder, f"library-{compiler}.o").read_bytes())
    do(archive, *{"gcc": ["rcT"], "clang": ["--thin", "rc"]}[compiler], f"lib-thin-{compiler}.a", long_name,
       f"add-{compiler}.o", cwd=folder)
    do(archive, "rc", f"lib-long-{compiler}.a", long_name, f"add-{compiler}.o", cwd=folder)
    do(*link, "-Ttext=0", f"loop-{compiler}.o", "-o", f"first-{compiler}.elf", cwd=folder)
    sources: dict[str, list[str]] = {"own": [], "rows": [], "turns": ["-falign-functions=64", "-mno-relax"],
                                     "dead": ["-ffunction-sections"]}
    for name, further in sources.items():
        do(*compile_, "-g", *further, "-c", f"{name}.c", "-o", f"{name}-{compiler}.o", cwd=folder)
    do(*link, "-Ttext=0x100", "-Tdata=0x800", "-Tbss=0x900", f"own-{compiler}.o", "-o", f"own-{compiler}.elf",
       cwd=folder)
    # what each thread has of zeros lies where other variables are
    do(*link, "-Ttext=0x100", f"own-{compiler}.o", "-o", f"shared-{compiler}.elf", cwd=folder)
    do(*link, "-Ttext=0x100", "-Tdata=0x800", f"rows-{compiler}.o", "-o", f"rows-{compiler}.elf", cwd=folder)
    do(*link, "-Ttext=0x100", "-Tdata=0x800", f"turns-{compiler}.o", "-o", f"turns-{compiler}.elf", cwd=folder)
    for place in ("0", "0x100"):
        do(*link, "--gc-sections", f"-Ttext={place}", "-Tdata=0x800", f"dead-{compiler}.o", "-o",
           f"dead-{place}-{compiler}.elf", cwd=folder)
    do(*link, "-Ttext=0x100", "-Tdata=0x400", f"library-{compiler}.o", f"add-{compiler}.o", "-o", f"far-{compiler}.elf",
       cwd=folder)


def programs(compiler: str) -> Iterator[Row]:
    """(words of the command line, how the loop ends, the bytes of its variables)"""
    by = ["--compiler", compiler]
    some = ["--epochs", "4"]
    sums = {"sum": words(20), "last": words(2, 6, 12, 20)}
    lib = {"out": words(40, 41, 42, 43)}
    yield [*by, *some, "-D", "STEP=2", "-I", ".", "-O", "1", "loop.c"], "end done 4", sums
    yield [*by, *some, "--cflags=-DSTEP=2 -Os", "loop.c"], "end done 4", sums
    yield [*by, "sum.cpp"], "end done 4", {"sum": words(26)}
    yield [*by, "count.s"], "end done 4", {"count": words(12)}
    yield [*by, "-D", "STEP=5", "count.S"], "end done 4", {"count": words(20)}
    if compiler == "clang":
        yield ["squares.ll"], "end done 4", {"table": words(0, 8, 16, 24)}
        yield [*some, "squares.bc"], "end done 4", {"table": words(0, 8, 16, 24)}
    yield [*by, *some, "--entry", "loop", f"second-{compiler}.o"], "end done 4", {"out": words(3, 2, 1, 0)}
    yield [*by, *some, "--stack", "64", f"library-{compiler}.o", "add.c"], "end done 4", lib
    for name in ("lib", "lib-thin", "lib-long"):
        yield [*by, *some, "--stack", "64", f"{name}-{compiler}.a"], "end done 4", lib
    yield [*some, "--version", "2", f"first-{compiler}.elf"], "end done 4", sums
    yield [*some, "--version", "2", "--stack", "64", f"far-{compiler}.elf"], "end done 4", lib
    yield ([*by, *some, "--reg", "2=0x8000", "--size", "65536", f"library-{compiler}.o", f"add-{compiler}.o"],
           "end done 4", lib)
    yield [*by, "--epochs", "8", "--exit", "--data", "keys=keys.bin", "search.c"], "end exit 5", {"wanted": words(6)}
    yield ([*by, "--epochs", "2", "--stack", "128", "-DARENA=64", "-DARENAS=2", "blocks.c", C_SOURCES / "memory.c",
            C_SOURCES / "allocator.c"], "end done 2",
           {"moved": b"aabcdexxx" + bytes(7) + b"bcdeffxxx" + bytes(7), "told": words(8, 8, -1, 1),
            "null": words(0, 0)})
    yield from further_programs(compiler, by, some)


def has_unicorn() -> bool:
    """Whether the emulator of --setup is there, for the Python that runs tools or Debian's."""
    script = "import sys; sys.path.append('/usr/lib/python3/dist-packages'); import unicorn"
    return called_bytes([sys.executable, "-c", script]).returncode == 0


def further_programs(compiler: str, by: list[str], some: list[str]) -> Iterator[Row]:
    """Programs with thread_local variables, what compilers call, stacks in turn, and epochs of several iterations."""
    rows = {"out": words(*(3 * e + 1 for e in range(37)))}
    yield [*by, *some, "own.c"], "end done 4", OWN_END
    for name in ("own", "shared"):
        yield [*some, "--version", "2", f"{name}-{compiler}.elf"], "end done 4", OWN_END
    if LIBGCC:
        yield ([*by, *some, "--stack", "256", "called.c"], "end done 4",
               {"out": words(93, 120, 150, 174), "f": struct.pack("<4f", 1.5, 3, 4.5, 6)})
    if PICOLIBC.is_file():
        yield ([*by, *some, "--stack", "1024", "--libc", "picolibc", "--heap", "1024", "libc.c"], "end done 4",
               {"out": words(14, 15, 16, 17), "errno": words(3)})
    for name, is_there in (("libgcc", LIBGCC), ("picolibc-riscv64-unknown-elf", PICOLIBC.is_file())):
        if not is_there:
            left_out(f"programs with {name} by {compiler}", f"{name} isn't installed")
    if LIBGCC and has_unicorn():
        prepared = {"out": words(1495, 865, 588, 415, 295, 211, 157, 130), "given": words(5)}
        yield ([*by, "--epochs", "8", "--stack", "128", "--data", "given=five.bin", "--setup", "prepare", "prepared.c"],
               "end done 8", prepared)
    yield [*by, *some, "--stack", "64", "grows.c"], "end done 4", {"out": words(3, 4, 5, 6)}
    yield [*by, *some, "--stack", "64", "alloca.c"], "end done 4", {"out": words(3, 4, 5, 6)}
    turns = {"out": words(*range(1, 41))}
    yield [*by, "--epochs", "40", "--stack", "64", "turns.c"], "end done 40", turns
    yield [*by, "--epochs", "40", "--stack", "64", f"turns-{compiler}.o"], "end done 40", turns
    yield ["--epochs", "40", "--stack", "64", "--version", "2", f"turns-{compiler}.elf"], "end done 40", turns
    yield [*by, "--epochs", "37", "--chunk", "8", "rows.c"], "end done 5", rows
    yield [*by, "--epochs", "37", "--chunk", "5", "--stack", "32", "rows.c"], "end done 8", rows
    yield ["--epochs", "37", "--chunk", "37", "--version", "2", f"rows-{compiler}.elf"], "end done 1", rows
    yield (["--epochs", "37", "--chunk", "3", "--stack", "64", "--version", "2", f"rows-{compiler}.elf"], "end done 13",
           rows)
    yield ([*by, "--epochs", "37", "--exit", "--chunk", "6", "leaves.c"], "end exit 4",
           {"out": words(*(3 * e + 1 for e in range(30)), *(0,) * 7)})


# --- Whether they are right --------------------------------------------------

def cells(text: str) -> dict[int, int]:
    """Bytes of the `at` lines of an image or a report, by address."""
    found = {}
    for address, digits in re.findall(r"(?m)^at ([0-9a-f]{8}) ([0-9a-f]+)$", text):
        found.update({int(address, 16) + i: byte for i, byte in enumerate(bytes.fromhex(digits))})
    return found


def run(command: list[str], image: str) -> tuple[str, str, int]:
    done = called(command, image)
    return done.stdout, done.stderr, done.returncode


def wrong_with(command: list[str], image: str, end: str, variables: dict[str, bytes]) -> str | None:
    """What is wrong with the end of a program in order and on four cores, or None."""
    known = {name: int(address, 16) for name, address in re.findall(r"(?m)^# (\w+) ([0-9a-f]{8}) \d+$", image)}
    answers = [run(command, image), run([*command[:-1], "run", "--cores", "4"], image)]
    if answers[0] != answers[1] or answers[0][1:] != ("", 0):
        return f"in order and on cores: {answers}"
    told, *_ = answers[0][0].splitlines()
    memory = {**cells(image), **cells(answers[0][0])}
    got = {name: bytes(memory.get(known[name] + i, 0) for i in range(len(data))) for name, data in variables.items()
           if name in known}
    return None if (told, got) == (end, variables) else f"got {told}, {got}, expected {end}, {variables}"


def same_code(folder: Path, given: list[str | Path], image: str) -> str | None:
    """With -g the image is the same but for remarks, and each line that they name is one of a file that is there."""
    text, errors, status = image_of(folder, "-g", *given)
    if status:
        return f"-g: {errors}"
    if [line for line in text.splitlines() if line[0] != "#"] != [line for line in image.splitlines()
                                                                  if line[0] != "#"]:
        return "-g changes the image"
    told = re.findall(r"(?m)^# code ([0-9a-f]{8}) (\S+):(\d+)$", text)
    lengths = {name: len((folder / name if (folder / name).is_file() else C_SOURCES / name).read_text().splitlines())
               for name in {name for _, name, _ in told}}
    if not told or any(not 1 <= int(line) <= lengths[name] for _, name, line in told):
        return f"-g names lines that aren't there: {told}"
    return None


def right(command: list[str], folder: Path, compiler: str) -> Results:
    for given, end, variables in programs(compiler):
        text, errors, status = image_of(folder, *given)
        wrong = errors or "no image" if status else wrong_with(command, text, end, variables)
        # of these the sources are those of libraries, or there are none
        has_lines = (given[-1] not in ("squares.ll", "squares.bc", "called.c", "libc.c")
                     and not str(given[-1]).startswith(("first", "lib-")))
        yield (f"{compiler}: {' '.join(map(str, given))}",
               wrong or (same_code(folder, given, text) if has_lines else None))


def accesses_told(text: str) -> tuple[set[str | None], set[str | None]]:
    """The lines of the loads and the stores of an image, and those of all else."""
    code = bytes.fromhex(there(re.search(r"(?m)^code (\w+)", text))[1])
    told = {int(pc, 16): line for pc, line in re.findall(r"(?m)^# code ([0-9a-f]{8}) (\S+)$", text)}
    kinds = {pc: code[pc] & 127 in (0x03, 0x23) for pc in range(0, len(code), 4)}
    return ({told.get(pc) for pc, access in kinds.items() if access},
            {told[pc] for pc, access in kinds.items() if not access and pc in told})


def linked_lines(folder: Path, compiler: str) -> Results:
    """The lines of what is linked: what the linker left out has none, wherever it leaves its table."""
    body = {"first.cpp:9", "first.cpp:10"}
    for inputs, kept in ((("first.cpp", "other.cpp"), {"first.cpp:5", "first.cpp:6"}),
                         (("other.cpp", "first.cpp"), {"other.cpp:6", "other.cpp:7"})):
        text = image_of(folder, "--compiler", compiler, "-g", "--epochs", "4", "--stack", "64", *inputs)[0]
        got = {line for line in accesses_told(text)[0] if line and not line.endswith((":8", ":11"))}
        yield (f"the lines of {' and '.join(inputs)} by {compiler}", None if got - {"other.cpp:9"} == body | kept
               else f"got {got}")
    for place in ("0", "0x100"):
        left = accesses_told(image_of(folder, "-g", "--epochs", "4", "--version", "2",
                                      f"dead-{place}-{compiler}.elf")[0])
        yield (f"the lines of what is left at {place} by {compiler}",
               differs(left, ({"dead.c:9", "dead.c:11"}, set())))


def lines_at_zero(folder: Path, compiler: str) -> Results:
    """Where a linker leaves the table of a function that it left out at address 0, where another function is, the lines
    are that one's: here it is put there by hand."""
    compile_, objcopy = {"gcc": GCC, "clang": CLANG}[compiler], "riscv64-unknown-elf-objcopy"
    do(*compile_, "-gdwarf-4", "-ffunction-sections", "-c", "short.c", "-o", "zero.o", cwd=folder)
    Path(folder, "zero.ld").write_text("SECTIONS { . = 0; .text.body : { *(.text.body) } . = 0x1230; .text.dead : { "
                                       "*(.text.dead) } . = 0x2000; .bss : { *(.bss*) } }\n")
    do(*LD, "--no-relax", "-T", "zero.ld", "zero.o", "-o", "zero.elf", cwd=folder)
    for part in ("line", "info"):
        do(objcopy, f"--dump-section=.debug_{part}={part}.bin", "zero.elf", cwd=folder)
        data = Path(folder, f"{part}.bin").read_bytes()
        Path(folder, f"{part}.bin").write_bytes(data.replace(struct.pack("<I", 0x1230), bytes(4)))
    do(objcopy, "--update-section=.debug_line=line.bin", "--update-section=.debug_info=info.bin", "--strip-symbol=dead",
       "zero.elf", cwd=folder)
    got = accesses_told(image_of(folder, "-g", "--epochs", "4", "--version", "2", "zero.elf")[0])
    yield (f"the lines of what is at 0 by {compiler}", None if got == ({"short.c:6", "short.c:8", None}, set())
           else f"got {got}")


def warned(folder: Path, compiler: str) -> Results:
    """Of a frame that grows it warns, and of what is unused in a source without body it doesn't."""
    for name in ("grows.c", "alloca.c"):
        errors = image_of(folder, "--compiler", compiler, "--epochs", "4", "--stack", "64", name)[1]
        yield (f"the warning of {name} by {compiler}", None if "warning: the frame of body has no fixed size" in errors
               and len(errors.splitlines()) == 1 else f"got {errors!r}")
    got = image_of(folder, "--compiler", compiler, "--epochs", "4", "rows.c", "beside.c")
    yield f"no warning of beside.c by {compiler}", None if got[1:] == ("", 0) else f"got {got}"


def lacking(compiler: str) -> list[str]:
    """The programs that a compiler needs and that aren't installed."""
    return [name for name in NEEDED[compiler] if not shutil.which(name)]


def lines_told(folder: Path) -> Results:
    """The lines of the source of the two stores, by each compiler that has all it needs."""
    for compiler in NEEDED:
        if not lacking(compiler):
            yield from linked_lines(folder, compiler)
            yield from lines_at_zero(folder, compiler)
            yield from warned(folder, compiler)
            text = image_of(folder, "--compiler", compiler, "-g", "--epochs", "4", "lines.c")[0]
            stores = [pc for pc in range(0, 400, 4)
                      for word in [int.from_bytes(bytes.fromhex(there(re.search(r"(?m)^code (\w+)",
                                                                                text))[1])[pc:pc + 4],
                                                  "little")]
                      if word & 127 == 0x23]
            told = dict(re.findall(r"(?m)^# code ([0-9a-f]{8}) (\S+)$", text))
            got = {told.get(f"{pc:08x}") for pc in stores}
            yield f"the lines of the stores by {compiler}", None if got == {"lines.c:4", "lines.c:6"} else f"got {got}"


def whole_way(command: list[str], folder: Path) -> Results:
    """From C to what tools/named and tools/picture tell of a schedule: the load and the store to blame, at their lines
    of the source."""
    why, replay = beside(command, "why"), beside(command, "replay")
    if why is None or replay is None:
        left_out("from C to a picture", "why and replay weren't built beside the program that is tested")
        return
    source = ROOT / "examples" / "c" / "own_counters.c"
    lines = source.read_text().splitlines()
    load, store = (1 + next(place for place, line in enumerate(lines) if words in line)
                   for words in ("old = counter[", "] = old + 1"))
    for compiler in NEEDED:
        if lacking(compiler):
            continue
        image = image_of(folder, "--compiler", compiler, "-g", source)[0]
        made = re.search(r"(?m)^# Made from own_counters\.c by image-of, with (.+) -O2 -g\.$", image)
        yield f"what it was made with, by {compiler}", None if made and compiler in made[1] else f"got {made}"
        done = called([replay, "caches", "2"], image + "turns" + " 0 1" * 200 + "\n")
        traced = image + done.stdout[there(re.search(r"(?m)^trace ", done.stdout)).start():]
        told = [called_tool(name, "--why", why, given=traced).stdout for name in ("named", "picture")]
        found = set(re.findall(r"(?m)^pc .* (\S+:\d+) [ls]w ", told[0]))
        yield (f"the lines in the report, by {compiler}",
               None if found == {f"own_counters.c:{load}", f"own_counters.c:{store}"} else f"got {found}")
        spelled = re.search(r"the store [0-9a-f]{8} at (\S+) hits the load [0-9a-f]{8} at (\S+)<", told[1])
        right_lines = spelled and spelled.groups() == (f"own_counters.c:{store}", f"own_counters.c:{load}")
        yield f"the lines in the picture, by {compiler}", None if right_lines else f"got {spelled and spelled.groups()}"


# --- What is refused ---------------------------------------------------------

def bad_inputs(folder: Path) -> Iterator[tuple[list[str], str]]:
    """(words of the command line, what is told); makes each input."""
    def text(name: str, content: str | bytes) -> None:
        Path(folder, name).write_bytes(content if isinstance(content, bytes) else content.encode())

    def object_of(name: str, source: str, *flags: str, compiler: str = GCC[0]) -> None:
        text(f"{name}.c", source)
        do(compiler, "-O2", "-ffreestanding", *flags, "-c", f"{name}.c", "-o", f"{name}.o", cwd=folder)

    body = "unsigned a[4];\nvoid body(unsigned e) { a[e] = e; }\n"
    asm = "unsigned a[4];\nvoid body(unsigned e) {{ __asm__ volatile (\"{}\"); a[e] = e; }}\n"
    rv32 = ["-march=rv32i", "-mabi=ilp32"]
    if shutil.which("cc"):
        object_of("host", body, compiler="cc")
        yield ["host.o"], r"host\.o: is for the machine .*, not for RISC-V; compile it with -march=rv32i"
        do("riscv64-unknown-elf-ar", "rc", "host.a", "host.o", cwd=folder)
        yield ["host.a"], r"host\.a\(host\.o\): is for the machine .*, not for RISC-V"
    object_of("imac", "unsigned a[4];\nvoid body(unsigned e)\n{\n    a[e] = e * a[0];\n}\n", "-march=rv32imac",
              "-mabi=ilp32", "-g")
    yield (["imac.o"], r"body\+\d+, address [0-9a-f]{8}, imac\.c:4: the instruction [0-9a-f]{8} needs the extension M: "
                       r".*arithmetic\.c")
    yield (["imac.o"], r"body\+\d+, address [0-9a-f]{8}, imac\.c:\d: the compressed instruction [0-9a-f]{4} needs the "
                       r"extension C: .*-march=rv32i")
    object_of("wide", body, "-march=rv64i", "-mabi=lp64")
    yield ["wide.o"], r"wide\.o: is for RISC-V of 64 bits; compile it with -march=rv32i -mabi=ilp32"
    object_of("hard", body, "-march=rv32imafd", "-mabi=ilp32d")
    yield ["hard.o"], r"hard\.o: passes numbers in floating-point registers \(ABI ilp32d\)"
    object_of("atomic", asm.format("amoadd.w t0, t1, (a0)"), "-march=rv32ia", "-mabi=ilp32")
    yield ["atomic.o"], r"body\+0, address 00000000: .* needs the extension A"
    object_of("csr", asm.format("csrr t0, mcycle"), "-march=rv32i_zicsr", "-mabi=ilp32")
    yield ["csr.o"], r"body\+0, .* needs the extension Zicsr: the machine has no control registers"
    object_of("call", asm.format("ecall"), *rv32)
    yield ["call.o"], r"body\+0, .*: the instruction 00000073 is a system instruction: there is no system to call"
    text("multiplies.s", " .globl body\nbody:\n mul a0, a0, a0\n ret\n")
    for compiler in NEEDED:
        if not lacking(compiler):
            yield ["--compiler", compiler, "multiplies.s"], r"multiplies\.s:3: the instruction needs the extension M"
    object_of("good", body, *rv32)
    whole = Path(folder, "good.o").read_bytes()
    for length in (20, 60, len(whole) // 2, len(whole) - 1):
        text("cut.o", whole[:length])
        yield ["cut.o"], r"cut\.o: is a (damaged or )?truncated ELF file"
    do("riscv64-unknown-elf-ar", "rcS", "bare.a", "good.o", cwd=folder)
    yield ["bare.a"], r"bare\.a: is an archive without an index; make one, as by riscv64-unknown-elf-ranlib"
    do("riscv64-unknown-elf-ar", "rc", "whole.a", "good.o", cwd=folder)
    for length in (30, 100, 200):
        text("cut.a", Path(folder, "whole.a").read_bytes()[:length])
        yield (["cut.a"], r"cut\.a: is a damaged archive: (its member at \d+ ends behind the file's end|at \d+ there "
                          r"is no member)")
    text("noise.bin", bytes(range(256)))
    yield (["noise.bin"], r"noise\.bin: is neither an ELF file nor an archive, and its name doesn't end like that of a "
                          r"source")
    object_of("loop2", "unsigned a[4];\nvoid loop(unsigned e) { a[e] = e; }\n", *rv32)
    yield ["loop2.o"], r"undefined: body: a source has to define void body"
    yield ["loop2.o"], r"the global functions are: loop"
    text("mangled.cpp", "unsigned a[4];\nvoid body(unsigned e) { a[e] = e; }\n")
    yield ["mangled.cpp"], r"there is the C\+\+ function _Z4bodyj; write extern \"C\" before its definition"
    object_of("calls", "unsigned a[4], far_away(unsigned);\nvoid body(unsigned e) { a[e] = far_away(e); }\n", *rv32)
    yield ["--stack", "64", "calls.o"], r"undefined: far_away: there is no C library; define it in one of the sources"
    text("twin.o", whole)
    yield ["twin.o", "good.o"], r"multiple definition of `?body"
    object_of("copies", "void *memcpy(void *, const void *, unsigned long);\nchar a[4][64];\n"
                        "void body(unsigned e) { memcpy(a[e], a[0], e); }\n", *rv32)
    yield ["--stack", "64", "copies.o"], r"undefined: memcpy: .*sources/memory\.c"
    text("throws.cpp", "unsigned a[4];\nextern \"C\" void body(unsigned e) { if (e > 9) throw e; a[e] = e; }\n")
    yield (["--stack", "64", "--cflags=-fexceptions", "throws.cpp"],
           r"undefined: .*__cxa_throw.*: there is no C\+\+ library; do without exceptions")
    text("before.cpp", "unsigned first(unsigned e);\nunsigned a = first(2);\n"
                       "__attribute__((noinline)) unsigned first(unsigned e) { return *(volatile unsigned *)&a + e; }\n"
                       "extern \"C\" void body(unsigned e) { a += e; }\n")
    yield ["--stack", "64", "before.cpp"], r"no place for the sections \.init_array: the machine calls body alone"
    yield ["--reg", "4=1024", "own.c"], r"--reg 4 and the thread_local variables both set the thread pointer"
    yield ["--chunk", "4", "--reg", "5=1", "rows.c"], r"--chunk calls body again, and x5 isn't what --reg sets any more"
    if has_unicorn():
        for name, reason in (("leaves", r".*WRITE_UNMAPPED.*, at leaves\+\d+, address [0-9a-f]{8}, wrongly\.c:2"),
                             ("gives_up", r".*, at gives_up\+\d+, .*, wrongly\.c:3"),
                             ("writes", " writes into the code")):
            yield ["-g", "--setup", name, "wrongly.c"], rf"--setup {name}:?{reason}"
        yield (["--setup", "none", "wrongly.c"],
               r"there is no function none for --setup; the global functions are: body, gives_up, leaves, writes")
    else:
        left_out("--setup", "python3-unicorn isn't installed")
    yield ["--chunk", "0", "rows.c"], r"--chunk takes 1 to 65535"
    yield ["--heap", "64", "rows.c"], r"--heap is for the malloc of --libc"
    if LIBGCC:
        yield ["called.c"], r"the code needs a stack; it calls __mulsf3, since the machine has no float"
    if PICOLIBC.is_file():
        yield (["--stack", "64", "--libc", "picolibc", "libc.c"],
               r"undefined: __heap_end, __heap_start: malloc has no memory to give; --heap BYTES")
        text("ends.c", "#include <stdlib.h>\nunsigned a[4];\nvoid body(unsigned e) { if (e > 9) exit(1); a[e] = e; }\n")
        yield ["--stack", "64", "--libc", "picolibc", "ends.c"], r"undefined: _exit: there is no system to call"
    if shutil.which("ld.lld"):
        object_of("moved", "unsigned a[4], *p = a;\nvoid body(unsigned e) { p[e] = e; }\n", *rv32, "-fPIC")
        do("ld.lld", "-m", "elf32lriscv", "-pie", "-e", "body", "moved.o", "-o", "moved.elf", cwd=folder)
        yield ["moved.elf"], r"moved\.elf: has relocations that are left to a loader .*-static -no-pie"
        text("text.s", " .globl body\nbody:\n ret\n .word a\n .data\n .globl a\na:\n .word 1\n")
        do(*GCC, "-c", "text.s", "-o", "text.o", cwd=folder)
        do("ld.lld", "-m", "elf32lriscv", "-shared", "-z", "notext", "text.o", "-o", "text.so", cwd=folder)
        yield ["text.so"], r"text\.so: has relocations that are left to a loader"
    do(*LD, "-Ttext=0x80000000", "good.o", "-o", "high.elf", cwd=folder)
    yield (["--version", "2", "high.elf"], r"high\.elf: its sections end at address 8\w{7}, and memory ends at "
                                           r"00100000; link it there")
    do(*LD, "-Ttext=0x2000", "-Tbss=0x100", "good.o", "-o", "turned.elf", cwd=folder)
    yield ["turned.elf"], r"turned\.elf: the section \.bss can be written and lies at 00000100, before the code ends"
    do(*LD, "-Ttext=0x0", "second-gcc.o", "-o", "behind.elf", cwd=folder)
    yield ["--entry", "loop", "behind.elf"], r"behind\.elf: loop isn't at address 0, and no 4 bytes are free there"
    yield ["behind.elf"], r"behind\.elf: has no symbol body; --entry NAME names another function, of far, loop"
    yield ["behind.elf", "good.o"], r"a linked ELF file is an image alone"
    object_of("large", "unsigned a[99999];\nvoid body(unsigned e) { a[e] = e; }\n", *rv32)
    yield ["large.o"], r"more than 65536 bytes; --version 2 has up to 1048576"
    text("dense.c", "unsigned a[150000] = {[0 ... 149999] = 0x01010101};\nvoid body(unsigned e) { a[e] = e; }\n")
    yield ["--version", "2", "dense.c"], r"the text of the image has \d+ bytes, more than 1048576"
    object_of("deep", "unsigned a[4], g(unsigned);\nvoid body(unsigned e) { a[e] = g(e) + 1; }\n"
                      "__attribute__((noinline)) unsigned g(unsigned e) { return a[e]; }\n", *rv32)
    yield ["deep.o"], r"the code needs a stack"
    yield ["-g", "good.o"], r"no file says which line an instruction comes from; compile the objects with -g"
    if Path(folder, "host.ll").is_file():
        yield ["host.ll"], r"host\.ll: is LLVM IR for x86_64-pc-linux-gnu; make it for RV32I"
        yield ["--compiler", "gcc", "squares.ll"], r"gcc compiles no LLVM IR"
    text("nine.bin", bytes(9))
    yield ["--data", "keys=nine.bin", "--exit", "search.c"], r"--data keys: nine\.bin has 9 bytes, and the variable 8"
    yield ["--data", "key=nine.bin", "--exit", "search.c"], r"--data key: there is no variable of this name"
    yield ["--data", "keys=none.bin", "search.c"], r"none\.bin is not a file"
    yield ["--reg", "10=4", "good.o"], r"'10=4' isn't N=VALUE with a register of 2 to 31 but 10"
    yield ["--stack", "64", "--reg", "2=64", "good.o"], r"--stack and --reg 2 both set the stack pointer"
    yield ["none.o"], r"none\.o is not a file"


def refused(folder: Path) -> Results:
    for given, reason in bad_inputs(folder):
        text, errors, status = image_of(folder, "--epochs", "4", *given)
        lines = [line for line in errors.splitlines() if re.match(rf"image-of: .*?{reason}", line)]
        yield (f"refused: {' '.join(map(str, given))}: {reason}", None if (text, status, bool(lines)) == ("", 1, True)
               else f"got {text[:80]!r}, {errors[:600]!r}")


def checks(command: list[str], folder: Path) -> Results:
    """All checks for which there are the tools."""
    furnish(folder)
    for compiler in NEEDED:
        if lacks := lacking(compiler):
            left_out(f"programs by {compiler}", f"{' and '.join(lacks)} isn't installed")
            continue
        made(folder, compiler)
        if compiler == "clang":
            do(*CLANG, "-S", "-emit-llvm", "squares.c", "-o", "squares.ll", cwd=folder)
            do("llvm-as", "squares.ll", "-o", "squares.bc", cwd=folder)
            text = (folder / "squares.ll").read_text()
            (folder / "squares.ll").write_text("; Eight times the epoch.\n; image: --epochs 4\n" + text)
            (folder / "host.ll").write_text(re.sub(r'target triple = "[^"]*"', 'target triple = "x86_64-pc-linux-gnu"',
                                                   text))
        yield from right(command, folder, compiler)
    yield from lines_told(folder)
    yield from whole_way(command, folder)
    if shutil.which(GCC[0]):
        yield from refused(folder)
    else:
        left_out("what is refused", f"{GCC[0]} isn't installed")


def main() -> int:
    script = Script()
    command = script.command()
    command[0] = str(Path(command[0]).resolve())
    with tempfile.TemporaryDirectory() as folder:
        Path(folder, "none.c").write_text("void body(unsigned e) { (void)e; }\n")
        missing = image_of(Path(folder), "--epochs", "1", "none.c")[1]
        if "is not installed" in missing or "no compiler is installed" in missing:
            left_out("tools/image-of", missing.strip())
            return 0
        script.run(partial(checks, command, Path(folder)))
    return script.ended()


if __name__ == "__main__":
    sys.exit(main())
