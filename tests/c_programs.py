#!/usr/bin/env python3
"""C programs from source to report: tools/image-of, and the loops that it makes.

Usage: tests/c_programs.py [--make] [COMMAND ..]

COMMAND reads an image on standard input and ends with the word `seq`; without it `./trace_cli seq` of this repository
is tested.

Each program of tests/c says in the lines that begin with `//> ` how its loop ends and which bytes its variables have
then. They were printed by the same C, compiled by `cc` for this machine and called epoch by epoch, and are compared
with that again where `cc` is there. The program's image stands beside it. The report has to be exactly the rows in
which those bytes differ from the loaded ones, but for what calls left on stacks. By each compiler for RISC-V that is
there, as tools/image-of says, all programs are compiled again and run too, with those of examples/c, and the sources
that can't be an image are tried; a line says which compiler was left out. `--make` writes the lines and the images
anew. Exits with 1 where a check failed.
"""

import re
import shutil
import sys
import tempfile
from collections.abc import Iterator
from functools import partial
from pathlib import Path

from common import ROOT, Check, Script, called_bytes, called_tool, called_well, left_out, there

# What a check is of, and what is wrong or None
Results = Iterator[Check]
PROGRAMS = ROOT / "tests" / "c"
ARITHMETIC = ROOT / "tools" / "loops" / "image_of" / "sources" / "arithmetic.c"
# Programs of tests/c and their further sources.
SOURCES: dict[str, list[Path]] = {
    "arrays": [], "counter": [], "crc": [], "divisors": [PROGRAMS / "divisors.remainder.c"], "far_apart": [],
    "globals": [],
    "quotients": [ARITHMETIC], "recursion": [], "search": [], "sort": [ARITHMETIC], "strings": [ARITHMETIC], "wide": [],
}
# The pointers of this example have another length here.
WITH_POINTERS = "list_walk"


# --- The same C on this machine ---------------------------------------------

HARNESS = """
#include <stdio.h>
{declarations}
int main(void)
{{
    unsigned epoch, exited = 0;
    for (epoch = 0; epoch < {epochs} && !exited; epoch++) {{
        {call};
    }}
    if (exited) printf("end exit %u\\n", epoch - 1); else printf("end done %u\\n", epoch);
    {prints}
    return 0;
}}
"""
PRINT = ('for (unsigned i = 0; i < {length}; i++) printf("%s%02x", i == 0 ? "{name} " : "", {name}[i]); '
         'printf("\\n");')


def native(source: Path, further: list[Path]) -> tuple[str, dict[str, bytes]]:
    """How the loop ends, and the bytes of each variable then, as this machine computes them."""
    text = source.read_text()
    epochs = there(re.search(r"--epochs (\d+)", text))[1]
    exits = "--exit" in text
    with tempfile.TemporaryDirectory() as folder:
        objects = []
        for part in [source, *(one for one in further if one != ARITHMETIC)]:
            objects.append(str(Path(folder, part.stem + ".o")))
            called_well(["cc", "-w", "-std=c11", "-O1", "-funsigned-char", "-fno-common", "-ffreestanding", "-c", "-o",
                         objects[-1], str(part)])
        listed = called_well(["nm", "-S", *objects])
        variables = re.findall(r"(?m)^[0-9a-f]+ ([0-9a-f]+) [BD] (\w+)$", listed)
        harness = HARNESS.format(
            declarations=("unsigned" if exits else "void") + " body(unsigned);\n"
            + "\n".join(f"extern unsigned char {name}[];" for _, name in variables),
            epochs=epochs, call="exited = body(epoch)" if exits else "body(epoch)",
            prints="\n".join(PRINT.format(name=name, length=int(length, 16)) for length, name in variables))
        Path(folder, "main.c").write_text(harness)
        called_well(["cc", "-w", "-o", str(Path(folder, "main")), str(Path(folder, "main.c")), *objects])
        printed = called_well([Path(folder, "main")])
    end, *lines = printed.splitlines()
    return end, {name: bytes.fromhex(digits) for name, digits in map(str.split, lines)}


def told(end: str, variables: dict[str, bytes]) -> list[str]:
    """The lines that begin with `//> `: the end, and each 16 bytes of a variable that aren't all zero."""
    lines = [end]
    for name, data in sorted(variables.items()):
        lines += [f"{name} {place:05x} {data[place:place + 16].hex()}" for place in range(0, len(data), 16)
                  if any(data[place:place + 16])]
    return lines


def told_in(source: Path) -> list[str]:
    return [line[len("//> "):] for line in source.read_text().splitlines() if line.startswith("//> ")]


# --- Images and reports -----------------------------------------------------

def rows(text: str) -> dict[int, int]:
    """Bytes of the `at` lines of an image or a report, by address."""
    cells = {}
    for address, digits in re.findall(r"(?m)^at ([0-9a-f]{8}) ([0-9a-f]+)$", text):
        cells.update({int(address, 16) + i: byte for i, byte in enumerate(bytes.fromhex(digits))})
    return cells


def places(image: str) -> dict[str, tuple[int, int]]:
    """The map in the remarks of an image: the address and the length of each name."""
    return {name: (int(address, 16), int(length))
            for name, address, length in re.findall(r"(?m)^# (\w+) ([0-9a-f]{8}) (\d+)", image)}


def report_of(image: str, lines: list[str]) -> tuple[list[str], int]:
    """The report of an image whose loop ends as these lines say, and the address from which stacks are left out."""
    loaded, known = rows(image), places(image)
    at_end = dict(loaded)
    for name, offset, digits in (line.split() for line in lines[1:]):
        address, _ = known[name]
        at_end.update({address + int(offset, 16) + i: byte for i, byte in enumerate(bytes.fromhex(digits))})
    shown = {name for name, *_ in (line.split() for line in lines[1:])}
    for name in shown:
        address, length = known[name]
        given = {address + int(line.split()[1], 16) + i for line in lines[1:] if line.split()[0] == name
                 for i in range(16)}
        at_end.update({place: 0 for place in range(address, address + length) if place not in given})
    stacks = known.get("stacks", (1 << 32, 0))[0]
    changed = {place // 16 * 16 for place in at_end if at_end[place] != loaded.get(place, 0)}
    report = [lines[0]]
    for place in sorted(changed):
        report.append(f"at {place:08x} " + bytes(at_end.get(place + i, 0) for i in range(16)).hex())
    return report, stacks


def wrong_report(command: list[str], image: str, lines: list[str]) -> str | None:
    """What is wrong with the report of an image, or None."""
    expected, stacks = report_of(image, lines)
    done = called_bytes(command, image.encode())
    got = [line for line in done.stdout.decode("latin-1").splitlines()
           if not line.startswith("at ") or int(line.split()[1], 16) < stacks]
    if (got, done.stderr, done.returncode) == (expected, b"", 0):
        return None
    return f"expected {expected}\n  got {got}, {done.stderr!r}, {done.returncode}"


def image_of(words: list[str | Path]) -> tuple[str, str, int]:
    done = called_tool("image-of", *words)
    return done.stdout, done.stderr, done.returncode


# --- Sources that can't be an image, and what is shown ----------------------

BODY = "unsigned a[4]; void body(unsigned e) "
REFUSED_WITHOUT_LIBGCC: list[tuple[str | bytes, list[str], str]] = [
    (BODY + "{ a[e] = e * e; }", [], "undefined: __mulsi3: RV32I has no multiplication or division"),
    ("unsigned long long a[4]; void body(unsigned e) { a[e] = a[0] * a[1]; }", ["--stack", "64"],
     "undefined: __muldi3: RV32I has no multiplication or division"),
    ("unsigned long long a[4]; void body(unsigned e) { a[e] = a[0] / a[1]; }", ["--stack", "64"],
     "a division of 64 bits of your own"),
    ("float a[4]; void body(unsigned e) { a[e] = a[0] + a[1]; }", ["--stack", "64"],
     "undefined: __addsf3: the machine has no float or double"),
    ("double a[4]; void body(unsigned e) { a[e] = (double)e; }", ["--stack", "64"],
     "undefined: __floatunsidf: the machine has no float or double"),
]
REFUSED_WITH_LIBGCC: list[tuple[str | bytes, list[str], str]] = [
    (BODY + "{ a[e] = e * e; }", [],
     "the code needs a stack; it calls __mulsi3, since RV32I has no multiplication or division"),
    ("unsigned long long a[4]; void body(unsigned e) { a[e] = a[0] / a[1]; }", [], "the code needs a stack; it calls "),
    ("float a[4]; void body(unsigned e) { a[e] = a[0] + a[1]; }", [],
     "the code needs a stack; it calls __addsf3, since the machine has no float or double"),
]
REFUSED: list[tuple[str | bytes, list[str], str]] = [
    *(REFUSED_WITH_LIBGCC if list(Path("/usr/lib/gcc/riscv64-unknown-elf").glob("*/rv32i/ilp32/libgcc.a"))
      else REFUSED_WITHOUT_LIBGCC),
    ("unsigned long strlen(const char *); " + BODY + '{ a[e] = strlen((const char *)&a[e]); }', ["--stack", "64"],
     "undefined: strlen: there is no C library"),
    ("#include <string.h>\n" + BODY + "{ a[e] = e; }", [],
     ": there is no header string.h, since there is no C library"),
    ("unsigned a[4]; void loop(unsigned e) { a[e] = e; }", [], "undefined: body: a source has to define void body"),
    ("unsigned a[4], g(unsigned); void body(unsigned e) { a[e] = g(e); }", ["--stack", "64"],
     "undefined: g: there is no C"),
    ("unsigned a[4], g(unsigned); void body(unsigned e) { a[e] = g(e) + g(1); }\n"
     "__attribute__((noinline)) unsigned g(unsigned e) { return e + a[e]; }", [], "the code needs a stack;"),
    ("unsigned a[9999]; void body(unsigned e) { a[e] = e; }", ["--size", "1024"], "more than the 1024 bytes"),
    ("unsigned a[99999]; void body(unsigned e) { a[e] = e; }", [],
     "more than 65536 bytes; --version 2 has up to 1048576"),
    ("unsigned a[999999]; void body(unsigned e) { a[e] = e; }", ["--version", "2"], "more than 1048576 bytes"),
    (BODY + "{ a[e] = e; }", ["--stack", "24"], "--stack takes powers of two"),
    (BODY + "{ a[e] = e; }", ["--size", "100"], "--size takes multiples of 16"),
    (BODY + "{ a[e] = e; }", ["--size", "48", "--version", "2"], "--size takes multiples of 32"),
    (BODY + "{ a[e] = e; }", ["--rounds"], "unrecognized arguments: --rounds; --help explains the options"),
    (BODY + "{ a[e] = e; }", ["--exit"], "with --exit body returns a number"),
    (BODY + "{ volatile unsigned b[99]; b[e] = e; a[e] = b[1]; }", ["--stack", "64"], "give --stack 512 or more"),
    # 12 words that live over a call are saved beside the array of 60 bytes, which alone would fit
    ("unsigned a[16], g(unsigned); void body(unsigned e) { volatile unsigned b[15]; b[e] = e; a[e] = b[1] + g(e) + "
     "a[1]; }\n"
     "__attribute__((noinline)) unsigned g(unsigned e) { a[e] = 1; return a[1]; }", ["--stack", "64"],
     "the frame of body takes"),
    (BODY + "{ volatile unsigned b[e + 1]; b[e] = e; a[e] = b[0]; }", [], "the code needs a stack;"),
    ("unsigned a[4]; __attribute__((constructor)) void before(void) { *(volatile unsigned *)a = 1; }\n"
     "void body(unsigned e) { a[e] = e; }", [], "no place for the sections"),
    (BODY + "{ a[e] = e }", [], "the compiler refuses the source"),
    (b"// \xe4pfel\n" + BODY.encode() + b"{ a[e] = e; }", [], ":1: byte 0xe4 isn't UTF-8; save the source as UTF-8"),
]


def refusals(compiler: str) -> Results:
    """Sources that can't be an image, each with the reason that is told in one line."""
    for source, options, reason in REFUSED:
        with tempfile.TemporaryDirectory() as folder:
            path = Path(folder, "refused.c")
            path.write_bytes(source if isinstance(source, bytes) else source.encode() + b"\n")
            text, errors, status = image_of(["--compiler", compiler, "--epochs", "4", *options, path])
        right = status == 1 and text == "" and any(reason in line for line in errors.splitlines())
        yield f"refusal by {compiler}: {reason}", None if right else f"got {text!r}, {errors!r}"


def warnings(compiler: str) -> Results:
    """What the compiler warns of is shown and refuses nothing."""
    text, errors, status = image_of(["--compiler", compiler, PROGRAMS / "counter.c"])
    right = status == 0 and "warning: unused parameter" in errors and "\nepochs 10\n" in text
    yield f"warnings of {compiler} are shown", None if right else f"got {text!r}, {errors!r}"
    text, errors, status = image_of(["--compiler", compiler, PROGRAMS / "search.c"])
    yield f"no warning of {compiler}", None if (errors, status) == ("", 0) else f"got {errors!r}"


def help_text() -> Results:
    """`--help` says something of each option, and needs no compiler."""
    text, _, status = image_of(["--help"])
    for option in ("--epochs", "--limit", "--size", "--stack", "--exit", "--version", "--compiler", "--assembly"):
        said = re.search(rf"(?ms)^  {option}\b.*?(?=^  -|\Z)", text)
        yield f"--help: {option}", None if status == 0 and said and len(said[0].split()) > 5 else f"got {text!r}"


# --- The checks -------------------------------------------------------------

def natively() -> Results:
    for name, further in SOURCES.items():
        source = PROGRAMS / f"{name}.c"
        lines = told(*native(source, further))
        yield f"{name}.c on this machine", None if lines == told_in(source) else f"{lines}, told {told_in(source)}"


def as_they_stand(command: list[str]) -> Results:
    for name in SOURCES:
        image = (PROGRAMS / f"{name}.image").read_text()
        yield f"report of c/{name}.image", wrong_report(command, image, told_in(PROGRAMS / f"{name}.c"))


def compiled_anew(command: list[str], with_cc: bool, compiler: str) -> Results:
    for name, further in SOURCES.items():
        source = PROGRAMS / f"{name}.c"
        text, errors, status = image_of(["--compiler", compiler, source, *further])
        yield f"report of {name}.c by {compiler}", errors if status else wrong_report(command, text, told_in(source))
    for source in sorted((ROOT / "examples" / "c").glob("*.c")) if with_cc else []:
        if source.stem != WITH_POINTERS:
            text, errors, status = image_of(["--compiler", compiler, source])
            yield (f"report of {source.name} by {compiler}",
                   errors if status else wrong_report(command, text, told(*native(source, []))))


def make() -> None:
    """Writes the lines of the sources by this machine, and the images by the compiler for RISC-V."""
    for name, further in SOURCES.items():
        source = PROGRAMS / f"{name}.c"
        own = [line for line in source.read_text().splitlines() if not line.startswith("//> ")]
        top = next(i for i, line in enumerate(own) if line.startswith("// image:"))
        own[top:top] = ["//> " + line for line in told(*native(source, further))]
        source.write_text("\n".join(own) + "\n")
        text, errors, status = image_of([source, *further])
        if status:
            sys.exit(f"{name}: {errors}")
        (PROGRAMS / f"{name}.image").write_text(text)


def on_this_machine() -> Iterator[Check]:
    """The programs by the compiler of this machine."""
    if has_cc():
        yield from natively()
    else:
        left_out("the programs of tests/c on this machine", "cc or nm isn't installed")


def by_compilers(command: list[str]) -> Iterator[Check]:
    """The programs by each compiler for RISC-V that is there."""
    for compiler, packages in (("gcc", "gcc-riscv64-unknown-elf isn't"), ("clang", "clang and lld aren't")):
        missing = image_of(["--compiler", compiler, PROGRAMS / "search.c"])[1]
        if " is not installed" in missing:
            left_out(f"C sources to images by {compiler}", missing.strip())
        elif "no compiler is installed" in missing:
            left_out(f"C sources to images by {compiler}", f"{packages} installed")
        else:
            yield from [*compiled_anew(command, has_cc(), compiler), *refusals(compiler), *warnings(compiler)]


def has_cc() -> bool:
    return shutil.which("cc") is not None and shutil.which("nm") is not None


def main() -> int:
    script = Script()
    if script.words == ["--make"]:
        make()
        return 0
    command = script.command()
    script.run(partial(as_they_stand, command), help_text, on_this_machine, partial(by_compilers, command))
    return script.ended()


if __name__ == "__main__":
    sys.exit(main())
