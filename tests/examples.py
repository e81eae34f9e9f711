#!/usr/bin/env python3
"""Runs the examples and compares each report with the one in its remarks.

Usage: tests/examples.py [COMMAND ..]

COMMAND reads an image on standard input and ends with the word `seq`; without
it `./trace_cli seq` of this repository is tested. An example gives its report
in the lines that begin with `#> `, and its assembly, where it was written in
assembly, in those that begin with `#: `. Where Debian's gcc-riscv64-unknown-elf
is installed, the assembly is compared with the code. Where tools/image-of
finds a compiler, the sources of the examples are compiled again: twice to the same image,
and where that has the code of the image here, with the report that the source
gives (c_programs.py compares the others). Where there is none, these checks
are left out, and a line says so. Exits with 1 where a check failed.
"""

import shutil
import sys
import tempfile
from collections.abc import Iterator
from functools import partial
from pathlib import Path

from common import ROOT, Check, Script, called_bytes, called_well, left_out

EXAMPLES = ROOT / "examples"
IMAGE_OF = ROOT / "tools" / "image-of"
TOOL = "riscv64-unknown-elf-"
FEWEST = 10


def cut_out(text: str, mark: str) -> str:
    """The lines of a text that begin with a mark, without it."""
    return "".join(line[len(mark):] + "\n" for line in text.splitlines() if line.startswith(mark))


def differences(command: list[str], text: str, expected: str) -> str | None:
    """What is wrong with the output for an image text, or None."""
    status = 1 if expected.startswith("end fault ") else 0
    result = called_bytes(command, text.encode())
    got = result.stdout.decode("latin-1")
    if (got, result.stderr, result.returncode) == (expected, b"", status):
        return None
    return f"expected {expected!r} and status {status}\n  got {got!r}, {result.stderr!r}, {result.returncode}"


def reports(command: list[str]) -> Iterator[Check]:
    """Each example image against its own report."""
    for path in sorted(EXAMPLES.glob("*.image")):
        text = path.read_text()
        expected = cut_out(text, "#> ")
        wrong = differences(command, text, expected) if expected else "no report in its remarks"
        yield f"report of {path.name}", wrong


def assembled(listing: str) -> str:
    """The code that the assembler makes of a listing, in hexadecimal digits."""
    with tempfile.TemporaryDirectory() as directory:
        source, made, linked, raw = (Path(directory, name) for name in ("l.s", "l.o", "l.elf", "l.bin"))
        source.write_text(listing)
        for words in (["as", "-march=rv32i", "-mabi=ilp32", "-mno-relax", "-o", made, source],
                      ["ld", "-m", "elf32lriscv", "-Ttext=0", "-e", "0", "-o", linked, made],
                      ["objcopy", "-O", "binary", "-j", ".text", linked, raw]):
            called_well([f"{TOOL}{words[0]}", *map(str, words[1:])])
        return raw.read_bytes().hex()


def listings() -> Iterator[Check]:
    """The assembly in remarks against the code."""
    for path in sorted(EXAMPLES.glob("*.image")):
        text = path.read_text()
        listing = cut_out(text, "#: ")
        if listing:
            code = cut_out(text, "code ").strip()
            wrong = None if assembled(listing) == code else "the code isn't that of the listing"
            yield f"listing of {path.name}", wrong


def image_of(source: Path) -> tuple[str, str]:
    done = called_bytes([sys.executable, str(IMAGE_OF), str(source)])
    return done.stdout.decode(), done.stderr.decode()


def compiled(command: list[str]) -> Iterator[Check]:
    """The C sources, compiled twice and run."""
    others = []
    # LLVM IR is left out: another release of clang may not read it
    for source in sorted([*EXAMPLES.glob("c/*.c"), *EXAMPLES.glob("other/*.cpp"), *EXAMPLES.glob("other/*.s")]):
        text, errors = image_of(source)
        if not text:
            yield f"image of {source.name}", errors or "nothing was printed"
            continue
        yield f"second image of {source.name}", None if image_of(source)[0] == text else "another image"
        if cut_out(text, "code ") != cut_out((EXAMPLES / f"{source.stem}.image").read_text(), "code "):
            others.append(source.stem)
            continue
        yield f"report of {source.name}", differences(command, text, cut_out(text, "#> "))
    if others:
        print("NOTE: made by another compiler than the one here: " + ", ".join(others))


def all_reports(command: list[str]) -> Iterator[Check]:
    checks = list(reports(command))
    yield from checks
    yield "the number of examples", None if len(checks) >= FEWEST else f"is {len(checks)}, fewer than {FEWEST}"


def all_listings() -> Iterator[Check]:
    if all(shutil.which(TOOL + name) for name in ("gcc", "as", "ld", "objcopy")):
        yield from listings()
    else:
        left_out("listings", f"{TOOL}gcc isn't installed")


def sources(command: list[str]) -> Iterator[Check]:
    said = image_of(EXAMPLES / "c" / "histogram.c")[1]
    if " is not installed" in said or "no compiler is installed" in said:
        left_out("sources", "no compiler for RISC-V is installed, or no python3-pyelftools")
    else:
        yield from compiled(command)


def main() -> int:
    script = Script()
    script.run(partial(all_reports, script.command()), all_listings, partial(sources, script.command()))
    return script.ended()


if __name__ == "__main__":
    sys.exit(main())
