#!/usr/bin/env python3
"""Tests which options a source may give tools/image-of in its remarks: those that name no file and no program. Others
are refused before anything is called.

Usage: tests/remarks.py

What the options do is compared with the command line, where a compiler for RISC-V is there; else that is left out, and
a line says so. Exits with 1 where a check failed.
"""

import sys
import tempfile
from collections.abc import Iterator
from functools import partial
from pathlib import Path

from common import Check, Script, called_tool, left_out

Results = Iterator[Check]
BODY = ("#ifndef STEP\n#define STEP 1\n#endif\nunsigned sums[4];\nvoid body(unsigned epoch) { sums[epoch & 3] += STEP; "
        "}\nvoid loop(unsigned epoch) { sums[0] = epoch; }\n")
REMARK = {"b.c": "//", "b.s": "#", "b.ll": ";", "b.cpp": "//"}
# A remark, and words of the reason.
REFUSED = [
    ("--cflags='-wrapper sh,-c,touch\\ X'", "--cflags"), ("--cflags=-std=c99", "--cflags"),
    ("--data sums=/etc/hostname", "--data"), ("-I /etc", "-I"), ("-I/etc", "-I/etc"),
    ("-g", "-g"), ("--assembly", "--assembly"), ("--compiler clang", "--compiler"), ("--help", "--help"),
    ("/etc/hostname", "/etc/hostname"), ("@/etc/hostname", "@/etc/hostname"),
    ("-- b.c", "'--'"), ("-wrapper sh,-c,true", "-wrapper"), ("--epoch 3", "--epoch"),
    ("--entry 'body\"; .incbin \"/etc/hostname'", "isn't the name of a function"),
    ("--entry 'body) *(.x'", "isn't the name of a function"), ("--entry ''", "isn't the name of a function"),
    ("-O '2 -wrapper sh'", "isn't 0, 1, 2"), ("-O2@x", "isn't 0, 1, 2"),
    ("-D=-wrapper", "isn't NAME or NAME=VALUE"), ("-D 'A=\x1b'", "isn't NAME or NAME=VALUE"),
    ("--std 'c99 -wrapper'", "isn't a standard"), ("--std=-x", "isn't a standard"),
    ("--reg 1=4", "isn't N=VALUE"), ("--size x", "--size"), ("--limit 'unclosed", "No closing quotation"),
    ("--version 3", "--version"),
]
# A remark that is taken, and the words of the command line that say the same.
TAKEN = [
    ("--limit 60", ["--limit", "60"]), ("--size 128", ["--size", "128"]), ("--stack 32", ["--stack", "32"]),
    ("--version 2", ["--version", "2"]), ("--entry loop", ["--entry", "loop"]),
    ("--reg 5=0x10 --reg x6=-1", ["--reg", "5=0x10", "--reg", "6=0xffffffff"]), ("-O1", ["-O", "1"]),
    ("-Os -D STEP=3", ["-Os", "-DSTEP=3"]),
    ("-D 'STEP=(1 + 2)'", ["-D", "STEP=(1 + 2)"]), ("--std c99", ["--cflags=-std=c99"]),
    ("--std=gnu11 -DSTEP", ["--std", "gnu11", "-D", "STEP"]),
]


def image_of(folder: Path, *words: str) -> tuple[str, str, int]:
    done = called_tool("image-of", *words, cwd=folder)
    return done.stdout, done.stderr, done.returncode


def refused(folder: Path) -> Results:
    """(what it shows, what is wrong or None)"""
    for name, sign in REMARK.items():
        for remark, reason in REFUSED if name == "b.c" else REFUSED[:3]:
            (folder / name).write_text(f"{sign} A loop.\n{sign} image: --epochs 4\n{sign} image: {remark}\n{BODY}")
            out, errors, status = image_of(folder, name)
            right = (out == "" and status == 1 and errors.startswith(f"image-of: {name}:3: ") and reason in errors
                     and errors.count("\n") == 1)
            yield (f"{name}: {remark!r}",
                   None if right and not (folder / "X").exists() else f"{out[:60]!r}, {errors!r}, {status}")


def taken(folder: Path) -> Results:
    """A remark and the command line say the same; where both speak, the command line wins."""
    (folder / "c.c").write_text("// image: --epochs 4\n" + BODY)
    missing = image_of(folder, "c.c")[1]
    if "is not installed" in missing or "no compiler is installed" in missing:
        left_out("what remarks say", missing.strip())
        return
    for remark, words in TAKEN:
        (folder / "b.c").write_text(f"// image: --epochs 4\n// image: {remark}\n{BODY}")
        told, given = image_of(folder, "b.c"), image_of(folder, *words, "c.c")
        same = told[0] == given[0].replace("from c.c", "from b.c") and told[1:] == given[1:] == ("", 0)
        yield f"taken: {remark}", None if same else f"{told}, not {given}"
    (folder / "b.c").write_text("// image: --epochs 4 --limit 7 -O0\n" + BODY)
    out, errors, status = image_of(folder, "--limit", "9", "-O2", "b.c")
    yield ("the command line wins",
           None if "\nlimit 9\n" in out and "-O2" in out and "-O0" not in out and status == 0
           else f"{out!r}, {errors!r}")


def named(folder: Path) -> Results:
    """A source whose name a compiler could take for an option or for a file of options."""
    for name, text in (("@b.c", "-wrapper sh,-c,'touch X'\n"), ("-wrapper.c", BODY), ("--cflags=x.c", BODY)):
        (folder / name).write_text(text)
        out, errors, status = image_of(folder, "--epochs", "1", "--", name)
        right = status == (0 if text == BODY else 1) or "is not installed" in errors or "no compiler" in errors
        yield (f"a source called {name}",
               None if right and "Traceback" not in errors and not (folder / "X").exists()
               else f"{out!r}, {errors!r}, {status}")


def main() -> int:
    script = Script()
    with tempfile.TemporaryDirectory() as folder:
        script.run(*[partial(part, Path(folder)) for part in (refused, taken, named)])
    return script.ended()


if __name__ == "__main__":
    sys.exit(main())
