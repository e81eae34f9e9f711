"""Makes the text of an image, on standard output, of a function `void body(unsigned epoch)` in C, C++, assembly, LLVM
IR, objects, archives or a linked ELF file.

Usage: tools/image-of [OPTION ..] INPUT [INPUT ..] > NAME.image

`--help` explains each option. Those that say how the loop runs, and -O, -D and --std, may also stand in a source, in
lines that begin with `// image:`, in assembly with `# image:`, in LLVM IR with `; image:`; the command line wins, and
what reads files or calls programs stands there alone. The other remarks at the top of the first source become those of
the image, with a map of its variables below them: name, address in hexadecimal, bytes.

`body` is linked at address 0. The machine starts each epoch at pc 0 with the epoch's number in x10 and the address that
ends the epoch in x1; by the calling convention these are a function's first argument and its return address, so a
compiled function is an epoch as it is. The code section becomes the `code` line; constants and variables follow at the
next multiple of 16 as `at` lines. With `--exit` the function is `unsigned body(unsigned epoch)`, and an epoch that
returns another number than 0 is the last one. A linked ELF file is taken as it is, at the addresses where it was
linked, with a jump to `body` at address 0.

All epochs start with x2 = 0, so there is no stack unless `--stack` gives each epoch a slot of its own above the
variables, to whose end a few instructions before `body` point x2: one for each of 16 epochs, which is enough, since the
epochs that run at a time follow one another and are no more than the cores, at most 16. A program that needs a stack
and has none is refused, and so is a compiled function whose own frame is larger than a slot; how deep calls go is not
checked.

What RV32I hasn't is refused with its place. EBREAK and UNIMP, by which compilers stop a program, are taken: an epoch
that gets there faults.

Needs Debian's python3-pyelftools, and gcc-riscv64-unknown-elf, or clang and lld. The compiler's warnings are shown and
refuse nothing. Where there can be no image it exits with 1 and says why on standard error. tools/image-of-c is the same
program.
"""

import argparse
import re
import shlex
import subprocess
import sys
from collections.abc import Callable
from pathlib import Path
from typing import NoReturn

from loops.endings import tool
from loops.image_of.compilers import COMPILERS, LIBRARIES, REMARK, Options, kind_of, text_of, tools_of, with_program
from loops.image_of.elf import Program
from loops.image_of.reasons import SOURCES, Refused
from loops.image_of.start import Start
from loops.image_of.texts import LARGEST_SIZE, LINE, image_text
from loops.names import line as printable
from loops.version import add_version

# What the tool is called, and its name in an image, which says nothing of how the tool was installed.
CALLED = Path(sys.argv[0]).name
PROGRAM = CALLED.removeprefix("loops-")
SYMBOL = r"[A-Za-z_.$][A-Za-z0-9_.$]{0,999}"


class Parser(argparse.ArgumentParser):
    def error(self, message: str) -> NoReturn:
        raise Refused(f"{message}; --help explains the options")


class RemarkParser(argparse.ArgumentParser):
    def error(self, message: str) -> NoReturn:
        raise Refused(message)


def of_form(form: str, says: str) -> Callable[[str], str]:
    """The type of an option whose word has to be of a form."""
    def word_of(word: str) -> str:
        if not re.fullmatch(form, word):
            raise argparse.ArgumentTypeError(f"{word!r} isn't {says}")
        return word
    return word_of


def flags(word: str) -> list[str]:
    """The flags of a word; they are told in a remark, so they are printable."""
    if not word.isprintable():
        raise argparse.ArgumentTypeError(f"{word!r} has characters that aren't printable")
    return shlex.split(word)


def input_path(word: str) -> Path:
    """The path of an input, which no compiler takes for an option or for a file of options."""
    path = Path(word)
    return path.absolute() if word.startswith(("-", "@")) or str(path).startswith(("-", "@")) else path


def named_file(word: str) -> tuple[str, Path]:
    name, sign, path = word.partition("=")
    if not sign:
        raise argparse.ArgumentTypeError(f"{word!r} isn't SYMBOL=FILE")
    if not Path(path).is_file():
        raise argparse.ArgumentTypeError(f"{path} is not a file")
    return name, Path(path)


def register(word: str) -> tuple[int, int]:
    found = re.fullmatch(r"x?(\d+)=(0x[0-9a-fA-F]+|-?\d+)", word)
    if not found or int(found[1]) > 31 or int(found[1]) in (0, 1, 10) or not -(1 << 31) <= int(found[2], 0) < 1 << 32:
        raise argparse.ArgumentTypeError(f"{word!r} isn't N=VALUE with a register of 2 to 31 but 10 and a value of 32 "
                                         "bits")
    return int(found[1]), int(found[2], 0) & 0xFFFFFFFF


def add_options(made: argparse.ArgumentParser) -> argparse.ArgumentParser:
    """The options that a source may give too. None of them names a file or a program, nor a flag that could."""
    made.add_argument("--epochs", type=int, metavar="N",
                      help="number of epochs, 0 to 65535: how often body is called (required)")
    made.add_argument("--limit", type=int, default=1_000_000, metavar="N",
                      help="most instructions of an epoch, 1 to 1000000; one that takes more faults with cause 8 "
                           "(1000000)")
    made.add_argument("--size", type=int, metavar="N",
                      help="bytes of memory, a multiple of 16, in version 2 of 32 (the least that holds everything)")
    made.add_argument("--stack", type=int, metavar="BYTES",
                      help="gives each epoch a stack of its own, a power of two from 16 on (none: body has to do "
                           "without); of more than 16 epochs 16 stacks in turn")
    made.add_argument("--exit", action="store_true",
                      help="body is unsigned body(unsigned epoch), and the loop ends after the first epoch that "
                           "doesn't return 0")
    made.add_argument("--version", type=int, default=1, choices=(1, 2),
                      help="version of the image: 1 has up to 65536 bytes of memory, 2 up to 1048576 (1)")
    made.add_argument("--entry", type=of_form(SYMBOL, "the name of a function, as the linker knows it"), default="body",
                      metavar="NAME",
                      help="the function that is an epoch, as the linker knows it (body)")
    made.add_argument("--reg", type=register, action="append", default=[], metavar="N=VALUE",
                      help="the value of register N when an epoch starts")
    made.add_argument("-O", dest="optimize", type=of_form("[0-3sgz]|fast", "0, 1, 2, 3, s, g, z or fast"), default="2",
                      metavar="LEVEL",
                      help="how the compiler optimizes (2)")
    made.add_argument("-D", dest="define",
                      type=of_form(r"[A-Za-z_]\w*(\([\w, .]*\))?(=[ -~\u00a0-\U0010ffff]*)?", "NAME or NAME=VALUE"),
                      action="append", default=[], metavar="NAME[=VALUE]", help="defines a macro")
    made.add_argument("--std", type=of_form(r"(c|gnu)(\+\+)?[0-9][0-9a-z]", "a standard, as c99 or gnu++20"),
                      metavar="STANDARD",
                      help="the standard of C or C++ that the sources are of (c11, c++17)")
    return made


def parser() -> Parser:
    """The options of the command line."""
    made = Parser(
        prog=CALLED, allow_abbrev=False,
        description="Makes the text of an image of a function void body(unsigned epoch), from C, C++, assembly, LLVM "
                    "IR, objects, archives or a linked ELF file.",
        epilog="The options to --std may also stand in a source, in lines that begin with // image: (assembly: # "
               "image:, LLVM IR: ; image:)")
    add_options(made)
    made.add_argument("--data", type=named_file, action="append", default=[], metavar="SYMBOL=FILE",
                      help="puts the bytes of a file over a variable")
    made.add_argument("-g", action="store_true", help="a remark for each load and store with the line of its source, "
                                                      "which tools/named and tools/picture tell")
    made.add_argument("-I", dest="include", action="append", default=[], metavar="FOLDER",
                      help="looks for headers there")
    made.add_argument("--cflags", type=flags, action="extend", default=[], metavar="FLAGS",
                      help="further flags for C and C++, as one word: --cflags='-std=c99 -w'")
    made.add_argument("--chunk", type=int, default=1, metavar="N",
                      help="an epoch calls body N times, for N iterations; --epochs and --limit are those of the "
                           "iterations then (1)")
    made.add_argument("--setup", type=of_form(SYMBOL, "the name of a function, as the linker knows it"), metavar="NAME",
                      help="a function void NAME(void) that an emulator runs first: the memory that it leaves is the "
                           "image's (none)")
    made.add_argument("--libc", choices=sorted(LIBRARIES),
                      help="links a C library of Debian's: picolibc, with its headers (none)")
    made.add_argument("--heap", type=int, default=0, metavar="BYTES",
                      help="with --libc: bytes above the variables that malloc gives (none)")
    made.add_argument("--compiler", choices=sorted(COMPILERS),
                      help="gcc is Debian's gcc-riscv64-unknown-elf, clang needs lld too (gcc where it is there, else "
                           "clang)")
    add_version(made, "-V")
    made.add_argument("--assembly", action="store_true",
                      help="prints the assembly of the linked program instead of the image")
    made.add_argument("sources", type=input_path, nargs="+", metavar="INPUT",
                      help="sources, objects and archives, or one linked ELF file; one of them defines body")
    return made


def take_remark(told: Options, text: str) -> None:
    """Takes in the options of a line of a source."""
    allowed = add_options(RemarkParser(prog=CALLED, allow_abbrev=False, add_help=False))
    try:
        _, others = allowed.parse_known_args(shlex.split(text), told)
    except ValueError as wrong:
        raise Refused(str(wrong)) from None
    if others:
        names = ", ".join(one.option_strings[0] for one in allowed._actions)
        raise Refused(f"a source may give {names} alone, and {others[0]!r} is none of them; what else is wanted stands "
                      "on the command line")


def told_by(inputs: list[tuple[Path, str]]) -> Options:
    """The options that the sources give."""
    told = Options()
    for path, kind in inputs:
        for number, line in enumerate(text_of(path).splitlines() if kind in REMARK else [], 1):
            if line.startswith(f"{REMARK[kind]} image:"):
                try:
                    take_remark(told, line.partition("image:")[2])
                except Refused as refused:
                    raise Refused(f"{path}:{number}: {refused}") from None
    return told


def options_of(words: list[str]) -> Options:
    """The options of the command line, with those of the sources before them."""
    inputs = [(path, kind_of(path)) for path in parser().parse_args(words, Options()).sources]
    options = parser().parse_args(words, told_by(inputs))
    options.inputs, options.program = inputs, PROGRAM
    options.cflags = [*([f"-std={options.std}"] if options.std else []), *options.cflags]
    check_options(options)
    check_further(options)
    check_body(options)
    kinds = {kind for _, kind in inputs}
    if "program" in kinds and len(inputs) > 1:
        raise Refused("a linked ELF file is an image alone; give the objects that it was linked from beside others")
    options.linked = inputs[0][0] if "program" in kinds else None
    options.tools = None if options.linked and not options.assembly else tools_of(options.compiler, kinds)
    options.start = start_of(options)
    return options


def start_of(options: Options) -> Start:
    """What stands before body."""
    epochs = (options.epochs + options.chunk - 1) // options.chunk
    return Start(options.entry, options.stack, epochs, options.epochs, options.chunk, options.exit)


def check_further(options: Options) -> None:
    """The options of chunks and of the C library."""
    if not 1 <= options.chunk <= 65_535:
        raise Refused("--chunk takes 1 to 65535")
    # a call of body keeps x2 to x4, x9 and x18 to x27; x8 counts the iterations
    lost = ([number for number, _ in options.reg if number not in (2, 3, 4, 9, *range(18, 28))] if options.chunk > 1
            else [])
    if lost:
        raise Refused(f"--chunk calls body again, and x{lost[0]} isn't what --reg sets any more; give a register that "
                      "calls keep: 2, 3, 4, 9 or 18 to 27")
    if options.libc and not LIBRARIES[options.libc].archive.is_file():
        raise Refused(f"{options.libc} is not installed; install the Debian package {LIBRARIES[options.libc].package}")
    if options.heap and not options.libc:
        raise Refused(f"--heap is for the malloc of --libc; {SOURCES}/allocator.c has its own")
    if not 0 <= options.heap <= LARGEST_SIZE[2]:
        raise Refused(f"--heap takes 0 to {LARGEST_SIZE[2]}")


def check_options(options: Options) -> None:
    line, most = LINE[options.version], LARGEST_SIZE[options.version]
    if options.epochs is None:
        raise Refused("--epochs is missing; give it, or write it into the source as // image: --epochs 8")
    if not 0 <= options.epochs <= 65_535:
        raise Refused("--epochs takes 0 to 65535")
    if not 1 <= options.limit <= 1_000_000:
        raise Refused("--limit takes 1 to 1000000")
    if options.size is not None and (not line <= options.size <= most or options.size % line):
        raise Refused(f"--size takes multiples of {line} from {line} to {most}"
                      + ("; --version 2 has up to 1048576" if options.version == 1 else ""))
    if options.stack is not None and (options.stack < 16 or options.stack & (options.stack - 1)):
        raise Refused("--stack takes powers of two from 16 on")
    if options.stack and 2 in dict(options.reg):
        raise Refused("--stack and --reg 2 both set the stack pointer; give one of them")


def check_body(options: Options) -> None:
    """The result of body is that of the option."""
    for path, kind in options.inputs:
        if (options.exit and kind in ("c", "c++")
            and re.search(rf"(?m)^[^/\n]*\bvoid\s+{re.escape(options.entry)}\s*\(", text_of(path))):
            raise Refused(f"{path}: with --exit {options.entry} returns a number: unsigned {options.entry}(unsigned "
                          "epoch)")


def listing(program: Program, options: Options) -> int:
    """Prints the assembly of a linked program."""
    words = [*options.toolchain.lister, "-d", "-M", "no-aliases,numeric", str(program.path)]
    return subprocess.run(words, check=False).returncode


def answer(words: list[str]) -> int:
    """What the tool does with the words of its command line, and its status."""
    try:
        options = options_of(words)
        if options.assembly:
            return with_program(options, lambda program: listing(program, options))
        text = with_program(options, lambda program: image_text(program, options))
    except BrokenPipeError:     # of --help
        raise
    except (Refused, OSError) as refused:
        for line in str(refused).split("\n"):
            print(f"{CALLED}: {printable(line)}", file=sys.stderr)
        return 1
    sys.stdout.buffer.write(text.encode("utf-8", "surrogateescape"))
    return 0


@tool
def main() -> int:
    return answer(sys.argv[1:])
