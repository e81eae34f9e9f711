"""Why there is no image, and what to do about it."""

import re
from pathlib import Path

from loops.programs import IN_TREE

# Where the sources are that take the place of a library, as they are told
SOURCES = "tools/loops/image_of/sources" if IN_TREE else str(Path(__file__).resolve().with_name("sources"))


class Refused(Exception):
    """There is no image; the words say why."""


FLOATING = r"__(\w+(sf|df|tf)\d?|(fix|float)\w+)"
# Calls of the system, in a C library
SYSTEM = r"_?(exit|kill|getpid|open|close|read|write|lseek|fstat|isatty|sbrk|gettimeofday|times|unlink)"
COPIES = "memcpy memset memmove memcmp strlen"
FLAGS_OF_OBJECTS = "-march=rv32i -mabi=ilp32"
# What an instruction needs that the machine hasn't, and what to do.
EXTENSIONS = {
    "M": f"compile it for RV32I, with -march=rv32i, and add {SOURCES}/arithmetic.c with --stack 64",
    "A": "compile it without atomics, with -march=rv32i; epochs are ordered without them",
    "F": "compile it with -march=rv32i -mabi=ilp32, and count in integers",
    "C": "compile it without compressed instructions, with -march=rv32i",
    "V": "compile it without vectors, with -march=rv32i",
    "RV64I": "compile it for 32 bits, with -march=rv32i -mabi=ilp32",
    "Zicsr": "the machine has no control registers; leave it out",
    "Zifencei": "code can't change, so it isn't needed; leave it out",
    "system": "there is no system to call; leave it out",
}
SPELLED = {"m": "M", "zmmul": "M", "a": "A", "f": "F", "d": "F", "c": "C", "v": "V", "zicsr": "Zicsr",
           "zifencei": "Zifencei"}


def advice(name: str, entry: str, exits: bool, has_library: bool) -> str:
    """What to do about a name that nothing defines."""
    if name == entry:
        return (f"a source has to define {'unsigned' if exits else 'void'} {entry}(unsigned epoch)" + (
            ", or with --exit unsigned body(unsigned epoch)" if entry == "body" and not exits else "")
                + "; --entry NAME names another function")
    if re.fullmatch(FLOATING, name):
        return "the machine has no float or double; count in integers, as in hundredths"
    if re.fullmatch(r"__u?(mul|div|mod)\w*", name):
        return ("RV32I has no multiplication or division, which an index into rows may need too; add --stack 64 and "
                f"the source {SOURCES}/arithmetic.c" + (", and a division of 64 bits of your own"
                                        if re.match(r"__u?(div|mod)\w*di", name) else ""))
    if re.fullmatch(r"__(ashl|ashr|lshr)di3", name):
        return f"RV32I has no 64-bit shift by a variable; add --stack 64 and the source {SOURCES}/arithmetic.c"
    if name in ("__heap_start", "__heap_end"):
        return "malloc has no memory to give; --heap BYTES gives it some"
    if has_library and (name in ("stdin", "stdout", "stderr") or re.fullmatch(SYSTEM, name)):
        return "there is no system to call; leave out what reads, writes or ends a program"
    if name in COPIES.split():
        return ("there is no C library; the compiler calls some of these to copy or fill whole objects too; add "
                f"--stack 64 and the source {SOURCES}/memory.c, or --libc picolibc")
    if name in ("malloc", "free"):
        return (f"there is no C library; add --stack 64 and the source {SOURCES}/allocator.c, or --libc picolibc "
                "--heap 4096")
    if re.match(r"__cxa_|_Unwind_|__gxx_|_ZT[VIS]|_Zn[wa]|_Zd[la]", name):
        return "there is no C++ library; do without exceptions, run-time types, new and delete"
    if re.match(r"__atomic_|__sync_", name):
        return "there are no atomics; epochs are ordered without them"
    return ("it isn't in the C library; define it in one of the sources" if has_library
            else "there is no C library; define it in one of the sources, or give --libc picolibc")


def call_reason(names: list[str]) -> str:
    """What a program needs a stack for, of what the compiler calls."""
    called = [name for name in names if re.fullmatch(r"__u?(mul|div|mod)\w*", name)]
    floats = [name for name in names if re.fullmatch(FLOATING, name)]
    if floats:
        return (f"it calls {', '.join(floats[:4])}, since the machine has no float or double: give --stack 256, or "
                "count in integers")
    if called:
        return (f"it calls {', '.join(called[:4])}, since RV32I has no multiplication or division, which an index into "
                "rows may need too: give --stack 64")
    return ""


def missing(names: list[str], entry: str, exits: bool, has_library: bool) -> str:
    """Why a program with these undefined symbols is refused, a line for each reason."""
    reasons: dict[str, list[str]] = {}
    for name in names:
        reasons.setdefault(advice(name, entry, exits, has_library), []).append(name)
    return "\n".join(f"undefined: {', '.join(named)}: {reason}" for reason, named in reasons.items())


def refusal_of(errors: str) -> str:
    """Why a compiler refuses a source: a line of ours for what has one, above the compiler's own."""
    header = re.search(r"(\S+:\d+):.*?(?:'([^']+)' file not found|error: (\S+): No such file)", errors)
    if header:
        return (f"{header[1]}: there is no header {header[2] or header[3]}, since there is no C library; of headers "
                "there are the "
                "compiler's own, as stdint.h, stdbool.h, stddef.h and limits.h; -I names a folder of others, and "
                "--libc picolibc has those of a C library")
    needed = re.search(r"(\S+?:\d+):.*?(?:extension [`'](\w+)'|requires the following: '(\w+)')", errors)
    extension = SPELLED.get((needed[2] or needed[3]).lower()) if needed else None
    if needed and extension:
        return f"{needed[1]}: the instruction needs the extension {extension}: {EXTENSIONS[extension]}\n{errors}"
    return "the compiler refuses the source:\n" + errors


def section_reason(name: str) -> str:
    """Why a section has no place."""
    if re.match(r"\.(pre)?(init|fini)(_array)?|\.[cd]tors", name):
        return ("the machine calls body alone, so nothing can run before it or after it; set the variables without "
                "constructors")
    return "only .text, .rodata, .data, .bss and those that begin so have a place; move what is there into one of them"
