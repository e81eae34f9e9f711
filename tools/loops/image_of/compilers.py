"""Compilers, assemblers and linkers: from sources and objects to one linked program."""

import re
import shutil
import signal
import subprocess
import sys
import tempfile
from argparse import Namespace
from collections.abc import Callable, Sequence
from pathlib import Path
from typing import TypeVar

from loops.images import there
from loops.names import line, word

from .archives import THIN, WHOLE, Archive
from .elf import COMPRESSED, Opened, Program, is_linked
from .limits import LARGEST_FILE, TOOL_SECONDS, limit_tool
from .reasons import Refused, missing, refusal_of
from .start import Start

Answer = TypeVar("Answer")

COMMON = ["-march=rv32i", "-mabi=ilp32"]
FLAGS = ["-Wall", "-Wextra", "-ffreestanding", "-fno-pic", "-fno-common", "-fno-asynchronous-unwind-tables",
         "-fomit-frame-pointer",
         "-ffunction-sections", "-msmall-data-limit=0", "-mno-save-restore", "-fno-stack-protector", "-fstack-usage"]
# What each language takes, by the ending of a file's name. LLVM IR is compiled, but has no language left that would
# take flags of its own.
LANGUAGES: dict[str, list[str]] = {
    "c": ["-std=c11", *FLAGS], "c++": ["-std=c++17", "-fno-exceptions", "-fno-rtti", "-fno-threadsafe-statics",
                                       "-fno-use-cxa-atexit", *FLAGS],
    "assembly": [], "llvm": ["-ffunction-sections", "-fomit-frame-pointer", "-msmall-data-limit=0", "-fno-pic",
                             "-fstack-usage"],
}
ENDINGS = {
    ".c": "c", ".cc": "c++", ".cpp": "c++", ".cxx": "c++", ".c++": "c++", ".C": "c++", ".s": "assembly",
    ".S": "assembly", ".ll": "llvm", ".bc": "llvm",
}
REMARK = {"c": "//", "c++": "//", "assembly": "#", "llvm": ";"}
TRUNCATED = 2000


class Compiler:
    """A compiler with its linker and its tools: the words that each call begins with."""

    def __init__(self, package: str, compiler: list[str], own: list[str], linker: list[str], lister: list[str],
                 no_stack: list[str]):
        self.package, self.compiler, self.own = package, compiler, own
        self.linker, self.lister = linker, lister
        # what lets a function without a stack use more registers
        self.no_stack = no_stack

    def is_there(self) -> bool:
        return all(shutil.which(words[0]) for words in (self.compiler, self.linker))

    def words(self, language: str) -> list[str]:
        """How it compiles a language."""
        own = self.own if language in ("c", "c++") else []
        return [*self.compiler, *COMMON, *own, *LANGUAGES[language]]


COMPILERS = {
    "gcc": Compiler(
        "gcc-riscv64-unknown-elf", ["riscv64-unknown-elf-gcc"],
        ["-fno-toplevel-reorder", "-fno-tree-loop-distribute-patterns"],
        ["riscv64-unknown-elf-ld", "--no-warn-rwx-segments"], ["riscv64-unknown-elf-objdump"],
        ["-ffixed-s0"] + [f"-fcall-used-s{i}" for i in range(1, 12)]),
    "clang": Compiler(
        "clang and lld", ["clang", "--target=riscv32-unknown-elf"], ["-nostdlibinc", "-fno-unroll-loops"],
        ["ld.lld", "--error-limit=0"], ["llvm-objdump"], []),
}


class Options(Namespace):
    """The options of tools/image-of, as its parser leaves them."""
    sources: list[Path]
    inputs: list[tuple[Path, str]]          # each with what it is
    program: str                            # the name of the tool
    epochs: int
    limit: int
    size: int | None
    stack: int | None
    exit: bool
    version: int
    entry: str
    reg: list[tuple[int, int]]
    optimize: str
    define: list[str]
    std: str | None
    data: list[tuple[str, Path]]
    g: bool
    include: list[str]
    cflags: list[str]
    chunk: int
    setup: str | None
    libc: str | None
    heap: int
    compiler: str | None
    assembly: bool
    linked: Path | None                     # a linked program that is taken as it is
    tools: Compiler | None                  # none where nothing is compiled
    start: Start

    @property
    def toolchain(self) -> Compiler:
        """The compiler, where something is compiled."""
        return there(self.tools)


LINKER_SCRIPT = """
ENTRY({entry})
SECTIONS
{{
  . = 0;
  .text : {{ *(.text.start) *(.text.{entry}) *(.text .text.*) }}
  . = ALIGN(16);
  .rest : {{ *(.rodata .rodata.*) *(.srodata .srodata.*) *(.data .data.*) *(.sdata .sdata.*) *(.got .got.*)
            *(.sbss .sbss.*) *(.bss .bss.*) *(COMMON) }}
  .tdata : {{ *(.tdata .tdata.*) *(.tbss .tbss.*) *(.tcommon) }}
  .rela.dyn : {{ *(.rela.dyn) }}
  . = ALIGN(16);
{heap}  top_of_data = .;
  /DISCARD/ : {{ *(.comment) *(.riscv.attributes) *(.note .note.*) *(.eh_frame) *(.eh_frame_hdr)
                *(.gcc_except_table .gcc_except_table.*) }}
}}
"""
# Where picolibc's malloc takes its memory
HEAP = """  __heap_start = .;
  . += {};
  . = ALIGN(16);
  __heap_end = .;
"""
TOP = "top_of_data"


class Library:
    """A C library of Debian's, built for RV32I: its headers and its archive."""

    def __init__(self, package: str, folder: str):
        self.package, self.headers, self.archive = (package, Path(folder, "include"),
                                                    Path(folder, "lib/rv32i/ilp32/libc.a"))


LIBRARIES = {"picolibc": Library("picolibc-riscv64-unknown-elf", "/usr/lib/picolibc/riscv64-unknown-elf")}
# What compilers call for what a machine hasn't, as multiplication: of Debian's gcc, for each compiler
OF_GCC = ("riscv64-unknown-elf-gcc", "/usr/lib/gcc/riscv64-unknown-elf", "*/rv32i/ilp32/libgcc.a")


def run(words: Sequence[str | Path]) -> tuple[int, str]:
    """Runs a tool; answers its status and what it says on standard error. A file that grows too large refuses the
    program, and so does a tool that doesn't end."""
    try:
        done = subprocess.run([str(one) for one in words], capture_output=True, preexec_fn=limit_tool, check=False)
    except FileNotFoundError:
        raise Refused(f"{words[0]} is not installed") from None
    errors = done.stderr.decode("utf-8", "replace").rstrip()
    if done.returncode and "File too large" in errors:
        raise Refused(f"{Path(words[0]).name} would write more than {LARGEST_FILE} bytes: code and variables are far "
                      "larger than memory can be")
    if done.returncode == -signal.SIGXCPU:
        raise Refused(f"{Path(words[0]).name} takes more than {TOOL_SECONDS} s of the processor")
    return done.returncode, errors


# --- What an input is --------------------------------------------------------

def kind_of(path: Path) -> str:
    """The language of an input, or object, archive or program."""
    if not path.is_file():
        raise Refused(f"{path} is not a file")
    with path.open("rb") as file:
        head = file.read(8)
    if head[:4] == b"\x7fELF":
        return "program" if is_linked(path) else "object"
    if head in (WHOLE, THIN):
        return "archive"
    if head[:2] == b"BC":
        return "llvm"
    if path.suffix not in ENDINGS:
        raise Refused(f"{path}: is neither an ELF file nor an archive, and its name doesn't end like that of a source: "
                      f"{', '.join(sorted(ENDINGS))}")
    return ENDINGS[path.suffix]


def text_of(source: Path) -> str:
    """A source as text; of LLVM's bitcode there is none."""
    data = source.read_bytes()
    if data[:2] == b"BC":
        return ""
    try:
        return data.decode("utf-8-sig")
    except UnicodeDecodeError as error:
        line = data.count(b"\n", 0, error.start) + 1
        raise Refused(f"{source}:{line}: byte 0x{data[error.start]:02x} isn't UTF-8; save the source as UTF-8, as by "
                      f"iconv -f latin1 -t utf8") from None


def check_llvm(source: Path) -> None:
    """Refuses LLVM IR that was made for another machine: its layout of types is another one."""
    told = re.search(r'(?m)^target triple = "([^"]*)"', text_of(source))
    if told and not told[1].startswith("riscv32"):
        raise Refused(f"{source}: is LLVM IR for {told[1]}; make it for RV32I, by clang --target=riscv32-unknown-elf "
                      "-march=rv32i -S -emit-llvm")


# --- Compiling and linking ---------------------------------------------------

def further_flags(options: Options, language: str) -> list[str]:
    """The flags of the command line, for a language that takes them."""
    if language == "assembly":
        given = [f"-D{name}" for name in options.define] + [f"-I{folder}" for folder in options.include]
    elif language == "llvm":
        given = []
    else:
        given = ([f"-D{name}" for name in options.define]
                 + [f"-I{folder}" for folder in options.include] + options.cflags)
    level = [] if language == "assembly" else [f"-O{options.optimize}"]
    return level + (["-g"] if options.g else []) + given


def made_with(options: Options) -> str:
    """The compiler of the first source and its flags, as words of a remark; none where nothing is compiled."""
    kinds = [kind for _, kind in options.inputs if kind in LANGUAGES]
    if not kinds or not options.tools:
        return ""
    done = subprocess.run([options.tools.compiler[0], "--version"], capture_output=True, text=True, check=False)
    return line(", with " + " ".join([done.stdout.partition("\n")[0], *further_flags(options, kinds[0])]))


def words_of(source: Path, kind: str, options: Options) -> list[str]:
    """How the compiler is called for a source. What lies beside the entry may be another's, and isn't looked at as
    closely."""
    own = options.toolchain.words(kind)
    if kind in ("c", "c++") and not re.search(rf"\b{re.escape(options.entry)}\s*\(", text_of(source)):
        own = [one for one in own if one != "-Wextra"]
    library = LIBRARIES[options.libc] if options.libc else None
    return own + (["-isystem", str(library.headers)] if library and kind in ("c", "c++", "assembly") else [])


def compiled(source: Path, kind: str, number: int, options: Options, directory: str) -> Path:
    """The path of the object file of a source. Warnings are shown."""
    made = Path(directory, f"{number}.o")
    if kind == "llvm":
        check_llvm(source)
    convention = [] if options.stack or kind in ("assembly", "llvm") else options.toolchain.no_stack
    strict = ["-Werror=override-module"] if kind == "llvm" and not text_of(source) else []
    # the assembler's preprocessor alone knows -D
    language = (["-x", "assembler-with-cpp"] if kind == "assembly"
                and (source.suffix == ".S" or options.define or options.include) else [])
    status, errors = run([*words_of(source, kind, options), *convention, *strict, *further_flags(options, kind),
                          *language, "-c", "-o", made, source])
    if status and "override-module" in errors:
        raise Refused(f"{source}: is LLVM bitcode for another machine; make it for RV32I, by clang "
                      "--target=riscv32-unknown-elf -march=rv32i -c -emit-llvm")
    if status:
        raise Refused(refusal_of(errors))
    if errors:
        print("\n".join(map(line, errors.splitlines())), file=sys.stderr)
    if options.stack:
        check_frames(made.with_suffix(".su"), options)
    return made


def check_frames(usage: Path, options: Options) -> None:
    """Refuses a function whose frame is larger than a slot, and warns of one whose frame grows as it runs. The
    compiler's figures count saved registers too."""
    stack = there(options.stack)
    for told in usage.read_text().splitlines() if usage.is_file() else []:
        place, taken, kind = told.rsplit("\t", 2)
        name = word(place.rsplit(":", 1)[1])
        if kind == "dynamic":
            print(f"{options.program}: warning: the frame of {name} has no fixed size, as of an array of variable "
                  f"length: that it stays within the slot of {stack} bytes "
                  "isn't checked", file=sys.stderr)
        if int(taken) > stack and name != options.setup:
            enough = 1 << (int(taken) - 1).bit_length()
            raise Refused(f"the frame of {name} takes {taken} bytes, more than its slot of {stack}; give --stack "
                          f"{enough} or more")


def start_code(start: Start, options: Options, directory: str) -> Path:
    """The path of the object file of the instructions before the entry."""
    source, made = Path(directory, "start.s"), Path(directory, "start.o")
    source.write_text(start.assembly(TOP), encoding="utf-8")
    status, errors = run([*options.toolchain.words("assembly"), "-c", "-o", made, source])
    if status:
        raise Refused("the assembler refuses the start code:\n" + errors)
    return made


def libgcc() -> list[Path]:
    """The compiler's own library, where it is there."""
    gcc, folder, place = OF_GCC
    found = sorted(Path(folder).glob(place)) if Path(folder).is_dir() else []
    if not found and shutil.which(gcc):
        done = subprocess.run([gcc, *COMMON, "-print-libgcc-file-name"], capture_output=True, text=True, check=False)
        found = [one for one in [Path(done.stdout.strip())] if one.is_file()]
    return found[-1:]


def undefined(errors: str) -> list[str]:
    """The names that a linker misses."""
    return sorted(set(re.findall(r"undefined reference to `([^']+)'",
                                 errors)) | set(re.findall(r"undefined symbol: (\S+)", errors)))


def linked(objects: list[Path], options: Options, directory: str) -> Program:
    """The program linked at address 0. What the compiler calls comes from its own library, where the inputs don't
    define it."""
    script, made = Path(directory, "link.ld"), Path(directory, "body.elf")
    script.write_text(LINKER_SCRIPT.format(entry=options.entry, heap=HEAP.format(options.heap) if options.heap else ""),
                      encoding="utf-8")
    archives = ([one for one, kind in options.inputs if kind == "archive"]
                + ([LIBRARIES[options.libc].archive] if options.libc else []))
    # compressed jumps are none of the machine's, and a linker that relaxes objects of such a kind makes some
    compressed = any(Opened(one).header.flags & COMPRESSED for one in objects)
    command = [*options.toolchain.linker, "-m", "elf32lriscv", *(["--no-relax"] if compressed else []), "-T",
               str(script), "-o", str(made)]

    def link(given: list[Path]) -> tuple[int, str]:
        group: list[str | Path] = ["-u", options.entry, "--start-group", *objects, *given, "--end-group"]
        return run([*command, *group] if given else [*command, *objects])

    status, errors = link(archives)
    if undefined(errors) and libgcc():
        status, errors = link(archives + libgcc())
    if undefined(errors):
        raise Refused(missing([word(name) for name in undefined(errors)], options.entry, options.exit,
                              bool(options.libc)))
    if status:
        raise Refused("the linker refuses the program:\n" + errors[:TRUNCATED])
    program = Program(made)
    if program.symbol(options.entry) is None:
        raise Refused(no_entry(program, options))
    return program


def no_entry(program: Program, options: Options) -> str:
    """Why there is no entry, with the functions that are there."""
    reason = missing([options.entry], options.entry, options.exit, bool(options.libc))
    mangled = next((name for name in program.functions()
                    if re.match(rf"_Z{len(options.entry)}{options.entry}\w*$", name)), None)
    if mangled:
        return (f'{reason}\nthere is the C++ function {mangled}; write extern "C" before its definition, or give '
                f'--entry {mangled}')
    there = ", ".join(program.functions()[:8])
    return f"{reason}\nthe global functions are: {there}" if there else reason


def check_sizes(objects: list[Path]) -> None:
    """Refuses objects that are far larger than memory, before anything is linked."""
    need = sum(one.size for path in objects for one in Opened(path).placed())
    if need > LARGEST_FILE:
        raise Refused(f"code and variables need {need} bytes, more than memory can have: 65536, with --version 2 "
                      "1048576")


def program_of(options: Options, directory: str) -> Program:
    """The linked program of all inputs."""
    kinds = dict(options.inputs)
    for path, kind in options.inputs:
        if kind == "archive":
            Archive(path).check()
    objects = []
    for number, (path, kind) in enumerate(kinds.items()):
        if kind == "object":
            objects.append(path)
        elif kind != "archive":
            objects.append(compiled(path, kind, number, options, directory))
    check_sizes(objects)
    start = options.start
    if start.stack or start.chunk > 1:
        return linked([start_code(start, options, directory), *objects], options, directory)
    program = linked(objects, options, directory)
    if program.symbol(options.entry) != 0:
        program = linked([start_code(start, options, directory), *objects], options, directory)
    return program


def tools_of(compiler: str | None, kinds: set[str]) -> Compiler:
    """The compiler that was asked for, or the first that is there; LLVM IR is clang's."""
    if "llvm" in kinds and compiler == "gcc":
        raise Refused("gcc compiles no LLVM IR; leave --compiler gcc out, or make an object of it")
    names = [compiler] if compiler else ["clang"] if "llvm" in kinds else ["gcc", "clang"]
    for name in names:
        if COMPILERS[name].is_there():
            return COMPILERS[name]
    raise Refused("no compiler is installed; install the Debian packages "
                  + ", or ".join(COMPILERS[name].package for name in names))


def with_program(options: Options, work: Callable[[Program], Answer]) -> Answer:
    """Links the inputs, or takes the linked program that is given, and does something with it."""
    if options.linked:
        return work(Program(options.linked))
    with tempfile.TemporaryDirectory() as directory:
        return work(program_of(options, directory))
