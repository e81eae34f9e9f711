"""From sources to linked programs: the program as it is, with marks at its loops, and with one loop's iteration as a
function."""

import bisect
import hashlib
import os
import re
import subprocess
import sys
import tempfile
from collections import Counter
from dataclasses import dataclass, field
from functools import cached_property
from pathlib import Path

from loops.image_of.elf import Program
from loops.image_of.lines import Lines, lines_of
from loops.programs import IN_TREE, TREE

from .reasons import Refused, Unusable, too_large, unlinked

HERE = Path(__file__).resolve().parent
LLVM = Path("/usr/lib/llvm-14")
PICOLIBC = Path("/usr/lib/picolibc/riscv64-unknown-elf")
LIBGCC = ("/usr/lib/gcc/riscv64-unknown-elf", "*/rv32i/ilp32/libgcc.a")
TARGET = ["--target=riscv32-unknown-elf", "-march=rv32i", "-mabi=ilp32"]
FRONT = ["-O1", "-Xclang", "-disable-llvm-passes", "-g", "-fno-discard-value-names", "-fno-pic", "-fno-common",
         "-fno-stack-protector", "-w"]
FRONT_CPP = ["-fno-exceptions", "-fno-rtti", "-fno-threadsafe-statics", "-fno-use-cxa-atexit"]
BACK = ["-O2", "-fno-unroll-loops", "-ffunction-sections", "-msmall-data-limit=0", "-fno-pic", "-w"]
CPP = (".cc", ".cpp", ".cxx", ".c++", ".C")
# No pass that joins loads before loops are rotated: a load in the loop's condition and in its body would become a value
# that is carried around the loop.
BEFORE = ("loops-keep,function(sroa,simplifycfg,loop-simplify,lcssa,loop(loop-rotate),instcombine,simplifycfg,adce,"
          "loop-simplify,lcssa,loop(indvars),loop-simplify,lcssa),loops-frames")
MEMORY = 1 << 20
PAGE = 4096
# how much longer the code may become by a loop that is outlined, before the variables move up
SPARE = 4096


def run(*words: object, why: type[Exception] = Unusable) -> str:
    """What a tool prints; an exception with its first errors where it fails."""
    done = subprocess.run([str(word) for word in words], capture_output=True, check=False)
    if done.returncode:
        errors = done.stderr.decode("utf-8", "replace").splitlines()
        raise why(f"{Path(str(words[0])).name}: " + "\n".join(errors[:12]))
    return done.stdout.decode("utf-8", "replace")


def llvm(name: str) -> Path:
    return LLVM / "bin" / name


def archives() -> list[Path]:
    """picolibc and libgcc, for RV32I."""
    folder = PICOLIBC / "lib/release/rv32i/ilp32"
    return [folder / "libc.a", folder / "libm.a", *sorted(Path(LIBGCC[0]).glob(LIBGCC[1]))[-1:]]


def lacking() -> list[str]:
    """The Debian packages that aren't installed."""
    there = {"clang": llvm("clang").is_file(), "lld": llvm("ld.lld").is_file(),
             "llvm-14-dev": (LLVM / "include/llvm/Pass.h").exists(),
             "llvm-14": llvm("opt").is_file(), "picolibc-riscv64-unknown-elf": archives()[0].is_file(),
             "gcc-riscv64-unknown-elf": len(archives()) == 3}
    return [package for package, found in there.items() if not found]


# --- What is built once ------------------------------------------------------------

@dataclass
class Kit:
    """The plug-in, and the runtime of a program."""
    folder: Path

    @property
    def plugin(self) -> Path:
        return self.folder / "outline.so"

    @property
    def passes(self) -> Path:
        """The plug-in's passes, as they are compiled."""
        return self.folder / "passes.o"

    @property
    def runtime(self) -> list[Path]:
        return [self.folder / "start.o", self.folder / "runtime.o"]

    @property
    def steps(self) -> Path:
        return self.folder / "steps.so"

    @property
    def archives(self) -> list[Path]:
        """The C library without its lines, which take long to read."""
        return [self.folder / path.name for path in archives()]

    def opt(self, passes: str, source: Path, *words: object) -> str:
        """What the plug-in's passes tell of a unit."""
        return run(llvm("opt"), "-load", self.plugin, "-load-pass-plugin", self.plugin, f"-passes={passes}",
                   source, *words)


def build_plugin(kit: Kit, flags: tuple[str, ...] = ()) -> None:
    """Builds the plug-in. All of it but for the part that may plant a mistake is compiled once."""
    words = ["-std=c++17", "-O0", "-fPIC", "-fno-rtti", "-fno-exceptions", "-isystem", LLVM / "include", *flags]
    if not kit.passes.is_file():
        run(llvm("clang++"), *words, "-c", HERE / "pass/all.cpp", "-o", kit.passes)
    run(llvm("clang++"), *words, "-shared", kit.passes, HERE / "pass/planted.cpp", "-o", kit.plugin)


def build_runtime(kit: Kit) -> None:
    """Builds what a program needs below picolibc, and what counts its steps; takes the lines out of the library's
    copy."""
    run(llvm("clang"), "-O2", "-fPIC", "-shared", "-Wall", "-Wextra", HERE / "runtime/steps.c", "-o", kit.steps)
    run(llvm("clang"), *TARGET, "-c", HERE / "runtime/start.s", "-o", kit.runtime[0])
    run(llvm("clang"), *TARGET, "-nostdlibinc", "-isystem", PICOLIBC / "include", "-O1", "-c",
        HERE / "runtime/runtime.c", "-o", kit.runtime[1])
    for path, made in zip(archives(), kit.archives):
        run(llvm("llvm-objcopy"), "--strip-debug", path, made)


def folder_of_kits() -> Path:
    """Where what is built once is kept: in the tree, or where the package is installed, in the user's cache."""
    if IN_TREE:
        return TREE / "out" / "loops-of"
    return Path(os.environ.get("XDG_CACHE_HOME") or Path.home() / ".cache") / "loops-of"


def kit_of() -> Kit:
    """The plug-in and the runtime of these sources, which are built where they aren't there yet."""
    if lacking():
        raise Unusable("not installed, of Debian's packages: " + ", ".join(lacking()))
    sources = sorted([*(HERE / "pass").iterdir(), *(HERE / "runtime").iterdir()])
    stamps = [f"{path} {path.stat().st_size} {path.stat().st_mtime_ns}" for path in archives()]
    told = hashlib.sha256(b"".join(path.read_bytes() for path in sources) + "".join(stamps).encode()).hexdigest()
    folder = folder_of_kits()
    made = Kit(folder / told[:16])
    if not made.plugin.is_file():
        print("loops-of: builds its plug-in for LLVM, once, in half a minute", file=sys.stderr)
        folder.mkdir(parents=True, exist_ok=True)
        with tempfile.TemporaryDirectory(dir=folder) as scratch:
            scratch_kit = Kit(Path(scratch, "kit"))
            scratch_kit.folder.mkdir()
            build_plugin(scratch_kit)
            build_runtime(scratch_kit)
            put_in_place(scratch_kit, made)
    return made


def put_in_place(new: Kit, made: Kit) -> None:
    """Has a kit in its place whole or not at all. Where another process was there first, its kit stays as it is, since
    it may be read already."""
    try:
        new.folder.rename(made.folder)
    except OSError:
        if not made.plugin.is_file():
            raise


# --- What is told of loops -----------------------------------------------------

@dataclass
class Told:
    """What the pass told of a loop that it outlined."""
    carried: list[str] = field(default_factory=list)        # names, with what is known of them behind
    computed: list[str] = field(default_factory=list)
    own: list[str] = field(default_factory=list)
    shared: list[str] = field(default_factory=list)         # arrays of an iteration's own that couldn't go along
    countable: bool = False
    exits: int = 0

    def take(self, words: list[str]) -> None:
        """Takes a line in."""
        if words[0] == "carried":
            note = [f"({words[3]})"] if len(words) > 3 else []
            self.carried.append(" ".join([words[1], *([words[2]] if words[2] != "?" else []), *note]))
        elif words[0] == "computed":
            self.computed.append(" ".join([words[1], *(f"({note})" for note in words[2:])]))
        elif words[0] == "own":
            self.own.append(words[1])
        elif words[0] == "shared":
            self.shared.append(words[1])
        elif words[0] == "exits":
            self.exits = int(words[1])
        elif words[0] == "countable":
            self.countable = True

    def text(self) -> str:
        """For people: `carried max, head | computed i | own tmp`."""
        parts = [("carried", self.carried), ("computed", self.computed), ("own", self.own), ("shared", self.shared)]
        told = [f"{name} {', '.join(sorted(found))}" for name, found in parts if found]
        return " | ".join(told + ([f"exits {self.exits}"] if self.exits > 1 else []))


@dataclass
class Loop:
    """A loop of a unit."""
    unit: "Unit"
    number: int                             # in its unit, from 1
    line: str                               # FILE:LINE
    function: str
    depth: int
    refused: str | None = None
    told: Told = field(default_factory=Told)
    place: str = ""                         # FILE:LINE, with .2 of the second one of a line


def read_loops(text: str, unit: "Unit") -> list[Loop]:
    """What loops-list tells."""
    loops: list[Loop] = []
    for line in text.splitlines():
        words = line.split("\t")
        if words[0] == "loop":
            loops.append(Loop(unit, len(loops) + 1, words[1], words[2], int(words[3])))
        elif words[0] == "refused":
            loops[-1].refused = words[1]
        else:
            loops[-1].told.take(words)
    return loops


# --- A program -----------------------------------------------------------------

class Linked(Program):
    """A linked program, whose symbols and lines are read once."""

    @cached_property
    def named(self) -> dict[str, tuple[int, int]]:
        """Address and length of each symbol."""
        return {one.name: (one.value, one.size) for one in self.symbols}

    def at(self, name: str) -> int:
        """The address of a symbol that every program here has."""
        return self.named[name][0]

    def range_of(self, name: str) -> range:
        """The instructions of a function; none where there is no such function."""
        at, length = self.named.get(name, (0, 0))
        return range(at, at + length, 4)

    @cached_property
    def functions_at(self) -> list[tuple[int, int]]:
        """Address and length of each function, in order."""
        return sorted({(one.value, one.size) for one in self.symbols if one.kind == "STT_FUNC" and one.size})

    def function_at(self, pc: int) -> range:
        """The instructions of the function that has an instruction; none where none has it."""
        place = bisect.bisect_right(self.functions_at, (pc, 1 << 32)) - 1
        at, length = self.functions_at[place] if place >= 0 else (0, 0)
        return range(at, at + length, 4) if pc < at + length else range(0)

    @cached_property
    def text(self) -> range:
        """All instructions."""
        section = self.section(".text")
        return range(section.address, section.end, 4) if section else range(0)

    @cached_property
    def lines(self) -> Lines:
        """FILE:LINE of the program's own instructions."""
        return lines_of(self)

    def line(self, pc: int) -> str:
        """That of an instruction, or `?`."""
        return self.lines.at(pc) or "?"


@dataclass
class Layout:
    """How much memory a program has."""
    heap: int
    stack: int
    start: int = 32                         # bytes at address 0 for what leads to an iteration
    data: int = 0                           # where its variables begin, in all builds that are compared


class Unit:
    """A source, in LLVM's form."""

    def __init__(self, source: Path, number: int, flags: list[str], builder: "Builder") -> None:
        self.source, self.number, self.builder, self.first_mark = source, number, builder, 0
        self.ready = self.path("ready.bc")
        raw = self.path("bc")
        language = FRONT_CPP if source.suffix in CPP else []
        run(llvm("clang"), *TARGET, "-nostdlibinc", "-isystem", PICOLIBC / "include", *FRONT, *language, *flags, "-c",
            "-emit-llvm", "-o", raw, source)
        builder.kit.opt(BEFORE, raw, "-o", self.ready)

    def path(self, ending: str) -> Path:
        return self.builder.folder / f"{self.number}.{ending}"

    def compiled(self, bitcode: Path, ending: str, *words: object) -> Path:
        made = self.path(ending)
        run(llvm("clang"), *TARGET, *BACK, *words, "-c", "-o", made, bitcode)
        return made

    @cached_property
    def object(self) -> Path:
        """The unit as it is."""
        return self.compiled(self.ready, "o")

    @cached_property
    def loops(self) -> list[Loop]:
        return read_loops(self.builder.kit.opt("loops-list", self.ready, "-disable-output"), self)

    @cached_property
    def counted(self) -> Path:
        """The unit with marks at its loops."""
        marked = self.path("marked.bc")
        self.builder.kit.opt("loops-count", self.ready, f"-loops-of-first={self.first_mark}", "-o", marked)
        return self.compiled(marked, "marked.o")

    def outlined(self, number: int) -> Path:
        """The unit with one loop's iteration as a function: the compiler takes it out before its own passes."""
        plugin = self.builder.kit.plugin
        return self.compiled(self.ready, "loop.o", f"-fpass-plugin={plugin}", "-Xclang", "-load", "-Xclang", plugin,
                             "-mllvm", f"-loops-of-number={number}")


class Builder:
    """A program's units, and what is linked of them: one is transformed at a time, and the others are compiled once."""

    def __init__(self, sources: list[Path], flags: list[str], layout: Layout, folder: Path, kit: Kit) -> None:
        self.folder, self.kit, self.layout = folder, kit, layout
        for source in sources:
            if not source.is_file():
                raise Unusable(f"{source} is not a file")
        self.units = [Unit(source, number, flags, self) for number, source in enumerate(sources)]

    @cached_property
    def loops(self) -> list[Loop]:
        """The loops of all units, each with a place of its own."""
        all_ = [loop for unit in self.units for loop in unit.loops]
        seen: Counter[str] = Counter()
        for loop in all_:
            seen[loop.line] += 1
            loop.place = loop.line if seen[loop.line] == 1 else f"{loop.line}.{seen[loop.line]}"
        return all_

    def linked(self, objects: list[Path], name: str) -> Linked:
        """A linked program, whose variables are where those of the others are."""
        script, made = self.folder / f"{name}.ld", self.folder / f"{name}.elf"
        text = (HERE / "runtime/link.ld").read_text()
        for word in ("start", "heap", "stack", "data"):
            text = text.replace(f"@{word.upper()}@", str(getattr(self.layout, word)))
        script.write_text(text)
        words = [llvm("ld.lld"), "--error-limit=0", "--discard-locals", "-m", "elf32lriscv", "-T", script, "-o",
                 made, *objects, *self.kit.runtime,
                 "--start-group", *self.kit.archives, "--end-group"]
        done = subprocess.run([str(word) for word in words], capture_output=True, check=False)
        errors = done.stderr.decode("utf-8", "replace")
        undefined = sorted(set(re.findall(r"undefined symbol: (.+)", errors)))
        if done.returncode:
            raise Unusable(unlinked(undefined) if undefined else "ld.lld: " + "\n".join(errors.splitlines()[:8]))
        return Linked(made)

    def placed(self, objects: list[Path], name: str, why: type[Exception]) -> Linked:
        """The same. Where the code has grown into the variables, these move up."""
        program = self.linked(objects, name)
        if program.at("loops_data") > self.layout.data:
            self.layout.data = program.at("loops_data") + SPARE
            program = self.linked(objects, name)
        if program.at("loops_end") > MEMORY:
            raise why(too_large(program.at("loops_end"), MEMORY, "--heap and --stack"))
        return program

    def plain(self) -> Linked:
        """The program as it is."""
        return self.placed([unit.object for unit in self.units], "plain", Unusable)

    def counted(self) -> Linked:
        """The program with marks at its loops, which are numbered from 0 through all units."""
        first = 0
        for unit in self.units:
            unit.first_mark = first
            first += len(unit.loops)
        return self.placed([unit.counted for unit in self.units], "counted", Unusable)

    def outlined(self, loop: Loop) -> Linked:
        """The program with one loop's iteration as the function loops_body."""
        objects = [unit.outlined(loop.number) if unit is loop.unit else unit.object for unit in self.units]
        return self.placed(objects, "outlined", Refused)
