"""Runs a linked program on Unicorn's RISC-V: as a whole, with its loops counted, or to an entry into a loop and on to
where its window ends."""

import ctypes
import sys
from collections.abc import Callable
from dataclasses import dataclass, field
from pathlib import Path
from types import ModuleType
from typing import Any

from loops.image_of.reasons import Refused as NoUnicorn
from loops.image_of.setup import unicorn_module
from loops.images import there

from .build import MEMORY, PAGE, Linked
from .reasons import CAME_AGAIN, ENDS_WITHIN, Faults, Refused, Unusable, stack_ran_out, system_call


def imported() -> ModuleType | None:
    """Unicorn, or None. It takes one function of pkg_resources, which takes long to import: another one stands there
    meanwhile."""
    def resource_filename(module: str, name: str) -> str:
        return str(Path(there(sys.modules[module].__file__)).with_name(name))

    stand_in = ModuleType("pkg_resources")
    vars(stand_in)["resource_filename"] = resource_filename
    found = sys.modules.setdefault("pkg_resources", stand_in)
    try:
        return unicorn_module()
    except NoUnicorn:
        return None
    finally:
        if found is stand_in:
            del sys.modules["pkg_resources"]


# It has no types. Where it is missing, nothing is run.
unicorn: Any = imported()

FILL = 0xA5
END, PUT, PUT_ERROR, GET = range(4)         # the system's calls, as runtime.c has them
FROM_USER, FROM_MACHINE = 8, 11             # RISC-V's causes of ECALL
RETURN = 0x00008067
WORDS_OF_JMP_BUF = 14                       # s0 to s11, sp and ra
MOST_ARGUMENTS, BYTES_OF_ARGUMENTS = 32, 896


@dataclass
class Given:
    """What a program is given, and how long it may run."""
    arguments: list[str] = field(default_factory=list)
    input: bytes = b""
    seconds: int = 30
    stack: int = 0


class Run:
    """A program that runs; hooks are there from the start, since Unicorn keeps what it has translated and doesn't hear
    one that comes later."""

    def __init__(self, program: Linked, given: Given) -> None:
        self.program, self.given = program, given
        self.output, self.read = bytearray(), 0
        self.status: int | None = None
        self.failed: Exception | None = None
        self.saved: set[int] = set()                        # where setjmp saved registers
        self.guard, self.high = program.at("loops_guard"), program.at("loops_stack_end")
        self.machine = unicorn.Uc(unicorn.UC_ARCH_RISCV, unicorn.UC_MODE_RISCV32)
        self.numbers = [getattr(unicorn.riscv_const, f"UC_RISCV_REG_X{number}") for number in range(32)]
        self.load()
        self.machine.hook_add(unicorn.UC_HOOK_INTR, self.called)
        for name in ("setjmp", "_setjmp", "sigsetjmp"):
            self.hook(name, lambda: self.saved.update(range(self.register(10),
                                                            self.register(10) + 4 * WORDS_OF_JMP_BUF)))

    def load(self) -> None:
        """Puts the program and its arguments into memory. Code and constants can't be written, and a page below the
        stack can't be touched."""
        self.machine.mem_map(0, MEMORY)
        for one in self.program.placed():
            if one.in_file:
                self.machine.mem_write(one.address, one.data())
        words = [b"program", *(word.encode() for word in self.given.arguments)]
        if len(words) >= MOST_ARGUMENTS or sum(len(word) + 1 for word in words) > BYTES_OF_ARGUMENTS:
            raise Unusable(f"--args takes {MOST_ARGUMENTS - 2} words and {BYTES_OF_ARGUMENTS - 8} bytes at most")
        at, argv = self.program.at("loops_words"), self.program.at("loops_argv")
        for number, word in enumerate(words):
            self.machine.mem_write(argv + 4 * number, at.to_bytes(4, "little"))
            self.machine.mem_write(at, word + b"\0")
            at += len(word) + 1
        self.machine.mem_write(self.program.at("loops_argc"), len(words).to_bytes(4, "little"))
        self.machine.mem_protect(0, self.program.at("loops_data") // PAGE * PAGE,
                                 unicorn.UC_PROT_READ | unicorn.UC_PROT_EXEC)
        self.machine.mem_protect(self.guard, PAGE, unicorn.UC_PROT_NONE)

    def hook(self, name: str, do: Callable[[], object]) -> None:
        """Calls a function where the program gets to a symbol."""
        if name in self.program.named:
            self.hook_at(self.program.at(name), do)

    def hook_at(self, at: int, do: Callable[[], object]) -> None:
        self.machine.hook_add(unicorn.UC_HOOK_CODE, lambda *_: do(), begin=at, end=at)

    def hook_native(self, kind: int, function: Any, given: ctypes.Structure, at: int | None = None) -> None:
        """Calls a function of C, which a hook that is called often has to be: at each block, or at an instruction. (The
        package itself takes functions of Python alone.)"""
        bounds = (1, 0) if at is None else (at, at)
        handle = ctypes.c_size_t()
        status = unicorn.unicorn._uc.uc_hook_add(self.machine._uch, ctypes.byref(handle), kind,
                                                 ctypes.cast(function, ctypes.c_void_p), ctypes.byref(given),
                                                 *map(ctypes.c_uint64, bounds))
        if status != unicorn.UC_ERR_OK:
            raise Unusable(f"the emulator takes no hook: error {status}")

    def register(self, number: int) -> int:
        value: int = self.machine.reg_read(self.numbers[number])
        return value & 0xFFFFFFFF

    def pc(self) -> int:
        pc: int = self.machine.reg_read(unicorn.riscv_const.UC_RISCV_REG_PC)
        return pc

    def word(self, at: int) -> int:
        return int.from_bytes(self.machine.mem_read(at, 4), "little")

    def snapshot(self) -> bytes:
        """The memory, with zeros where the guard is."""
        return (bytes(self.machine.mem_read(0, self.guard)) + bytes(PAGE)
                + bytes(self.machine.mem_read(self.guard + PAGE, MEMORY - self.guard - PAGE)))

    def called(self, machine: object, cause: int, _: object) -> None:
        """A call of the system, or what a processor stops at."""
        if cause not in (FROM_USER, FROM_MACHINE):
            self.stop(Faults(f"the program faults: cause {cause}, at {self.place(self.pc())}"))
            return
        self.before_call()
        what, given = self.register(17), self.register(10)
        if what == END:
            self.status = given & 0xFF
            self.machine.emu_stop()
        elif what == PUT:
            self.output.append(given & 0xFF)
        elif what == GET:
            self.machine.reg_write(self.numbers[10], self.given.input[self.read] if self.read < len(self.given.input)
                                   else 0xFFFFFFFF)
            self.read += 1

    def before_call(self) -> None:
        """What a kind of run does before a call of the system."""

    def stop(self, why: Exception) -> None:
        """Stops the run, which then fails. (Nothing can be raised from within a hook.)"""
        self.failed = self.failed or why
        self.machine.emu_stop()

    def place(self, pc: int) -> str:
        return self.program.place(pc, self.program.lines.at(pc))

    def returns(self, high: int) -> list[int]:
        """The instructions that called what runs now, innermost first: the words in x1 and on the stack up to an
        address that stand behind a call."""
        words = [self.register(1), *(self.word(at) for at in range(self.register(2), high, 4))]
        inside = range(self.program.text.start + 4, self.program.text.stop + 4, 4)
        # a call is jal x1 or jalr x1
        return [word - 4 for word in words if word in inside and self.word(word - 4) & 0xFFF in (0x0EF, 0x0E7)]

    def start(self) -> None:
        """Runs until the program ends or a hook stops it."""
        try:
            self.machine.emu_start(self.program.at("loops_start"), 0xFFFFFFF0, count=0,
                                   timeout=self.given.seconds * 1_000_000)
        except unicorn.UcError as wrong:
            if self.register(2) < self.guard + 2 * PAGE:
                raise Unusable(stack_ran_out(self.given.stack)) from None
            raise Faults(f"the program faults: {wrong}, at {self.place(self.pc())}") from None
        if self.failed:
            raise self.failed

    def whole(self) -> "Run":
        """Runs the whole program."""
        self.start()
        if self.status is None:
            raise Unusable(f"the program didn't end in {self.given.seconds} seconds; --seconds takes more")
        self.final = self.snapshot()
        return self


class Entries(Run):
    """A run of a program with one loop outlined: how many iterations each entry has."""

    def __init__(self, program: Linked, given: Given) -> None:
        super().__init__(program, given)
        self.iterations: list[int] = []
        self.hook("loops_drive", self.entered)
        self.hook("loops_body", self.iterated)
        self.hook("loops_left", self.left)
        self.inside = False

    def entered(self) -> None:
        if self.inside:
            self.stop(Refused(CAME_AGAIN))
        self.inside = True
        self.iterations.append(0)

    def iterated(self) -> None:
        self.iterations[-1] += 1

    def left(self) -> None:
        self.inside = False


@dataclass
class Block:
    """A block of the heap, and the line that asked for it."""
    length: int
    line: str


class Window(Entries):
    """A run to an entry into the loop and one of its iterations, and on for so many."""

    def __init__(self, program: Linked, given: Given, entry: int, first: int, count: int) -> None:
        self.wanted, self.first, self.count = entry, first, count
        self.begun: bytes | None = None         # the memory where the window begins
        self.ended: bytes | None = None         # and where it ends
        self.registers: list[int] = []
        self.depth = 0
        self.blocks: dict[int, Block] = {}
        self.asked: list[tuple[int, str]] = []
        super().__init__(program, given)
        for name in ("malloc", "realloc"):
            self.hook_blocks(name)
        self.hook("free", lambda: self.blocks.pop(self.register(10), None))

    def hook_blocks(self, name: str) -> None:
        """Learns which blocks a function of the allocator gives: at its start and at each of its returns."""
        self.hook(name, lambda: self.asked.append((self.register(10 if name == "malloc" else 11), self.caller())))
        for pc in self.program.range_of(name):
            if self.word(pc) == RETURN:
                self.hook_at(pc, self.given_block)

    def given_block(self) -> None:
        if self.asked and self.begun is None and self.register(10):
            self.blocks[self.register(10)] = Block(*self.asked.pop())

    def caller(self) -> str:
        """The innermost line of the program's own that led here."""
        if self.begun is not None:
            return "?"
        return next((line for line in map(self.program.lines.at, self.returns(self.high)) if line), "?")

    def iterated(self) -> None:
        super().iterated()
        if len(self.iterations) != self.wanted:
            return
        if self.iterations[-1] == self.first + 1:
            self.begin()
        elif self.begun and self.iterations[-1] == self.first + self.count + 1:
            self.finish()

    def left(self) -> None:
        super().left()
        if self.begun and self.ended is None:
            self.finish()

    def begin(self) -> None:
        """The window begins. What lies below the stack pointer is dead: filled, it tells how deep the loop's calls
        go."""
        self.begun, self.registers = self.snapshot(), [self.register(number) for number in range(32)]
        low = self.guard + PAGE
        self.machine.mem_write(low, bytes([FILL]) * (self.registers[2] - low))

    def finish(self) -> None:
        self.ended = after = self.snapshot()
        low, high = self.guard + PAGE, self.registers[2]
        self.depth = len(after[low:high].lstrip(bytes([FILL])))
        self.machine.emu_stop()

    def before_call(self) -> None:
        if self.begun and self.ended is None:
            self.stop(Refused(self.calling() or ENDS_WITHIN))

    def run(self) -> "Window":
        """Runs to the end of the window."""
        self.start()
        if self.ended is None:
            raise Refused(ENDS_WITHIN)
        return self

    @property
    def memory(self) -> bytes:
        """The memory where the window begins, once it has run."""
        return there(self.begun)

    @property
    def after(self) -> bytes:
        """The memory where the window ends, once it has run."""
        return there(self.ended)

    def calling(self) -> str | None:
        """Why a call of the system ends the window: the line in the loop that led to it. None where the loop was left
        without its end being seen."""
        body = self.program.range_of("loops_body")
        inside = [pc for pc in self.returns(self.registers[2]) if pc in body]
        return system_call(self.program.line(inside[-1])) if inside else None
