"""Counts a program's loops in one run: entries, iterations and steps, by the marks that loops-count set."""

import ctypes
from collections.abc import Callable
from dataclasses import dataclass
from typing import NamedTuple

from .build import Kit, Linked
from .emulator import Given, Run, unicorn
from .reasons import system_call

# The marks: XORI, ORI and ANDI into x0, with a loop's number in the immediate and in the register that is read.
ENTERED, ITERATED, LEFT = 4, 6, 7
IMMEDIATES = 2048


class Mark(NamedTuple):
    """An instruction that marks a place of a loop."""
    pc: int
    what: int
    loop: int


def marks_of(program: Linked) -> list[Mark]:
    """The marks in a program's code."""
    data, found = program.contents(".text"), []
    for pc in program.text:
        word = int.from_bytes(data[pc - program.text.start:][:4], "little")
        what = word >> 12 & 7
        if word & 0xFFF == 0x013 and what in (ENTERED, ITERATED, LEFT):
            found.append(Mark(pc, what, (word >> 15 & 31) * IMMEDIATES + (word >> 20)))
    return found


class Steps(ctypes.Structure):
    """The steps of a run, as steps.c counts them."""
    _fields_ = [(name, ctypes.c_uint64) for name in ("total", "end", "marked")]


class Iterations(ctypes.Structure):
    """The iterations of a loop, as steps.c counts them."""
    _fields_ = [("steps", ctypes.POINTER(Steps)),
                *((name, ctypes.c_uint64)
                  for name in ("count", "open", "began", "number", "longest", "longest_number"))]


class Counted:
    """What was counted of a loop."""

    def __init__(self, steps: Steps) -> None:
        self.iterated = Iterations(ctypes.pointer(steps))
        self.entries = self.steps = 0
        self.system: str | None = None      # why it can't be an image, where it calls the system

    @property
    def iterations(self) -> int:
        count: int = self.iterated.count
        return count


@dataclass
class Active:
    """An entry into a loop that goes on."""
    loop: int
    pc: int
    stack: int
    began: int


class Counting(Run):
    """A run of a program with marks."""

    def __init__(self, program: Linked, given: Given, loops: int, kit: Kit) -> None:
        super().__init__(program, given)
        self.library = ctypes.CDLL(str(kit.steps))
        self.library.loops_now.restype = ctypes.c_uint64
        self.steps = Steps()
        self.loops = [Counted(self.steps) for _ in range(loops)]
        self.active: list[Active] = []
        self.hook_native(unicorn.UC_HOOK_BLOCK, self.library.loops_block, self.steps)
        for mark in marks_of(program):
            if mark.what == ITERATED:
                self.hook_native(unicorn.UC_HOOK_CODE, self.library.loops_iteration, self.loops[mark.loop].iterated,
                                 mark.pc)
            else:
                self.hook_mark(mark, self.entered if mark.what == ENTERED else self.left)

    def hook_mark(self, mark: Mark, do: Callable[[Mark, int], None]) -> None:
        def hooked() -> None:
            do(mark, self.library.loops_now(ctypes.byref(self.steps), ctypes.c_uint64(mark.pc)))
            self.steps.marked += 1
        self.hook_at(mark.pc, hooked)

    def entered(self, mark: Mark, now: int) -> None:
        """An entry. What a longjmp left goes on no more: frames below the stack pointer, and the loop itself in the
        same frame."""
        stack = self.register(2)
        while (self.active
               and (self.active[-1].stack < stack
                    or (self.active[-1].stack, self.active[-1].loop) == (stack, mark.loop))):
            self.close(now)
        self.active.append(Active(mark.loop, mark.pc, stack, now))
        self.loops[mark.loop].entries += 1
        self.loops[mark.loop].iterated.number = self.loops[mark.loop].iterated.open = 0

    def left(self, mark: Mark, now: int) -> None:
        if any(one.loop == mark.loop for one in self.active):
            while self.close(now).loop != mark.loop:
                pass

    def close(self, now: int) -> Active:
        """The innermost entry ends. Its steps count where it isn't within another entry into the same loop."""
        here = self.active.pop()
        counted = self.loops[here.loop]
        self.library.loops_measure(ctypes.byref(counted.iterated), ctypes.c_uint64(now))
        if all(one.loop != here.loop for one in self.active):
            counted.steps += now - here.began
        return here

    def before_call(self) -> None:
        for one in self.active:
            if self.loops[one.loop].system is None:
                self.loops[one.loop].system = system_call(self.line_in(one))

    def line_in(self, one: Active) -> str:
        """The line of the loop's function that led to what runs now."""
        inside = self.program.function_at(one.pc)
        calls = [pc for pc in self.returns(one.stack) if pc in inside]
        return self.program.line(calls[-1] if calls else one.pc)

    def counted(self) -> int:
        """Runs the whole program, and answers its steps."""
        self.whole()
        total: int = self.steps.total - self.steps.marked
        while self.active:
            self.close(total)
        return total
