#!/usr/bin/env python3
"""Whether the lock of `trace_cli run` is free while a core executes up to its next access.

Usage: tests/threads.py [COMMAND ..]

COMMAND reads its standard input and ends with the word `seq`, in whose place `run --cores 2` is put; without it
`./trace_cli seq` of this repository is tested. The epochs of the loop execute nearly a million instructions each and
store one word, so that a core that is stopped at some moment mostly executes. One of the two cores is stopped, twenty
times. The other has to go on meanwhile: it uses more of a processor than one epoch needs. If the stopped core kept the
lock, or had to be waited for in line, the other would sleep. Neither speed nor other programs on the machine change the
outcome. Needs Linux and its call `ptrace`; where that isn't allowed the test is left out, and a line says so. Exits
with 1 where the other core went on less than fifteen times: now and then the first is stopped while it does have the
lock.
"""

import ctypes
import os
import subprocess
import sys
import time
from collections.abc import Iterator
from functools import partial
from pathlib import Path

from common import Check, Script, left_out
from memory import without_the_wrapper

# lui x5,122; addi x5,x5,-1; bne x5,x0,-4; andi x6,x10,255; slli x6,x6,2; sw x10,64(x6); jalr x0,0(x1)
CODE = "b7a207009382f2ffe39e02fe1373f50f131323002320a30467800000"
IMAGE = f"size 2048\nepochs 20000\nlimit 1000000\ncode {CODE}\n"
STOPS, LEAST = 20, 15
# Of the other core: so many ticks of processor time while the first is stopped, and so many looks in a row that find it
# asleep.
GOES_ON, STANDS_STILL = 4, 40
PTRACE_CONT, PTRACE_DETACH, PTRACE_SEIZE, PTRACE_INTERRUPT, ALL_THREADS = 7, 17, 0x4206, 0x4207, 0x40000000

libc = ctypes.CDLL(None, use_errno=True)
libc.ptrace.argtypes = [ctypes.c_long, ctypes.c_long, ctypes.c_void_p, ctypes.c_void_p]
libc.ptrace.restype = ctypes.c_long


class NotAllowed(Exception):
    """The machine has no `ptrace` for this program."""


def ptrace(request: int, thread: int) -> None:
    if libc.ptrace(request, thread, None, None) == -1:
        raise NotAllowed(os.strerror(ctypes.get_errno()))


def state_of(process: subprocess.Popen[str], thread: int) -> tuple[str, int]:
    """The state of a thread, and the ticks of processor time that it has used."""
    words = Path(f"/proc/{process.pid}/task/{thread}/stat").read_text(encoding="ascii").rsplit(")", 1)[1].split()
    return words[0], int(words[11]) + int(words[12])


def goes_on(process: subprocess.Popen[str], other: int) -> bool:
    """Whether the other core goes on, while the first is stopped."""
    _, before = state_of(process, other)
    asleep = 0
    while asleep < STANDS_STILL:
        state, used = state_of(process, other)
        if used >= before + GOES_ON:
            return True
        asleep = asleep + 1 if state == "S" else 0
        time.sleep(0.005)
    return False


def cores_of(process: subprocess.Popen[str]) -> list[int] | None:
    """The threads of the two cores, once both are started; None where they aren't within ten seconds."""
    for _ in range(1000):
        threads = [int(entry.name) for entry in Path(f"/proc/{process.pid}/task").iterdir()]
        cores = sorted(thread for thread in threads if thread != process.pid)
        if len(cores) == 2:
            return cores
        time.sleep(0.01)
    return None


def went_on(command: list[str]) -> int:
    """How many times the other core went on; 0 where there were no two threads beside the first."""
    with subprocess.Popen(command, stdin=subprocess.PIPE, stdout=subprocess.DEVNULL, text=True) as process:
        try:
            assert process.stdin
            process.stdin.write(IMAGE)
            process.stdin.close()
            cores = cores_of(process)
            if cores is None:
                return 0
            first, other = cores
            ptrace(PTRACE_SEIZE, first)
            count = 0
            for turn in range(STOPS):
                time.sleep(0.02 + 0.0013 * turn)
                ptrace(PTRACE_INTERRUPT, first)
                os.waitpid(first, ALL_THREADS)
                count += goes_on(process, other)
                ptrace(PTRACE_CONT if turn + 1 < STOPS else PTRACE_DETACH, first)
            return count
        finally:
            process.kill()


def stopped(command: list[str]) -> Iterator[Check]:
    """While one core is stopped the other goes on."""
    try:
        count = went_on([*command[:-1], "run", "--cores", "2"])
    except NotAllowed as refused:
        left_out("a core that is stopped while it executes", f"ptrace answers: {refused}")
        return
    yield (f"a run with {STOPS} stops",
           None if count >= LEAST else f"while one core was stopped the other went on {count} times")


def main() -> int:
    script = Script()
    script.run(partial(stopped, without_the_wrapper(script.command())))
    return script.ended()


if __name__ == "__main__":
    sys.exit(main())
