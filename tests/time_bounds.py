#!/usr/bin/env python3
"""That the programs take no time that grows faster than their input: ratios of processor times, both of this run, and
never seconds.

Usage: tests/time_bounds.py [COMMAND ..]

COMMAND is a command of `trace_cli` that ends with the word `seq`, such as crates/trace_cli/out/trace_cli seq; `why`,
`replay`, `gain` and `depends` are the programs that were built beside it. Without it those of this repository are
tested. Where one isn't built its rows are left out, and a line says so. A time is that of one process, by what the
system counts of it, the least of ROUNDS; the two calls of a row take turns. Other work disturbs times: a row that is
past its bound has as many rounds again, at most TRIES times. The traces on which `why` is held to the audit are those
of `bench/audit/hard.py`. Exits with 1 where a ratio is past its bound, or a call fails.
"""

import os
import resource
import subprocess
import sys
import tempfile
from collections.abc import Iterator
from dataclasses import dataclass
from functools import partial
from pathlib import Path

from common import ROOT, Check, Script, left_out
from seq_rows import image
from true_length import program_of

sys.path.insert(0, str(ROOT / "bench" / "audit"))

import hard  # noqa: E402

ROUNDS, TRIES = 5, 4
# No call of these takes a second of one processor; one that takes so many is ended.
LONGEST = 60
ENTRIES = 50_000
# `why` to the audit: it takes 3 to 10 times as much. What searches the history anew at each violation takes some 100
# times as much at this length, and more at any longer.
MOST_OF_WHY = 20
# Six times as much input; what goes over all that was before at each epoch takes 36 times as long.
FEW, MANY, MOST_OF_MANY = 10_000, 60_000, 14
# A plain store that makes a cell for each byte and core takes some 300 times as long as caches do.
MOST_OF_PLAIN = 20
# Four times as much input; what goes over all that was before takes sixteen times as long.
MOST_OF_FOUR_TIMES = 8
# What searches all addresses at each turn takes some 50 times as long.
MOST_OF_ADDRESSES = 2
# lw x5,64(x0); lw x5,68(x0); lw x5,72(x0); lw x5,76(x0); jalr x0,0(x1)
FOUR_LOADS = "8322000483224004832280048322c00467800000"
# andi x5,x10,3; slli x5,x5,2; lw x6,64(x5); addi x6,x6,1; sw x6,64(x5); jalr x0,0(x1)
COUNTERS = "937235009392220003a302041303130023a0620467800000"


@dataclass(frozen=True)
class Call:
    """A program that was built, its words, and its standard input."""

    program: str
    words: tuple[str, ...]
    text: str


@dataclass(frozen=True)
class Bound:
    """The slow call takes at most so many times the processor time of the quick one."""

    name: str
    most: float
    slow: Call
    quick: Call


def loads(epochs: int) -> str:
    """The image of so many epochs of four loads."""
    return image(FOUR_LOADS, epochs=epochs)


def trace_of_loads(epochs: int) -> str:
    """A run of it on two cores, in turn."""
    words = "".join(f"{{0}} load {address:08x} 4 00000000\n" for address in range(64, 80, 4))
    return "trace 2\n" + "".join(f"{core} start {epoch}\n{words.format(core)}{core} commit\n" for epoch in range(epochs)
                                 for core in [epoch % 2])


def counters(epochs: int) -> str:
    """The image of epochs each of which adds 1 to one of four counters in one line."""
    return image(COUNTERS, epochs=epochs)


def late(epochs: int) -> str:
    """The image of epochs each of which loads a word, which the last but one stores."""
    wanted = epochs - 2
    high = wanted + 0x800 & 0xFFFFF000
    # lui x6,HIGH; addi x6,x6,LOW; lw x5,64(x0); bne x10,x6,8; sw x6,64(x0); jalr x0,0(x1)
    words = [high | 0x337, (wanted - high & 0xFFF) << 20 | 0x30313, 0x4002283, 0x651463, 0x4602023, 0x8067]
    return image(b"".join(word.to_bytes(4, "little") for word in words).hex(), epochs=epochs)


def bounds() -> list[Bound]:
    rows = []
    for form in hard.FORMS:
        text = hard.text_of(form, ENTRIES)
        rows.append(Bound(f"why to audit, {form}", MOST_OF_WHY, Call("why", (), text),
                          Call("trace_cli", ("audit",), text)))
    for form in ("stores", "notices"):
        calls = [Call("why", ("--attempts",), hard.text_of(form, count)) for count in (200_000, 50_000)]
        rows.append(Bound(f"why --attempts, {form}, four times the entries", MOST_OF_FOUR_TIMES, *calls))
    even = [Call("replay", ("even", "plain", "2"), loads(count)) for count in (MANY, FEW)]
    rows.append(Bound("even plain, 60,000 epochs to 10,000", MOST_OF_MANY, *even))
    audits = [Call("trace_cli", ("audit",), loads(count) + trace_of_loads(count)) for count in (MANY, FEW)]
    rows.append(Bound("audit, 60,000 epochs to 10,000", MOST_OF_MANY, *audits))
    every = [Call("replay", ("all", store, "16", "2"), "version 2\n" + image(FOUR_LOADS, epochs=16, size=1_048_576))
             for store in ("plain", "caches")]
    rows.append(Bound("every schedule of 1 MiB, plain to caches", MOST_OF_PLAIN, *every))
    for store in ("plain", "caches"):
        even = [Call("replay", ("even", store, "4"), counters(count)) for count in (20_000, 5_000)]
        rows.append(Bound(f"even {store}, four times the epochs", MOST_OF_FOUR_TIMES, *even))
        steps = [Call("replay", ("steps", store, "4"), counters(65_535) + "turns" + " 0 1 2 3" * count + "\n")
                 for count in (10_000, 2_500)]
        rows.append(Bound(f"steps {store}, four times the turns", MOST_OF_FOUR_TIMES, *steps))
        gains = [Call("gain", ("4", store), counters(count)) for count in (20_000, 5_000)]
        rows.append(Bound(f"gain {store}, four times the epochs", MOST_OF_FOUR_TIMES, *gains))
    waits = [Call("gain", ("4", "plain", "--wait", *(f"{1 << 20 | place * 4:08x}" for place in range(count))),
                  counters(10_000)) for count in (4096, 1)]
    rows.append(Bound("gain, 4,096 addresses at which no load stands to one", MOST_OF_ADDRESSES, *waits))
    for name, loop in (("nothing depends", loads), ("each epoch depends", counters), ("the last epoch depends", late)):
        calls = [Call("depends", ("8",), loop(count)) for count in (60_000, 15_000)]
        rows.append(Bound(f"depends where {name}, four times the epochs", MOST_OF_FOUR_TIMES, *calls))
    return rows


class Failed(Exception):
    """A call didn't answer; the words say how it ended."""


def seconds(call: Call, program: str, given: Path) -> float:
    """The processor time of one call."""
    with given.open("rb") as source, subprocess.Popen([program, *call.words], stdin=source, stdout=subprocess.DEVNULL,
                                                      stderr=subprocess.DEVNULL) as child:
        resource.prlimit(child.pid, resource.RLIMIT_CPU, (LONGEST, LONGEST + 1))
        _, status, used = os.wait4(child.pid, 0)
        child.returncode = os.waitstatus_to_exitcode(status)
    if child.returncode != 0:
        raise Failed(f"{call.program} {' '.join(call.words)} ended with {child.returncode} after {used.ru_utime:.1f} "
                     "seconds")
    taken: float = used.ru_utime + used.ru_stime
    return taken


def least_times(row: Bound, programs: dict[str, str], folder: Path) -> tuple[float, float]:
    """The least time of the slow call and that of the quick call."""
    files = []
    for call, name in ((row.slow, "slow"), (row.quick, "quick")):
        files.append((call, folder / name))
        files[-1][1].write_text(call.text, encoding="ascii")
    times = [[seconds(call, programs[call.program], file) for call, file in files] for _ in range(ROUNDS)]
    slow, quick = (min(those) for those in zip(*times))
    return slow, quick


def ratio(row: Bound, programs: dict[str, str], folder: Path) -> float:
    """The least time of the slow call to the least one of the quick call; of more rounds where it is past the bound."""
    slow, quick = least_times(row, programs, folder)
    for _ in range(TRIES - 1):
        if slow <= row.most * quick:
            break
        more = least_times(row, programs, folder)
        slow, quick = min(slow, more[0]), min(quick, more[1])
    return slow / quick


def within(rows: list[Bound], programs: dict[str, str]) -> Iterator[Check]:
    """Each ratio that has a bound; it is told also where it keeps it."""
    with tempfile.TemporaryDirectory() as folder:
        for row in rows:
            try:
                got = ratio(row, programs, Path(folder))
            except Failed as error:
                yield row.name, str(error)
                continue
            told = f"{got:.1f} times, at most {row.most}"
            if got <= row.most:
                print(f"{row.name}: {told}", flush=True)
            yield row.name, told if got > row.most else None


def main() -> int:
    script = Script()
    found = {name: program_of(script.words, name) for name in ("trace_cli", "why", "replay", "gain", "depends")}
    programs = {name: program for name, program in found.items() if program}
    for name in sorted(found.keys() - programs.keys()):
        left_out(f"bounds on the time of {name}", "it isn't the program that is tested, nor was it built beside that")
    rows = [row for row in bounds() if {row.slow.program, row.quick.program} <= programs.keys()]
    script.run(partial(within, rows, programs))
    return script.ended("bounds")


if __name__ == "__main__":
    sys.exit(main())
