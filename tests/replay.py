#!/usr/bin/env python3
"""Worked rows of the program `replay`: words, an image and the lines below it, with the exact output for each; and
streams that fail.

Usage: tests/replay.py [COMMAND ..]

COMMAND is a command of `trace_cli` that ends with the word `seq`, such as crates/trace_cli/out/trace_cli seq; `replay`
is the program that was built beside it. Without it ./replay of this repository is tested. Where no such program is
beside it the test is left out, and a line says so. What comes of each schedule was worked out by hand from the cases of
a turn; what a run on threads printed has to come of its trace. The input ends in a failed read after each number of its
bytes, and the output after each number of bytes that are taken: once by what the kernel does of itself, and once, where
the C compiler `cc` is installed, by calls in the place of `read` and `write` that take few bytes at a time and are
interrupted. Needs Linux: pipes whose reads give what one write took. Exits with 1 where an outcome differs.
"""

import fcntl
import itertools
import os
import random
import resource
import shutil
import sys
import tempfile
from collections.abc import Iterator, Sequence
from functools import partial
from pathlib import Path

from common import Check, ROOT, Row, Script, beside, called_bytes, called_well, comparing, differs, left_out
from run_rows import loads
from seq_rows import image, run
from steps_rows import (BYTES_PLAIN, FAULTED_CACHES, FAULTED_PLAIN, NOT_VIOLATED_CACHES, NOT_VIOLATED_PLAIN,
                        OVER_AT_ONCE, VIOLATED_CACHES,
                        VIOLATED_PLAIN, answers, buffer, copies, entries, standing, steps, turns_of)
from streams import piecewise

# Epoch 0 stores 1 to 64. Epoch 1 loops until it loads it.
SIGNAL = image("6308050083220004e38e02fe67800000930210002320500467800000", epochs=2, limit=50)
# Epoch 0 loads the word at 64, to which epoch 1 stores 1.
LOAD_FIRST = image("630605002320a004678000008322000467800000", epochs=2)
# Each of two epochs stores 255 to its byte at 64, 65.
BYTES = image("9302f00f2300550467800000", epochs=2)
# Each epoch loads the words at 64, 128 and 192, whose lines are of one set.
ONE_SET = image("83220004032300088323000c67800000", epochs=2)
# Epoch 0 loads the words at 64, 80, 96, 112 and 128. Epoch 1 stores 1 to them.
FIVE_LOADS_FIRST = image("630e05002320a0042328a0042320a0062328a0062320a0086780000083220004832200058322000683220007"
                         "8322000867800000", epochs=2)
# Epoch 0 stores 0 to these words. Epoch 1 loads them.
FIVE_STORES_FIRST = image("630e050083220004832200058322000683220007832200086780000"
                          + "02320a0042328a0042320a0062328a0062320a00867800000", epochs=2)
# Each of two epochs adds 1 to the word at 64, and then faults.
CALL = image("83220004938212002320500473000000", epochs=2, limit=50)
# Each of four epochs adds 1 to the word at 64; its first instruction loads it.
COUNTER = image("83220004938212002320500467800000", epochs=4, limit=50)
# Nothing is to be run.
NOTHING = image("67800000", epochs=0, limit=50)
# A byte longer than an image may be.
LONG_IMAGE = SIGNAL + "#" * (1_048_576 - len(SIGNAL)) + "\n"

PLAIN, CACHES = ["plain", "2"], ["caches", "2"]

VIOLATED = """\
end done 2
at 00000040 01000000000000000000000000000000
counts 2 1 1 2
trace 2
0 start 0
1 start 1
0 store 00000040 4 00000001
1 load 00000040 4 00000000
0 hurt 1
0 commit
1 restart
1 load 00000040 4 00000001
1 commit
"""
NOT_VIOLATED = """\
end done 2
at 00000040 01000000000000000000000000000000
counts 1 1 0 2
trace 2
0 start 0
1 start 1
0 load 00000040 4 00000000
1 store 00000040 4 00000001
0 commit
1 commit
"""
BOTH_BYTES = """\
end done 2
at 00000040 ffff0000000000000000000000000000
counts 0 2 0 2
trace 2
0 start 0
1 start 1
0 store 00000040 1 000000ff
1 store 00000041 1 000000ff
0 commit
1 commit
"""
# Both ways of the set are marked: the third load of core 1 waits, and core 0 publishes.
PUBLISHED = """\
open 0
counts 5 0 0 0
trace 2
0 start 0
1 start 1
1 load 00000040 4 00000000
1 load 00000080 4 00000000
0 load 00000040 4 00000000
0 load 00000080 4 00000000
0 publish
0 load 000000c0 4 00000000
"""
# The plain store never waits.
NOT_PUBLISHED = """\
open 0
counts 6 0 0 0
trace 2
0 start 0
1 start 1
1 load 00000040 4 00000000
1 load 00000080 4 00000000
1 load 000000c0 4 00000000
0 load 00000040 4 00000000
0 load 00000080 4 00000000
0 load 000000c0 4 00000000
"""
# The buffer of core 1 is full at its fifth store, which waits until core 0 has committed.
WAITED = """\
end done 2
at 00000040 01000000000000000000000000000000
at 00000050 01000000000000000000000000000000
at 00000060 01000000000000000000000000000000
at 00000070 01000000000000000000000000000000
at 00000080 01000000000000000000000000000000
counts 5 5 0 2
trace 2
0 start 0
0 load 00000040 4 00000000
0 load 00000050 4 00000000
0 load 00000060 4 00000000
0 load 00000070 4 00000000
0 load 00000080 4 00000000
1 start 1
1 store 00000040 4 00000001
1 store 00000050 4 00000001
1 store 00000060 4 00000001
1 store 00000070 4 00000001
0 commit
1 store 00000080 4 00000001
1 commit
"""
NOT_WAITED = """\
end done 2
at 00000040 01000000000000000000000000000000
at 00000050 01000000000000000000000000000000
at 00000060 01000000000000000000000000000000
at 00000070 01000000000000000000000000000000
at 00000080 01000000000000000000000000000000
counts 5 5 0 2
trace 2
0 start 0
0 load 00000040 4 00000000
0 load 00000050 4 00000000
0 load 00000060 4 00000000
0 load 00000070 4 00000000
0 load 00000080 4 00000000
1 start 1
1 store 00000040 4 00000001
1 store 00000050 4 00000001
1 store 00000060 4 00000001
1 store 00000070 4 00000001
1 store 00000080 4 00000001
0 commit
1 commit
"""
# The schedule of VIOLATED up to the commit of epoch 0.
COMMITTED = """\
open 1
at 00000040 01000000000000000000000000000000
counts 1 1 0 1
trace 2
0 start 0
1 start 1
0 store 00000040 4 00000001
1 load 00000040 4 00000000
0 hurt 1
0 commit
"""
FAULTED = """\
end fault 0 2 0000000c
at 00000040 01000000000000000000000000000000
counts 1 1 0 0
trace 1
0 start 0
0 load 00000040 4 00000000
0 store 00000040 4 00000001
0 fault 2 0000000c
"""
NOT_BEGUN = "open 0\ncounts 0 0 0 0\ntrace 2\n"
# The first turn finds the loop over.
DONE_AT_ONCE = "end done 0\ncounts 0 0 0 0\ntrace 2\n"
DRAWN = "turns 1\n" + DONE_AT_ONCE
# Start, store and commit of each of the two epochs.
ONE_CORE = """\
schedules 1
over 1
histories 1
least 0
turns 0 0 0 0 0 0
most 0
turns 0 0 0 0 0 0
end done 2
at 00000040 ffff0000000000000000000000000000
"""
NO_EPOCHS = "schedules 8\nover 8\nhistories 1\nleast 0\nturns 0 0 0\nmost 0\nturns 0 0 0\nend done 0\n"
MOST_SCHEDULES = (
    "schedules 65536\nover 65536\nhistories 1\nleast 0\nturns 0 0 0 0 0 0 0 0\nmost 0\nturns 0 0 0 0 0 0 0 0\nend done "
    "0\n"
)
SIX_AND_SIX = "turns 0 0 0 0 0 0\nturns 1 1 1 1 1 1\n# then\n\nturns 0 1 1"

# (store, image, what is printed, status): the trace below each image says whose turns make it
TRACES = [
    *[(store, *row) for store in ("plain", "caches") for row in [
        (SIGNAL, VIOLATED, 0), (LOAD_FIRST, NOT_VIOLATED, 0), (BYTES, BOTH_BYTES, 0), (SIGNAL, COMMITTED, 0),
        (CALL, FAULTED, 1),
        (SIGNAL, NOT_BEGUN, 0), (NOTHING, DONE_AT_ONCE, 0)]],
    ("caches", ONE_SET, PUBLISHED, 0), ("plain", ONE_SET, NOT_PUBLISHED, 0),
    ("caches", FIVE_LOADS_FIRST, WAITED, 0), ("plain", FIVE_LOADS_FIRST, NOT_WAITED, 0),
]

# On two cores at even speed, where the loads of COUNTER wait: an epoch executes its load in the step in which the one
# before commits, its store two steps later, and its end two later. It was due in the step after its start. Core 0 looks
# for a fifth epoch once.
HELD = """\
turns 0 1 0 0 0 1 0 1 1 0 1 0 0 1 0 1 1
end done 4
at 00000040 04000000000000000000000000000000
counts 4 4 0 4
trace 2
0 start 0
1 start 1
0 load 00000040 4 00000000
0 store 00000040 4 00000001
0 commit
1 load 00000040 4 00000001
0 start 2
1 store 00000040 4 00000002
1 commit
0 load 00000040 4 00000002
1 start 3
0 store 00000040 4 00000003
0 commit
1 load 00000040 4 00000003
1 store 00000040 4 00000004
1 commit
"""
EVEN, WAIT = ["even", "plain", "2"], ["--wait", "00000000"]


def trace_of(printed: str) -> str:
    """The trace in what was printed."""
    return printed[printed.index("trace "):]


# (words, image, the lines below it, status, standard output, standard error)
ROWS: list[tuple[Sequence[str | bytes], str, str, int, str, str]] = [
    (PLAIN, SIGNAL, "turns 0 1 0 1 0 1 1 1\n", 0, VIOLATED, ""),
    (CACHES, SIGNAL, "turns 0 1 0 1 0 1 1 1\n", 0, VIOLATED, ""),
    (PLAIN, LOAD_FIRST, "turns 0 1 0 1 0 1\n", 0, NOT_VIOLATED, ""),
    (CACHES, LOAD_FIRST, "turns 0 1 0 1 0 1\n", 0, NOT_VIOLATED, ""),
    (PLAIN, BYTES, "turns 0 1 0 1 0 1\n", 0, BOTH_BYTES, ""),
    (CACHES, BYTES, "turns 0 1 0 1 0 1\n", 0, BOTH_BYTES, ""),
    (CACHES, ONE_SET, "turns 0 1 1 1 1 0 0 0\n", 0, PUBLISHED, ""),
    (PLAIN, ONE_SET, "turns 0 1 1 1 1 0 0 0\n", 0, NOT_PUBLISHED, ""),
    (CACHES, FIVE_LOADS_FIRST, SIX_AND_SIX, 0, WAITED, ""),
    (PLAIN, FIVE_LOADS_FIRST, SIX_AND_SIX, 0, NOT_WAITED, ""),
    (PLAIN, SIGNAL, "turns 0 1 0 1 0\n", 0, COMMITTED, ""),
    (CACHES, SIGNAL, "turns 0 1 0 1 0\n", 0, COMMITTED, ""),
    (["plain", "1"], CALL, "turns 0 0 0 0 0\n", 1, FAULTED, ""),
    (PLAIN, SIGNAL, "", 0, NOT_BEGUN, ""),
    (CACHES, NOTHING, "", 0, DONE_AT_ONCE, ""),
    # the first draw of this seed is odd
    (["seeded", "1234567", "plain", "2"], NOTHING, "", 0, DRAWN, ""),
    *[(["seeded", seed, "plain", "2"], SIGNAL, "", 2, "", "usage\n")
      for seed in ["", "-1", "+5", "05", "00", " 5", "0x5", "18446744073709551616", "100000000000000000000"]],
    (["seeded", "1", "plain", "17"], SIGNAL, "", 2, "", "usage\n"),
    (["seeded", "1", "plain", "02"], SIGNAL, "", 2, "", "usage\n"),
    (["seeded", "plain", "2"], SIGNAL, "", 2, "", "usage\n"),
    (["seeded", "1", "plain", "9"], SIGNAL, "", 2, "", "usage\n"),
    (["seeded", "1", "caches", "2"], SIGNAL, "turns 0\n", 2, "", "image 5 Line\n"),
    (PLAIN, SIGNAL, "turns 0 2\n", 2, "", "turns 5 Line\n"),
    (PLAIN, SIGNAL, "turns 0\n\n# no\nturns 0  1\n", 2, "", "turns 8 Line\n"),
    (PLAIN, SIGNAL, "turns 0\nturns\n", 2, "", "turns 6 Line\n"),
    (PLAIN, SIGNAL, "turns 00\n", 2, "", "turns 5 Line\n"),
    (PLAIN, SIGNAL, "turns\n", 2, "", "image 5 Line\n"),
    (["plain", "9"], SIGNAL, "turns x\n", 2, "", "usage\n"),
    (["plain", "17"], SIGNAL, "turns 0\n", 2, "", "usage\n"),
    (["bus", "2"], SIGNAL, "turns 0\n", 2, "", "usage\n"),
    (["plain"], SIGNAL, "turns 0\n", 2, "", "usage\n"),
    (["all", "plain", "2", "2"], BYTES, "", 0, "schedules 4\nover 0\nhistories 4\n", ""),
    (["all", "caches", "1", "6"], BYTES, "", 0, ONE_CORE, ""),
    (["all", "caches", "2", "3"], NOTHING, "", 0, NO_EPOCHS, ""),
    (["all", "plain", "9", "2"], BYTES, "", 2, "", "usage\n"),
    (["all", "plain", "2", "17"], BYTES, "", 2, "", "usage\n"),
    # 65,536 schedules, and more
    (["all", "plain", "4", "8"], NOTHING, "", 0, MOST_SCHEDULES, ""),
    (["all", "plain", "5", "7"], NOTHING, "", 2, "", "usage\n"),
    (["all", "caches", "3", "11"], NOTHING, "", 2, "", "usage\n"),
    # traces: what a schedule made is made again, over the store that it was made over
    *[([store, *cores], image_text, trace_of(printed), status, printed, "")
      for store, image_text, printed, status in TRACES for cores in (list[str](), [trace_of(printed).split()[1]])],
    (CACHES, ONE_SET, trace_of(NOT_PUBLISHED), 4, "", "differs 4\n"),
    (PLAIN, ONE_SET, trace_of(PUBLISHED), 4, "", "differs 6\n"),
    (CACHES, FIVE_LOADS_FIRST, trace_of(NOT_WAITED), 4, "", "differs 11\n"),
    *[(["caches"], SIGNAL, trace_of(VIOLATED).replace(old, new), 4, "", f"differs {place}\n") for old, new, place in [
        ("0 hurt 1\n", "", 4), ("1 restart\n", "", 6),
        ("0 store 00000040 4 00000001", "0 store 00000040 4 00000002", 2),
        ("0 store", "1 store", 2), ("0 hurt 1", "1 hurt 1", 4), ("0 start 0\n", "", 0),
        ("trace 2\n", "trace 2\n2 start 0\n", 0)]],
    (["caches"], SIGNAL, trace_of(VIOLATED) + "0 hurt 1\n", 4, "", "differs 9\n"),
    (["caches"], SIGNAL, trace_of(VIOLATED) + "# the end\n\n", 0, VIOLATED, ""),
    (["caches"], SIGNAL, "trace 9\n", 2, "", "trace 5 Head\n"),
    (["caches"], SIGNAL, "trace 2\n0 begin 0\n", 2, "", "trace 6 Line\n"),
    (["caches"], SIGNAL, "trace\n", 2, "", "usage\n"),
    (CACHES, SIGNAL, "turns 0\ntrace 2\n", 2, "", "image 5 Line\n"),
    (["caches"], LONG_IMAGE, "trace 2\n", 2, "", "image 0 TooLong\n"),
    (["caches", "3"], SIGNAL, trace_of(VIOLATED), 2, "", "usage\n"),
    (["caches", "1"], SIGNAL, "trace 2\n", 2, "", "usage\n"),
    (["caches"], SIGNAL, "", 2, "", "usage\n"),
    (["bus"], SIGNAL, "trace 2\n", 2, "", "usage\n"),
    # loads that wait: of the run at even speed alone, behind all its words, by addresses of eight lower-case digits
    *[(["even", store, "2", *WAIT, *more], COUNTER, "", 0, HELD, "")
      for store in ("plain", "caches") for more in (list[str](), ["0000000c", "fffffffc"])],
    *[([*EVEN, "--wait", *words], COUNTER, "", 2, "", "usage\n")
      for words in (list[str](), ["0"], ["0000000A"], ["000000000"], ["0000000g"], ["00000000", "plain"],
                    ["00000000", "--wait", "00000004"])],
    *[(words, COUNTER, "", 2, "", "usage\n")
      for words in ([*EVEN, "--waits", "00000000"], [*WAIT, *EVEN], ["even", *WAIT, "plain", "2"], [*EVEN[:2], *WAIT],
                    ["even", "plain", "9", *WAIT], ["even", "plain", "17", *WAIT], ["seeded", "1", *PLAIN, *WAIT],
                    [*PLAIN, *WAIT], ["steps", *PLAIN, *WAIT], ["threads", *PLAIN, *WAIT], ["all", *PLAIN, "2", *WAIT],
                    WAIT)],
    ([*EVEN, *WAIT], "size 1\n", "", 2, "", "image 1 Range\n"),
    # words that are no UTF-8
    ([b"plain\xff", "2"], SIGNAL, "turns 0\n", 2, "", "usage\n"),
    (["plain", b"2\xc3"], SIGNAL, "turns 0\n", 2, "", "usage\n"),
    (["all", "plain", "2", b"\xff"], SIGNAL, "", 2, "", "usage\n"),
    # an image that is a byte too long
    (PLAIN, LONG_IMAGE, "turns 0\n", 2, "", "image 0 TooLong\n"),
    (["all", "plain", "2", "2"], LONG_IMAGE, "", 2, "", "image 0 TooLong\n"),
    (["all", "plain", "2", "2"], BYTES, "turns 0\n", 2, "", "image 5 Line\n"),
]

# A turn asks for 16 free entries of 1,048,576, and core 0 makes one in each turn: 17 of an epoch with 15 loads.
JUST_ROOM = 1_048_576 - 16 + 1
OPEN = ["open 61680", "counts 925200 0 0 61680", "trace 2"]

# (words, image, turns, what steps print above the line `end`, what is printed of the turns, status)
STEPS = [
    (CACHES, SIGNAL, "0 1 0 1 0 1 1 1", VIOLATED_CACHES, VIOLATED, 0),
    (PLAIN, SIGNAL, "0 1 0 1 0 1 1 1", VIOLATED_PLAIN, VIOLATED, 0),
    (CACHES, LOAD_FIRST, "0 1 0 1 0 1", NOT_VIOLATED_CACHES, NOT_VIOLATED, 0),
    (PLAIN, LOAD_FIRST, "0 1 0 1 0 1", NOT_VIOLATED_PLAIN, NOT_VIOLATED, 0),
    (PLAIN, BYTES, "0 1 0 1 0 1", BYTES_PLAIN, BOTH_BYTES, 0),
    (["caches", "1"], CALL, "0 0 0 0 0", FAULTED_CACHES, FAULTED, 1),
    (["plain", "1"], CALL, "0 0 0 0 0", FAULTED_PLAIN, FAULTED, 1),
    (CACHES, NOTHING, "0", OVER_AT_ONCE, DONE_AT_ONCE, 0),
    (PLAIN, NOTHING, "0", OVER_AT_ONCE, DONE_AT_ONCE, 0),
]

# Over caches on two cores: (image, turns, the answers, and of some cores what stands after so many turns: copies,
# buffer)
STANDING: list[tuple[str, str, list[str], list[tuple[int, str, list[str], list[str]]]]] = [
    (BYTES, "0 1 0 1 0 1", ["go"] * 4 + ["left", "over done 2"], [
        (4, "0", ["00000040 SpS - 00000001"], ["00000040"]), (4, "1", ["00000040 SpS - 00000002"], ["00000040"])]),
    (ONE_SET, "0 1 1 1 1 0 0 0", ["go"] * 4 + ["again NoWay"] + ["go"] * 3, [
        (5, "1", ["00000040 SpE loaded 00000000", "00000080 SpE loaded 00000000"], []),
        (7, "0", ["00000040 SpS loaded 00000000", "00000080 SpS loaded 00000000"], []),
        (7, "1", ["00000040 SpS loaded 00000000", "00000080 SpS loaded 00000000"], [])]),
    (FIVE_LOADS_FIRST, "0 0 0 0 0 0 1 1 1 1 1 1 0 1 1", ["go"] * 11 + ["again OrbFull", "left", "go", "over done 2"], [
        (12, "1", [f"000000{line}0 SpS - 0000000f" for line in "4567"], [f"000000{line}0" for line in "4567"])]),
    (FIVE_STORES_FIRST, "0 0 0 0 0 0 1 1 1 1 1 1 0", ["go"] * 11 + ["again OrbBusy", "left"], [
        (6, "0", [f"000000{line}0 SpE - 0000000f" for line in "45678"], []),
        (12, "0", [f"000000{line}0 SpS - 0000000f" for line in "4567"] + ["00000080 SpE - 0000000f"],
         [f"000000{line}0" for line in "4567"]),
        (12, "1", [f"000000{line}0 SpS loaded 00000000" for line in "4567"], []),
        (13, "1", [], [])]),
]

# Words below `steps` that ask for nothing.
NO_STEPS: list[list[str]] = [[], ["bus", "2"], ["plain", "9"], ["plain", "02"], ["all", "plain", "2", "2"],
                             ["seeded", "1", "plain", "2"], ["steps", "plain", "2"]]

# The bytes that an image and lines of turns may have together.
LONGEST = 33_554_432

# A program that tries again where it is interrupted would go on for ever.
SECONDS = 30

# In the place of read and write: descriptor 0 gives so many bytes, at most 3 a call, and is interrupted then;
# descriptor 1 takes so many, at most 7 a call, and is broken then.
SHIM = r"""
#define _GNU_SOURCE
#include <errno.h>
#include <stdlib.h>
#include <sys/syscall.h>
#include <unistd.h>
static long rest[2];
__attribute__((constructor)) static void begin(void) {
    rest[0] = atol(getenv("GIVEN"));
    rest[1] = atol(getenv("TAKEN"));
}
static ssize_t some(long call, int descriptor, const void *bytes, size_t count, size_t most, int error) {
    if (descriptor > 1) return syscall(call, descriptor, bytes, count);
    if (count > most) count = most;
    if (count > (size_t)rest[descriptor]) count = rest[descriptor];
    if (count == 0) { errno = error; return -1; }
    ssize_t done = syscall(call, descriptor, bytes, count);
    if (done > 0) rest[descriptor] -= done;
    return done;
}
ssize_t read(int from, void *bytes, size_t count) { return some(SYS_read, from, bytes, count, 3, EINTR); }
ssize_t write(int to, const void *bytes, size_t count) { return some(SYS_write, to, bytes, count, 7, EPIPE); }
"""


# The first draws of SplitMix64 from the seed 1234567, as published:
# https://rosettacode.org/wiki/Pseudo-random_numbers/Splitmix64
DRAWS = [6457827717110365317, 3203168211198807973, 9817491932198370423, 4593380528125082431, 16408922859458223821]


def draws(seed: int) -> Iterator[int]:
    """SplitMix64, by its authors' C code."""
    while True:
        seed = (seed + 0x9E3779B97F4A7C15) % 2**64
        mixed = (seed ^ seed >> 30) * 0xBF58476D1CE4E5B9 % 2**64
        mixed = (mixed ^ mixed >> 27) * 0x94D049BB133111EB % 2**64
        yield mixed ^ mixed >> 31


@comparing
def seeded(program: Path, command: list[str]) -> Iterator[Row]:
    """Seeds: the turns are those that the seed draws, `replay` makes the same of them, and
    the report is that of the sequential loop."""
    yield "the draws of 1234567", [*itertools.islice(draws(1234567), 5)], DRAWS
    for file in sorted((ROOT / "examples").glob("*.image")):
        text = file.read_text()
        in_order = run(command, [], text)
        for store, cores, seed in itertools.product(["caches", "plain"], [1, 2, 4, 8], [0, 2**64 - 1]):
            name = f"seed {seed} of {file.name} on {cores} cores over {store}"
            output, errors, status = run([str(program)], ["seeded", str(seed), store, str(cores)], text)
            line, _, below = output.partition("\n")
            turns = line.split()[1:]
            yield name, turns, [str(draw % cores) for draw in itertools.islice(draws(seed), len(turns))]
            yield f"{name}, replayed", run([str(program)], [store, str(cores)],
                                           f"{text}{line}\n"), (below, errors, status)
            yield f"{name}, in order", (below.partition("counts ")[0], errors, status), in_order


@comparing
def waits(program: Path, command: list[str]) -> Iterator[Row]:
    """Loads that wait: `replay` makes the same of the turns, and the one load of `recurrence` that reads too early
    without reads nothing early."""
    text, words = (ROOT / "examples/recurrence.image").read_text(), ["caches", "4"]
    output, errors, status = run([str(program)], ["even", *words, "--wait", "00000018"], text)
    line, _, below = output.partition("\n")
    yield "waits, replayed", run([str(program)], words, f"{text}{line}\n"), (below, errors, status)
    report, _, counts = below.partition("counts ")
    yield "waits, in order", (report, errors, status), run(command, [], text)
    yield "waits: restarts", counts.split()[2], "0"
    without = run([str(program)], ["even", *words], text)[0]
    yield "restarts where none waits", without.partition("counts ")[2].split()[2] == "0", False


@comparing
def traced(program: Path, command: list[str]) -> Iterator[Row]:
    """Runs on threads: the schedule of their traces makes the same bytes, and that of a trace
    with another value differs there."""
    chance = random.Random(5)
    for file, cores in itertools.product(sorted((ROOT / "examples").glob("*.image")), [2, 8]):
        text, name = file.read_text(), f"a run of {file.name} on {cores} cores"
        printed, errors, status = run([*command[:-1], "run"], ["--cores", str(cores), "--trace"], text)
        trace = trace_of(printed)
        yield name, run([str(program)], ["caches"], f"{text}\n{trace}"), (printed, errors, status)
        lines = trace.splitlines()
        place = chance.choice([place for place, line in enumerate(lines)
                               if line.split()[1] in ("start", "load", "store", "hurt")])
        lines[place] = lines[place][:-1] + ("1" if lines[place][-1] == "0" else "0")
        yield f"{name}, another {lines[place]}", run([str(program)], ["caches"],
                                                     "\n".join([text, *lines])), ("", f"differs {place - 1}\n", 4)


@comparing
def stepped(program: Path) -> Iterator[Row]:
    """Steps: worked outputs; what stands after turns, worked out too; and words that are
    refused."""
    for words, text, turns, above, below, status in STEPS:
        outcome = run([str(program)], ["steps", *words], f"{text}turns {turns}\n")
        yield f"steps {words} of {turns} on {len(text)} bytes", outcome, (steps(above, below), "", status)
    for text, turns, answered, after in STANDING:
        output, errors, status = run([str(program)], ["steps", *CACHES], f"{text}turns {turns}\n")
        seen, name = turns_of(output), f"steps of {turns} on {len(text)} bytes"
        yield name, (answers(seen), errors, status), (answered, "", 0)
        for count, core, held, buffered in after:
            yield (f"{name}: core {core} after {count}", (copies(seen[:count], core), buffer(seen[:count], core)),
                   (held, buffered))
    for words in NO_STEPS:
        yield f"steps {words}", run([str(program)], ["steps", *words], SIGNAL + "turns 0\n"), ("", "usage\n", 2)


@comparing
def summed_up(program: Path) -> Iterator[Row]:
    """Steps: below the line `end` is what is printed without them, which the entries and the
    committed bytes above it come to."""
    for words, text, below, status, output, errors in ROWS:
        if words[0] in ("all", "seeded", "even"):
            continue
        name = f"steps {words} on {len(text)} bytes and {below!r}"
        printed, *others = run([str(program)], ["steps", *words], text + below)
        yield name, (printed.partition("end\n")[2] if output else printed, *others), (output, errors, status)
        if output:
            turns, lines = turns_of(printed), output.splitlines()
            rows = {f"at {place[1]} {those[0]}" for place, those in standing(turns).items() if place[0] == "at"}
            yield f"{name}: entries", entries(turns), lines[[line.split()[0] for line in lines].index("trace") + 1:]
            yield f"{name}: committed bytes", rows, {line for line in lines if line.startswith("at ")}


def program_of(command: list[str]) -> Path | None:
    """The built program `replay` that belongs to a command of `trace_cli`, or None."""
    if Path(command[0]).resolve() != ROOT / "trace_cli":
        return beside(command, "replay")
    called_bytes([ROOT / "replay"], b"")
    return ROOT / "crates" / "replay" / "out" / "replay"


def full_history(program: Path) -> Iterator[Check]:
    """Schedules that have just room for their entries, and one turn more."""
    for count, expected in (JUST_ROOM, (OPEN, JUST_ROOM, "", 0)), (JUST_ROOM + 1, ([], 0, "stopped HistoryFull\n", 3)):
        output, errors, status = run([str(program)], PLAIN, loads(15) + "turns" + " 0" * count + "\n")
        lines = output.splitlines()
        yield f"{count} turns", differs((lines[:3], len(lines[3:]), errors, status), expected)


def longest(program: Path) -> Iterator[Check]:
    """The longest input, and one that is a byte longer."""
    text = SIGNAL + "turns 0 1 0 1 0\n"
    for count, expected in (LONGEST, (COMMITTED, "", 0)), (LONGEST + 1, ("", "turns 0 TooLong\n", 2)):
        yield f"{count} bytes", differs(run([str(program)], PLAIN, text + "#" * (count - len(text))), expected)


def read_fails(program: Path, words: list[str], given: bytes) -> tuple[bytes, bytes, int]:
    """The outcome where the input gives these bytes, 3 a call, and has no more, though it hasn't ended."""
    reader, writer = os.pipe2(os.O_DIRECT | os.O_NONBLOCK)
    fcntl.fcntl(writer, fcntl.F_SETPIPE_SZ, 4096 * (len(given) // 3 + 1))
    for place in range(0, len(given), 3):
        os.write(writer, given[place:place + 3])
    done = called_bytes([program, *words], stdin=reader)
    os.close(reader)
    os.close(writer)
    return done.stdout, done.stderr, done.returncode


def write_fails(program: Path, words: list[str], text: bytes, room: int) -> tuple[bytes, bytes, int]:
    """The outcome where the output is a file that may have so many bytes."""
    with tempfile.TemporaryFile() as taken:
        done = called_bytes([program, *words], text, stdout=taken, restore_signals=False,
                            preexec_fn=lambda: resource.setrlimit(resource.RLIMIT_FSIZE, (room, room)))
        taken.seek(0)
        return taken.read(), done.stderr, done.returncode


def cut(program: Path, shim: Path, words: list[str], text: bytes, given: int, taken: int) -> tuple[bytes, bytes, int]:
    """The outcome where the shim cuts input and output."""
    environment = {**os.environ, "LD_PRELOAD": str(shim), "GIVEN": str(given), "TAKEN": str(taken)}
    done = called_bytes([program, *words], text, SECONDS, env=environment)
    return done.stdout, done.stderr, done.returncode


# (words, input, output, what is said of a read that fails)
STREAMS: list[tuple[list[str], str, str, str]] = [
    (PLAIN, SIGNAL, NOT_BEGUN, "turns 0 Read\n"),
    (CACHES, SIGNAL, NOT_BEGUN, "turns 0 Read\n"),
    (["seeded", "1234567", "plain", "2"], NOTHING, DRAWN, "image 0 Read\n"),
    (["caches"], NOTHING + "trace 2\n", DONE_AT_ONCE, "turns 0 Read\n"),
    *[(["steps", *words], NOTHING + "turns 0\n", steps(OVER_AT_ONCE, DONE_AT_ONCE), "turns 0 Read\n")
      for words in (PLAIN, CACHES)],
]


@comparing
def streams(program: Path, shim: Path | None) -> Iterator[Row]:
    """Streams that are slow or fail."""
    schedule = SIGNAL.encode() + b"turns 0 1 0 1 0 1 1 1\n"
    yield "text byte by byte", piecewise([str(program), *CACHES], schedule, 1), (VIOLATED.encode(), b"", 0)
    for words, *three in STREAMS:
        text, output, refused = (it.encode() for it in three)
        for given in range(len(text) + 1):
            failed = (b"", refused, 2)
            yield f"{words}: a read that fails after {given} bytes", read_fails(program, words, text[:given]), failed
            if shim:
                yield (f"{words}: a read that is interrupted after {given} bytes",
                       cut(program, shim, words, text, given, 99), failed)
        for room in range(len(output)):
            failed = (output[:room], b"stopped Write\n", 3)
            yield f"{words}: a write that fails after {room} bytes", write_fails(program, words, text, room), failed
            if shim:
                yield (f"{words}: a pipe that breaks after {room} bytes", cut(program, shim, words, text, 999, room),
                       failed)


def rows(program: Path) -> Iterator[Check]:
    for words, text, below, status, output, errors in ROWS:
        yield (f"{words} on {len(text)} bytes and {below!r}",
               differs(run([str(program)], words, text + below), (output, errors, status)))


def main() -> int:
    script = Script()
    command = script.command()
    program = program_of(command)
    if not program or not program.is_file():
        left_out("replay", "no such program was built beside the one that is tested")
        return 0
    with tempfile.TemporaryDirectory() as directory:
        shim = None
        if shutil.which("cc"):
            source, shim = Path(directory, "shim.c"), Path(directory, "shim.so")
            source.write_text(SHIM)
            called_well(["cc", "-shared", "-fPIC", "-O1", "-o", shim, source])
        else:
            left_out("interrupted reads of replay", "cc isn't installed")
        script.run(partial(rows, program),
                   *[partial(part, program) for part in (stepped, summed_up, full_history, longest)],
                   partial(streams, program, shim), partial(seeded, program, command),
                   partial(waits, program, command), partial(traced, program, command))
    return script.ended("rows")


if __name__ == "__main__":
    sys.exit(main())
