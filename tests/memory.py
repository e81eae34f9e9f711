#!/usr/bin/env python3
"""Refuses each allocation of `trace_cli seq`, `trace_cli run` and `trace_cli audit`, of `why`, `replay` and `gain` in
turn, and each thread of a run.

Usage: tests/memory.py [COMMAND ..]

COMMAND reads its standard input and ends with the word `seq`, in whose place a
row may put other words; without it `./trace_cli seq` of this repository is tested. Each row runs with its first,
second and so on allocation refused, until a run meets none: a run that was
refused one says `stopped NoMemory`, writes nothing on standard output and has
status 3, and the last one answers as if nothing was refused. A run on threads
may say `stopped NoThread` too, or go to its end although a thread was refused; so may one
whose second and so on thread is refused. Where the first is refused no core has taken a turn, so there
is no end. There is a thread for each core. `why`, `replay` and `gain` are the
programs that were built beside the one that is tested; a line says where one isn't there. Where the C
compiler `cc` isn't installed the test is left out, and a line says so. Exits
with 1 where a run differs.
"""

import os
import shutil
import sys
import tempfile
from collections.abc import Iterator, Sequence
from functools import partial
from pathlib import Path

from audit_rows import EXIT, NINE, SIX, WAIT, illegal, legal, traced, trace_refused, without
from common import Check, ROOT, Script, beside, called_bytes, called_well, left_out
from seq_rows import COUNTER, FOUR, MOST_SECONDS, SEARCH, Outcome, at, done, exited, fault, image, refused
from steps_rows import COUNTED_CACHES, COUNTED_PLAIN, steps

STOPPED = ("", "stopped NoMemory\n", 3)
NO_THREAD = ("", "stopped NoThread\n", 3)

# Takes the place of malloc and realloc, and of pthread_create: the call of the number REFUSED, of the one or the other
# by KIND, gets nothing, and descriptor 9 is told so.
SHIM = r"""
#define _GNU_SOURCE
#include <dlfcn.h>
#include <errno.h>
#include <pthread.h>
#include <stdlib.h>
#include <string.h>
#include <unistd.h>
static long asked, refused;
static int of_threads;
static void *(*allocate)(size_t), *(*resize)(void *, size_t);
__attribute__((constructor)) static void begin(void) {
    allocate = dlsym(RTLD_NEXT, "malloc");
    resize = dlsym(RTLD_NEXT, "realloc");
    refused = atol(getenv("REFUSED"));
    of_threads = strcmp(getenv("KIND"), "thread") == 0;
    asked = 0;
}
static int is_refused(int thread) {
    if (!refused || thread != of_threads || __atomic_add_fetch(&asked, 1, __ATOMIC_SEQ_CST) != refused) return 0;
    if (write(9, "r", 1) != 1) abort();
    return 1;
}
void *malloc(size_t size) {
    if (!allocate) allocate = dlsym(RTLD_NEXT, "malloc");
    return is_refused(0) ? NULL : allocate(size);
}
void *realloc(void *old, size_t size) {
    if (!resize) resize = dlsym(RTLD_NEXT, "realloc");
    return is_refused(0) ? NULL : resize(old, size);
}
int pthread_create(pthread_t *thread, const pthread_attr_t *attributes, void *(*start)(void *), void *given) {
    static int (*create)(pthread_t *, const pthread_attr_t *, void *(*)(void *), void *);
    if (!create) create = dlsym(RTLD_NEXT, "pthread_create");
    return is_refused(1) ? EAGAIN : create(thread, attributes, start, given);
}
"""

# (what it shows, image text, (standard output, standard error, status))
RUNS = [
    ("four epochs", FOUR, done(4, at(0x40, "06"))),
    ("an exit", image(SEARCH, epochs=8, more="exit\n"), exited(2, at(0x40, "000000000100000002"))),
    ("a fault", image("00000000"), fault(0, 1, 0)),
    ("registers and data", FOUR + "reg 5 00000001\nat 00000040 0a0b\n", done(4, at(0x40, "100b"))),
    ("a larger memory", "version 2\n" + image("b702100023ae12fe67800000", size=1_048_576),
     done(1, at(0xFFFF0, "0" * 24 + "fcffffff"))),
    ("a refused image", FOUR + "at 00000000 00\n", refused(5, "Place")),
]

# the same, of audits
AUDITS = [
    ("a legal trace", traced(WAIT, NINE), legal(9, 2)),
    ("a legal trace of sixteen cores", traced("version 2\n" + WAIT, NINE, "trace 16"), legal(9, 2)),
    ("an illegal trace", traced(WAIT, without(NINE, 4)), illegal(4, "HurtMissing")),
    ("an exit without its cancel", traced(EXIT, without(SIX, 4)), illegal(4, "NotCancelled")),
    ("a long trace", traced(WAIT, NINE[:5] + ["# " + "x" * 100] * 500), legal(5, 0)),
    ("many entries", traced(image("6f000000", epochs=9, limit=2),
                            ["0 start 0", "1 start 1", *["0 hurt 1", "1 restart"] * 50]),
     legal(102, 0)),
    ("a refused trace", traced(WAIT, NINE + ["x"]), trace_refused(15, "Line")),
    ("an image that is refused", traced(FOUR + "at 00000000 00\n", NINE), refused(5, "Place")),
]

TRACED = ("end done 1\ncounts 1 1 0 1\ntrace 1\n0 start 0\n0 load 00000040 4 00000000\n0 store 00000040 4 00000000\n"
          "0 commit\n", "", 0)

# the same, of runs: (what it shows, words, image text, what is printed)
ON_THREADS: list[tuple[str, list[str], str, Outcome]] = [
    ("four epochs on four cores", ["run", "--cores", "4"], FOUR, done(4, at(0x40, "06"))),
    ("a word for each epoch", ["run", "--cores", "4"], image("9312250023a0a20467800000", epochs=4),
     done(4, at(0x40, "00000000010000000200000003000000"))),
    ("a trace", ["run", "--cores", "1", "--trace"], image(COUNTER), TRACED),
    ("more cores than the version allows", ["run", "--cores", "9"], FOUR, ("", "usage\n", 2)),
]

# the same, of the other programs: (what it shows, program, words, input, what is printed)
CRATES = ROOT / "crates"
OTHERS: list[tuple[str, str, list[str], str, Outcome]] = [
    ("why of a worked history", "why", [], (CRATES / "why" / "stdin").read_text(),
     ((CRATES / "why" / "stdout").read_text(), "", 0)),
    ("why of an attempt", "why", ["--attempts"], image("67800000") + "trace 1\n0 start 0\n0 commit\n",
     ("attempt 0 epoch 0 try 1 core 0 done 1 committed 1 by 0 core 0\ntotal epochs 1 committed 1 useful 1 rollbacks 0 "
      "lost 0 cancelled 0 dropped 0 open 0 unsettled 0\n", "", 0)),
    ("a worked schedule", "replay", ["caches", "2"], (CRATES / "replay" / "stdin").read_text(),
     ((CRATES / "replay" / "stdout").read_text(), "", 0)),
    # A start, a load, an addition, a store, a return and a commit. The second core has no epoch.
    ("the gains of an epoch", "gain", ["2"], (CRATES / "gain" / "stdin").read_text(),
     ((CRATES / "gain" / "stdout").read_text(), "", 0)),
    ("the gains of an epoch and its limits", "gain", ["2", "--limits"], (CRATES / "gain" / "stdin").read_text(),
     ((CRATES / "gain" / "stdout").read_text() + "limit cores 1 forward 6 commit 6\nlimit cores 2 forward 6 commit 6\n",
      "", 0)),
    ("what a counter rolls back through", "depends", ["2"], (CRATES / "depends" / "stdin").read_text(),
     ((CRATES / "depends" / "stdout").read_text(), "", 0)),
    ("one schedule", "replay", ["all", "plain", "1", "4"], image(COUNTER),
     ("schedules 1\nover 1\nhistories 1\nleast 0\nturns 0 0 0 0\nmost 0\nturns 0 0 0 0\nend done 1\n", "", 0)),
    # The core that is first takes the epoch, and needs three of the other four turns to start, load, store and commit.
    ("32 schedules", "replay", ["all", "caches", "2", "5"], image(COUNTER),
     ("schedules 32\nover 10\nhistories 8\nleast 0\nturns 0 0 0 0 0\nmost 0\nturns 0 0 0 0 0\nend done 1\n", "", 0)),
    *[("a run on one core by its own schedule", "replay", [*pace, "plain", "1"], image(COUNTER),
       ("turns 0 0 0 0\nend done 1\ncounts 1 1 0 1\ntrace 1\n0 start 0\n0 load 00000040 4 00000000\n0 store 00000040 4 "
        "00000000\n0 commit\n", "", 0))
      for pace in (["even"], ["seeded", "5"])],
    *[("each turn of a schedule", "replay", ["steps", store, "1"], image(COUNTER) + "turns 0 0 0 0\n",
       (steps(above,
              "end done 1\ncounts 1 1 0 1\ntrace 1\n0 start 0\n0 load 00000040 4 00000000\n0 store 00000040 4 "
              "00000000\n0 commit\n"), "", 0))
      for store, above in (("caches", COUNTED_CACHES), ("plain", COUNTED_PLAIN))],
    *[("a trace", "replay", ["caches"],
       image(COUNTER)
       + f"trace 1\n0 start 0\n0 load 00000040 4 0000000{value}\n0 store 00000040 4 00000000\n0 commit\n", shown)
      for value, shown in [(0,
                            ("end done 1\ncounts 1 1 0 1\ntrace 1\n0 start 0\n0 load 00000040 4 00000000\n0 store "
                             "00000040 4 00000000\n0 commit\n", "", 0)),
                           (1, ("", "differs 1\n", 4))]],
]


def run(command: list[str], shim: Path, text: str, kind: str, number: int) -> tuple[Outcome, bool]:
    """The outcome with the allocation or thread of this number refused, and whether there was such a one."""
    reader, writer = os.pipe()
    os.dup2(writer, 9)
    os.close(writer)
    environment = {**os.environ, "LD_PRELOAD": str(shim), "KIND": kind, "REFUSED": str(number)}
    result = called_bytes(command, text.encode(), MOST_SECONDS, env=environment, pass_fds=[9])
    os.close(9)
    with os.fdopen(reader, "rb") as told:
        met = told.read() != b""
    return (result.stdout.decode("latin-1"), result.stderr.decode("latin-1"), result.returncode), met


def differences(command: list[str], shim: Path, text: str, expected: Outcome, refused_too: Sequence[Outcome] = (STOPPED,
                ), kind: str = "allocation") -> tuple[str | None, int]:
    """What is wrong with the runs of a row, and how many there were."""
    for number in range(1, 1000):
        got, met = run(command, shim, text, kind, number)
        wanted = refused_too if met else [expected]
        if met and kind == "thread" and number == 1:
            wanted = refused_too[:1]
        if got not in wanted:
            return f"{kind} {number}\n  expected {wanted}\n  got      {got}", number
        if not met:
            return None, number
    return f"still an {kind} after 1000", 1000


def without_the_wrapper(command: list[str]) -> list[str]:
    """The command with the built program in the place of ./trace_cli, whose shell would meet the refused
    allocations."""
    if Path(command[0]).resolve() != ROOT / "trace_cli":
        return command
    called_bytes(command, b"")
    return [str(ROOT / "crates" / "trace_cli" / "out" / "trace_cli"), *command[1:]]


def in_order(command: list[str], shim: Path) -> Iterator[Check]:
    for name, text, expected in RUNS:
        yield name, differences(command, shim, text, expected)[0]


def audits(command: list[str], shim: Path) -> Iterator[Check]:
    for name, text, expected in AUDITS:
        yield name, differences([*command[:-1], "audit"], shim, text, expected)[0]


def on_cores(name: str, run_on: list[str], cores: str, shim: Path, text: str, expected: Outcome) -> Iterator[Check]:
    """Allocations of a run on so many cores, and its threads."""
    starts = (NO_THREAD, expected) if expected[0] else ()
    yield name, differences(run_on, shim, text, expected, (STOPPED, *starts))[0]
    wrong, number = differences(run_on, shim, text, expected, starts, "thread")
    threads = int(cores) if starts else 0
    if not wrong and number != threads + 1:
        wrong = f"{number - 1} threads were started, not {threads}"
    yield f"{name}, threads", wrong


def on_threads(command: list[str], shim: Path) -> Iterator[Check]:
    """Runs on threads, over the caches of `run` and over other stores."""
    for name, words, text, expected in ON_THREADS:
        yield from on_cores(name, [*command[:-1], *words], words[2], shim, text, expected)
    replay = beside(command, "replay")
    for store in ("plain", "caches:sets=64,ways=4,buffer=16") if replay else ():
        yield from on_cores(f"a trace over {store}", [str(replay), "threads", store, "1"], "1", shim, image(COUNTER),
                            TRACED)


def others(command: list[str], shim: Path) -> Iterator[Check]:
    """The other programs."""
    built = [(row, beside(command, row[1])) for row in OTHERS]
    for (name, _, words, text, expected), program in built:
        if program:
            yield name, differences([str(program), *words], shim, text, expected)[0]
    for name in sorted({row[1] for row, program in built if program is None}):
        left_out(f"refused allocations of {name}", "no such program was built beside the one that is tested")


def main() -> int:
    script = Script()
    command = without_the_wrapper(script.command())
    if shutil.which("cc") is None:
        left_out("refused allocations", "cc isn't installed")
        return 0
    with tempfile.TemporaryDirectory() as directory:
        source, shim = Path(directory, "shim.c"), Path(directory, "shim.so")
        source.write_text(SHIM)
        called_well(["cc", "-shared", "-fPIC", "-O1", "-o", shim, source, "-ldl"])
        script.run(*[partial(part, command, shim) for part in (in_order, audits, on_threads, others)])
    return script.ended("rows")


if __name__ == "__main__":
    sys.exit(main())
