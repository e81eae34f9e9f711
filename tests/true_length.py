#!/usr/bin/env python3
"""Inputs and runs as long as they may be, or longer than any body would take that gives up early: what has to be
printed is worked out by hand.

Usage: tests/true_length.py [COMMAND ..]

COMMAND is a command of `trace_cli` that ends with the word `seq`, such as crates/trace_cli/out/trace_cli seq; `why`,
`replay` and `gain` are the programs that were built beside it. Without it those of this repository are tested. Where
one isn't built its rows are left out, and a line says so. A run that has no answer after ten minutes hangs. Exits with
1 where an output differs.
"""

import sys
from collections.abc import Iterator
from functools import partial
from pathlib import Path

from audit_rows import traced
from common import ROOT, Check, Script, beside, called_well, left_out
from seq_rows import at, done, image, run

Results = Iterator[Check]
Outcome = tuple[str, str, int]
# Epochs of 14 loads and a return, as many as there may be: 16 entries each on one core, 1,048,560 in all, of 1,048,576
# that a history may have.
EPOCHS, LOADS = 65_535, 14
LOAD = "83220004"  # lw x5,64(x0)
RETURN = "67800000"
ALL_LOADS = image(LOAD * LOADS + RETURN, epochs=EPOCHS)
# Epoch 0 stores to 7c0 so often as register 6 says; epoch 1 loads the word beside it, at 7c4:
# bne x10,x0,+20; addi x5,x5,1; sw x0,1984(x0); bne x5,x6,-8; jalr x0,0(x1); lw x5,1988(x0); jalr x0,0(x1)
NEIGHBOURS = "631a0500938212002320007ce39c62fe678000008322407c67800000"
# Each of these stores violates epoch 1: four entries. With five more there are 1,048,557.
TIMES = 262_138
# 125,000 instructions, 500,000 bytes: 124,995 times addi x5,x5,1; then lui x6,128; slli x7,x10,2; add x6,x6,x7; sw
# x5,0(x6); jalr x0,0(x1)
ADD, STORE_SUM = "93821200", "3703080093132500330373002320530067800000"
LONG_CODE = "version 2\n" + image(ADD * 124_995 + STORE_SUM, epochs=2, limit=125_000, size=1_048_576)
# Epoch 0 loads a word 200,704 times, the others nothing:
# bne x10,x0,+20; lui x5,49; lw x6,64(x0); addi x5,x5,-1; bne x5,x0,-8; jalr x0,0(x1)
CORES, COUNTED = 16, 49 * 4096
COUNTS_DOWN = "version 2\n" + image("631a0500b7120300032300049382f2ffe39c02fe67800000", epochs=CORES, limit=1_000_000)
# Each epoch loads a word 254 times: 256 entries each on one core, 16,776,960 in all, of 16,777,216 that a history of
# `gain` may have. Epoch 0 first loads it 241 times more, or 242: bne x10,x0,+972; and addi x0,x0,0 for a load. The last
# turn has to find 16 free entries, so it is just taken, or just not.
SHARE, SKIP, NOTHING, MORE = 254, "6316053c", "13000000", 242
JUST_ROOM, JUST_FULL = (image(SKIP + LOAD * count + NOTHING * (MORE - count) + LOAD * SHARE + RETURN, epochs=EPOCHS,
                              limit=1000, size=2048) for count in (MORE - 1, MORE))
# Each epoch loads a word of each of these rows of 16 bytes: lw x5,ROW(x0). What `steps` has to say of so many epochs is
# 28 MB, for which a program that keeps it takes more memory than this.
ROWS, TOLD = range(64, 288, 16), 9_000
ALL_ROWS = image("".join((row << 20 | 0x2283).to_bytes(4, "little").hex() for row in ROWS) + RETURN, epochs=TOLD,
                 size=512)
MOST_BYTES = 48_000_000
# A build of a program, where one has to be
BUILD = 4 * 3600


def program_of(command: list[str], name: str) -> str | None:
    """The built program of this name that belongs to a command of `trace_cli`, or None. Without a command it is built,
    where it isn't."""
    given = Path(command[0]).resolve() if command else ROOT / "trace_cli"
    if given == ROOT / "trace_cli":
        return called_well([ROOT / name, "--built"], seconds=BUILD).strip()
    found = beside(command, name)
    return str(found) if found else None


def differs(got: Outcome, wanted: Outcome) -> str | None:
    """How an outcome differs from the one that is wanted, or None."""
    if got == wanted:
        return None
    lines = zip(got[0].splitlines(True), wanted[0].splitlines(True))
    place, pair = next(((number, pair) for number, pair in enumerate(lines) if pair[0] != pair[1]), (-1, None))
    return (f"status {got[2]}, not {wanted[2]}; error stream {got[1][:100]!r}; {len(got[0])} bytes, not "
            f"{len(wanted[0])}; line {place} {str(pair)[:200]}")


# --- Traces ---------------------------------------------------------------------

def loads_in_order() -> str:
    """The trace of all those loads, on one core."""
    epochs = (["0 load 00000040 4 00000000\n" * LOADS, epoch] for epoch in range(EPOCHS))
    return traced(ALL_LOADS, [], "trace 1") + "".join(f"0 start {epoch}\n{lines}0 commit\n" for lines, epoch in epochs)


def beside_each_other(times: int) -> str:
    """The trace of the neighbours: epoch 1 loads before each store of epoch 0, and is violated by it."""
    above = image(NEIGHBOURS, epochs=2, limit=1_000_000, size=4096, more=f"reg 6 {times:08x}\n")
    again = "1 load 000007c4 4 00000000\n0 hurt 1\n0 store 000007c0 4 00000000\n1 restart\n"
    return traced(above, ["0 start 0",
                          "1 start 1"]) + again * times + "0 commit\n1 load 000007c4 4 00000000\n1 commit\n"


def report(times: int) -> str:
    """What `why` has to say of it. Each attempt of epoch 1 had executed its branch, its load and its return: three, two
    of them from the load on."""
    hurt = ("hurt {} false epoch 1 try {} core 1 lost 3 entered 2 since 2 by 0 core 0 cause {} store load {} 00000014 "
            "store {} 00000008 at 000007c4 4\n")
    lines = "".join(hurt.format(place, number, place + 1, place - 1, place + 1)
                    for number, place in enumerate(range(3, 3 + 4 * times, 4), 1))
    lost = f"rollbacks {times} lost {3 * times}"
    kinds = f"true 0 silent 0 false {times} buffer 0"
    sums = [f"epoch 1 {lost}",
            f"pair store 00000008 load 00000014 {lost} {kinds} stale 0 vain 0 later 0 distance 1 1 at 000007c4 4",
            f"line 000007c0 {lost} {kinds}",
            f"pc 00000008 victim 0 0 causer {times} {3 * times}", f"pc 00000014 victim {times} {3 * times} causer 0 0",
            f"kind false {lost}",
            f"total epochs 2 committed 2 useful {3 * times + 5} {lost} cancelled 0 dropped 0 open 0 unsettled 0"]
    return lines + "\n".join(sums) + "\n"


def attempts(times: int) -> str:
    """The lines of its attempts: epoch 0 executes its branch, its store and its return beside the rest of its loop."""
    form = "attempt {} epoch 1 try {} core 1 done 3 violated {} by 0 core 0\n"
    again = "".join(form.format(4 * number - 3, number, 4 * number - 1) for number in range(1, times + 1))
    return (f"attempt 0 epoch 0 try 1 core 0 done {3 * times + 2} committed {4 * times + 2} by 0 core 0\n{again}"
            f"attempt {4 * times + 1} epoch 1 try {times + 1} core 1 done 3 committed {4 * times + 4} by 1 core 1\n")


def traces(program: str, why: str | None) -> Results:
    in_order, meeting = loads_in_order(), beside_each_other(TIMES)
    yield "audit: 1,048,560 loads", differs(run([program], ["audit"], in_order),
                                            (f"legal {16 * EPOCHS} {EPOCHS}\n", "", 0))
    yield ("audit: 1,048,557 entries with violations",
           differs(run([program], ["audit"], meeting), (f"legal {4 * TIMES + 5} 2\n", "", 0)))
    if why is None:
        return
    total = (f"total epochs {EPOCHS} committed {EPOCHS} useful {(LOADS + 1) * EPOCHS} rollbacks 0 lost 0 cancelled 0 "
             "dropped 0 open 0 unsettled 0\n")
    yield "why: 1,048,560 loads", differs(run([why], [], in_order), (total, "", 0))
    yield "why: 262,138 violations", differs(run([why], [], meeting), (report(TIMES), "", 0))
    above, _, below = report(TIMES).partition("\nepoch ")
    yield "why: 262,140 attempts", differs(run([why], ["--attempts"], meeting),
                                           (f"{above}\n{attempts(TIMES)}epoch {below}", "", 0))


# --- Runs ----------------------------------------------------------------------

def long_code(program: str) -> Results:
    """Both epochs execute all of the code, and have counted to 124,995 then."""
    wanted = done(2, at(0x80000, (124_995).to_bytes(4, "little").hex() * 2))
    for words in (["seq"], ["run", "--cores", "1"], ["run", "--cores", "4"]):
        yield f"{' '.join(words)}: 500,000 bytes of code", differs(run([program], words, LONG_CODE), wanted)


def on_threads(program: str) -> Results:
    """Nothing is stored, so nothing is violated, and no core waits for a line: each epoch makes as many entries
    whatever the threads do. Every core begins some: before the first turn all are waited for, up to a second, and the
    lock is fair."""
    for cores, version, epochs in ((4, "", 20_000), (CORES, "version 2\n", 6_000)):
        text = version + image(LOAD * 10 + RETURN, epochs=epochs)
        output, errors, status = run([program], ["run", "--cores", str(cores), "--trace"], text)
        above = f"end done {epochs}\ncounts {10 * epochs} 0 0 {epochs}\n"
        name = f"{12 * epochs:,} entries on {cores} threads"
        yield name, differs((output[:len(above)], errors, status), (above, "", 0))
        began = {line.split()[0] for line in output[len(above):].splitlines() if " start " in line}
        idle = [core for core in range(cores) if str(core) not in began]
        yield f"{name}: every core begins", f"no epoch begins on cores {idle}" if idle else None
        yield f"{name}: their audit", differs(run([program], ["audit"], text + output[len(above):]),
                                              (f"legal {12 * epochs} {epochs}\n", "", 0))


def even_turns(replay: str) -> Results:
    """At even speed every other core asks once after each load whether it may commit. So the cores take their turns in
    order, one after the other: once to begin, once for each load, and once to commit."""
    turns = "turns" + " 0 1 2 3 4 5 6 7 8 9 10 11 12 13 14 15" * (COUNTED + 2)
    begins, commits = ("".join(f"{core} {act}\n" for core, act in enumerate(acts))
                       for acts in ([f"start {core}" for core in range(CORES)], ["commit"] * CORES))
    trace = begins + "0 load 00000040 4 00000000\n" * COUNTED + commits
    wanted = f"{turns}\nend done {CORES}\ncounts {COUNTED} 0 0 {CORES}\ntrace {CORES}\n{trace}"
    for store in ("plain", "caches"):
        yield (f"even {store}: 3,211,296 turns",
               differs(run([replay], ["even", store, str(CORES)], COUNTS_DOWN), (wanted, "", 0)))


def told_turns() -> Iterator[str]:
    """The turns of one core over a plain store, 16 for each epoch: to start it, for each load, and to commit."""
    zeros = "0" * 32
    for epoch in range(TOLD):
        turn = epoch * (len(ROWS) + 2)
        yield f"turn {turn} 0 go\nentry 0 start {epoch}\nattempt 0 {epoch} speculative\nhart 0 00000000 0\n"
        for place, row in enumerate(ROWS, 1):
            yield (f"turn {turn + place} 0 go\nentry 0 load {row:08x} 4 00000000\nhart 0 {4 * place:08x} {place}\nkept "
                   f"0 {row:08x} 000f 0000 {zeros}\n")
        answer = "left" if epoch + 1 < TOLD else f"over done {TOLD}"
        yield f"turn {turn + len(ROWS) + 1} 0 {answer}\nentry 0 commit\nattempt 0 -\nhart 0 -\n"
        yield "".join(f"kept 0 {row:08x} 0000 0000 {zeros}\n" for row in ROWS)


def steps(replay: str) -> Results:
    """`replay steps` keeps none of what it prints. Of turns that make another trace than the one that is given, or too
    long a history, nothing is printed."""
    limited = ["prlimit", f"--as={MOST_BYTES}", replay]
    loads = "".join(f"0 load {row:08x} 4 00000000\n" for row in ROWS)
    trace = "".join(f"0 start {epoch}\n{loads}0 commit\n" for epoch in range(TOLD))
    wanted = f"{''.join(told_turns())}end\nend done {TOLD}\ncounts {len(ROWS) * TOLD} 0 0 {TOLD}\ntrace 1\n{trace}"
    text = f"{ALL_ROWS}turns{' 0' * (len(ROWS) + 2) * TOLD}\n"
    yield f"steps plain: {len(wanted):,} bytes", differs(run(limited, ["steps", "plain", "1"], text), (wanted, "", 0))
    other = f"{ALL_ROWS}trace 1\n" + trace.removesuffix("0 commit\n") + "0 restart\n"
    yield "steps plain: another trace", differs(run(limited, ["steps", "plain"], other),
                                                ("", f"differs {(len(ROWS) + 2) * TOLD - 1}\n", 4))
    full = f"{image(LOAD * (LOADS + 1) + RETURN, epochs=EPOCHS)}turns{' 0' * (LOADS + 3) * EPOCHS}\n"
    yield "steps plain: a full history", differs(run([replay], ["steps", "plain", "1"], full),
                                                 ("", "stopped HistoryFull\n", 3))


def even_steps(gain: str) -> Results:
    """Epoch 0 takes a step to begin, three for each load, one for each of its branch, its lui and its return, and one
    to commit; the others four, of which the last is taken in the last step. From their third step on they wait for
    epoch 0."""
    steps, waited = 3 * COUNTED + 5, (CORES - 1) * (3 * COUNTED + 1)
    useful = steps + 4 * (CORES - 1)
    causes = f"nothomefree {waited} noway 0 orbfull 0 orbbusy 0"
    kinds = "restarts 0 true 0 silent 0 false 0 buffer 0"
    output, errors, status = run([gain], [str(CORES)], COUNTS_DOWN)
    lines = [line for line in output.splitlines() if f" cores {CORES} " in line]
    wanted = [f"store {store} cores {CORES} steps {steps} gain "
              f"{useful * 100 // steps // 100}.{useful * 100 // steps % 100:02} useful {useful} lost 0 dropped 0 "
              f"waiting {waited} idle 0 {kinds} {causes}" for store in ("caches", "plain")]
    yield ("gain: 3,211,296 turns",
           None if (lines, errors, status) == (wanted, "", 0) else f"{lines}, {errors!r}, {status}, not {wanted}")


def longest(gain: str) -> Results:
    """Each epoch takes a step to begin, one for each of its branch, its loads and its return, and one to commit; epoch
    0 takes one for each of the others."""
    steps = EPOCHS * (SHARE + 4) + MORE
    sums = "lost 0 dropped 0 waiting 0 idle 0 restarts 0 true 0 silent 0 false 0 buffer 0"
    told = f"steps {steps} gain 1.00 useful {steps} {sums} nothomefree 0 noway 0 orbfull 0 orbbusy 0"
    for name, text, wanted in (("16,777,201 entries", JUST_ROOM, told), ("a full history", JUST_FULL, "full")):
        for store in ("plain", "caches"):
            yield (f"gain {store}: {name}",
                   differs(run([gain], ["1", store], text), (f"store {store} cores 1 {wanted}\n", "", 0)))


def main() -> int:
    script = Script()
    program, why, replay, gain = (program_of(script.words, name) for name in ("trace_cli", "why", "replay", "gain"))
    if program is None:
        left_out("inputs of true length", "no program of crates/ is tested")
        return 0
    for name, found in (("why", why), ("replay", replay), ("gain", gain)):
        if found is None:
            left_out(f"inputs of true length to {name}", "it wasn't built beside the program that is tested")
    script.run(partial(traces, program, why), partial(long_code, program), partial(on_threads, program),
               *([partial(even_turns, replay), partial(steps, replay)] if replay else []),
               *([partial(even_steps, gain), partial(longest, gain)] if gain else []))
    return script.ended()


if __name__ == "__main__":
    sys.exit(main())
