#!/usr/bin/env python3
"""Worked rows of `trace_cli run`: an image on so many cores with the exact output for each.

Usage: tests/run_rows.py [COMMAND ..]

COMMAND reads its standard input and ends with the word `seq`, in whose place
the rows put `run --cores N`; without it `./trace_cli seq` of this repository is
tested. The expected values were worked out by hand, as those of `seq_rows.py`,
and don't depend on how the threads run. With `--trace` the row also holds the
history to its counts, and gives it to `audit`. Exits with 1 where a row differs.
"""

import sys
from collections.abc import Iterator
from functools import partial

from audit_rows import EXIT, FAULTS, ONE, WAIT
from common import Check, Script, differs
from seq_rows import COUNTER, FOUR, SEARCH, at, done, exited, fault, image, refused, run

# Each epoch stores its number to its own word.
OWN_WORDS = "9312250023a0a20467800000"
# Each epoch stores a byte beside the others'.
OWN_BYTES = "9302f00f2300550467800000"
# A store to the last word of a large memory.
LAST_WORD = "version 2\n" + image("b702100023ae12fe67800000", size=1_048_576)
USAGE = ("", "usage\n", 2)

# (what it shows, cores, image text, (standard output, standard error, status))
RUNS = [
    ("four epochs add their numbers to one word", 4, FOUR, done(4, at(0x40, "06"))),
    ("on one core", 1, FOUR, done(4, at(0x40, "06"))),
    ("on eight cores", 8, FOUR, done(4, at(0x40, "06"))),
    ("on sixteen cores in version 2", 16, "version 2\n" + FOUR, done(4, at(0x40, "06"))),
    ("a word for each epoch", 4, image(OWN_WORDS, epochs=4), done(4, at(0x40, "00000000010000000200000003000000"))),
    ("a byte for each epoch", 2, image(OWN_BYTES, epochs=2), done(2, at(0x40, "ffff"))),
    ("no epochs", 2, image(COUNTER, epochs=0), done(0)),
    ("more cores than epochs", 8, image(COUNTER, epochs=3), done(3, at(0x40, "03"))),
    ("an epoch that waits for the one before it", 2, WAIT, done(2, at(0x40, "01"))),
    ("a limit that an epoch may reach before it is homefree", 8, WAIT, done(2, at(0x40, "01"))),
    ("an exit among eight epochs", 4, image(SEARCH, epochs=8, more="exit\n"),
     exited(2, at(0x40, "000000000100000002"))),
    ("the same epochs without exit", 4, image(SEARCH, epochs=8),
     done(8, at(0x40, "00000000010000000200000003000000"), at(0x50, "04000000050000000600000007000000"))),
    ("an exit of the first epoch", 2, EXIT, exited(0)),
    ("a fault", 3, FAULTS, fault(0, 1, 0)),
    ("a fault at the limit", 4, image(COUNTER, epochs=4, limit=3), fault(0, 8, 0x0C)),
    ("a fault after a store", 2, image("2320100423200000"), fault(0, 7, 4, at(0x40, "fcffffff"))),
    ("an exit and faults behind it", 4, image("2320a0041305100067800000", epochs=9, limit=3, more="exit\n"), exited(0)),
    ("the last word of a large memory", 16, LAST_WORD, done(1, at(0xFFFF0, "0" * 24 + "fcffffff"))),
    ("nine cores in version 1", 9, FOUR, USAGE),
    ("sixteen cores in version 1", 16, "version 1\n" + FOUR, USAGE),
    ("nine cores, and an image that is refused", 9, FOUR + "at 00000000 00\n", refused(5, "Place")),
    ("an image that is refused", 4, image("8322000"), refused(4, "Hex")),
    ("an empty input", 4, "", refused(0, "MissingOrRepeated")),
    ("an image that is too long", 4, "#" * 1_048_577, refused(0, "TooLong")),
]

# (what it shows, cores, image text, all that is printed)
TRACES = [
    ("one epoch", 1, ONE,
     "end done 1\ncounts 1 1 0 1\ntrace 1\n0 start 0\n0 load 00000040 4 00000000\n0 store 00000040 4 00000000\n0 "
     "commit\n"),
    ("no epochs", 2, image(COUNTER, epochs=0), "end done 0\ncounts 0 0 0 0\ntrace 2\n"),
    ("a fault counts nothing", 1, FAULTS,
     "end fault 0 1 00000000\ncounts 0 0 0 0\ntrace 1\n0 start 0\n0 fault 1 00000000\n"),
    ("an exit", 1, EXIT, "end exit 0\ncounts 0 1 0 1\ntrace 1\n0 start 0\n0 store 00000040 4 00000000\n0 commit\n"),
]

# Words that ask for no run.
WORDS = [
    ["run"], ["run", "--cores"], ["run", "--cores", "0"], ["run", "--cores", "17"], ["run", "--cores", "-1"],
    ["run", "--cores", "x"],
    ["run", "--cores", "4294967297"], ["run", "--cores", "2", "--cores", "2"], ["run", "--cores", "2", "x"],
    ["run", "--trace"],
    ["run", "--cores", "2", "--trace=yes"], ["run", "--cores", "2", "--help"], ["run", "--help"],
    ["--cores", "2", "run"], ["run", "--core", "2"], ["seq", "--cores", "2"], ["audit", "--trace"],
]
# What an epoch other than the first passes over: bne x10,x0 to behind one load, to behind two.
FIRST_EPOCH = ["", "6314050083220004", "631605008322000483220004"]


# One core makes as many entries of an epoch as it loads, and two: of 14 loads each 1,048,560 in all, where 1,048,576
# have room and a turn asks for 16. The first epoch may load once more, and not twice. In order there is no such limit.
def loads(count: int, first: int = 0) -> str:
    return image(FIRST_EPOCH[first] + "83220004" * count + "67800000", epochs=65_535)


LONG = [
    ("a history that has just room", ["run", "--cores", "1"], loads(14, 1), done(65_535)),
    ("a history that is full", ["run", "--cores", "1"], loads(14, 2), ("", "stopped HistoryFull\n", 3)),
    ("a loop in order with more accesses than a history has room for", ["seq"], loads(15), done(65_535)),
]


def traced_differs(program: list[str], cores: int, text: str) -> str | None:
    """What is wrong with a run that prints its trace: it ends as without one, and `audit` finds as many entries as are
    counted."""
    plain = run(program, ["run", "--cores", str(cores)], text)
    output, errors, status = run(program, ["run", "--cores", str(cores), "--trace"], text)
    report, below = output[:len(plain[0])], output[len(plain[0]):]
    if (report, errors, status) != plain:
        return f"with a trace {(report, errors, status)}, without one {plain}"
    if status > 1:
        return None
    counts, _, trace = below.partition("\n")
    lines = trace.splitlines()
    words = [line.split()[1] for line in lines[1:]]
    wanted = "counts " + " ".join(str(words.count(word)) for word in ("load", "store", "restart", "commit"))
    if counts != wanted or lines[0] != f"trace {cores}":
        return f"{counts!r} above {lines[0]!r}, whose entries give {wanted!r}"
    verdict = run(program, ["audit"], text + trace)
    if verdict[0].split()[:2] != ["legal", str(len(words))]:
        return f"the audit of the trace says {verdict}"
    return None


def rows(program: list[str]) -> Iterator[Check]:
    for name, cores, text, expected in RUNS:
        yield name, differs(run(program, ["run", "--cores", str(cores)], text), expected)
    for name, cores, text, printed in TRACES:
        got = run(program, ["run", "--cores", str(cores), "--trace"], text)
        yield f"the trace of {name}", differs(got, (printed, "", 1 if "fault" in printed else 0))
    for words in WORDS:
        yield f"words {' '.join(words)}", differs(run(program, words, FOUR), USAGE)
    for name, words, text, expected in LONG:
        yield name, differs(run(program, words, text), expected)


def with_traces(program: list[str]) -> Iterator[Check]:
    for name, cores, text, _ in RUNS:
        yield f"{name}, with a trace", traced_differs(program, cores, text)


def main() -> int:
    script = Script()
    script.run(*[partial(part, script.command()[:-1]) for part in (rows, with_traces)])
    return script.ended("rows")


if __name__ == "__main__":
    sys.exit(main())
