#!/usr/bin/env python3
"""Worked rows of `trace_cli audit`: an image and a trace with the exact output for each.

Usage: tests/audit_rows.py [COMMAND ..]

COMMAND reads its standard input and ends with the word `seq`, in whose place
the rows put `audit`; without it `./trace_cli seq` of this repository is tested.
The expected values were worked out by hand from the table of entries and from
the format of a trace, never from a program. Exits with 1 where a row differs.
"""

import sys
from collections.abc import Iterator
from functools import partial

from common import Check, Script, differs
from seq_rows import COUNTER, Outcome, image, run

# Epoch 1 waits for the word that epoch 0 stores, so it is hurt where it has read it before.
WAIT = image("6308050083220004e38e02fe67800000930210002320500467800000", epochs=2, limit=50)
NINE = ["0 start 0", "1 start 1", "0 store 00000040 4 00000001", "1 load 00000040 4 00000000", "0 hurt 1", "0 commit",
        "1 restart", "1 load 00000040 4 00000001", "1 commit"]
# Each epoch stores its number to one word, and exits.
EXIT = image("2320a0041305100067800000", epochs=2, more="exit\n")
SIX = ["0 start 0", "1 start 1", "0 store 00000040 4 00000000", "1 store 00000040 4 00000001", "0 cancel 1", "0 commit"]
ONE = image(COUNTER)
OF_ONE = ["0 start 0", "0 load 00000040 4 00000000", "0 store 00000040 4 00000000", "0 commit"]
STRAIGHT = ["0 start 0", "0 publish", "0 load 00000040 4 00000000", "0 store 00000040 4 00000000", "0 commit"]
FAULTS = image("00000000")
# Epochs of ten loads, one after the other on one core.
MANY_LOADS = image("83220004" * 10 + "67800000", epochs=60_001)
LEGAL_LOADS = [line for epoch in range(60_000)
               for line in [f"0 start {epoch}", *["0 load 00000040 4 00000000"] * 10, "0 commit"]]
LONGEST = 33_554_432


def traced(above: str, entries: list[str], head: str = "trace 2") -> str:
    """An input: an image, the head of a trace, and a line for each entry."""
    return above + "".join(line + "\n" for line in [head, *entries])


def legal(entries: int, homefree: int) -> Outcome:
    return f"legal {entries} {homefree}\n", "", 0


def illegal(place: int, name: str) -> Outcome:
    return f"illegal {place} {name}\n", "", 4


def image_refused(line: int, name: str) -> Outcome:
    return "", f"image {line} {name}\n", 2


def trace_refused(line: int, name: str) -> Outcome:
    return "", f"trace {line} {name}\n", 2


def changed(entries: list[str], place: int, line: str) -> list[str]:
    return entries[:place] + [line] + entries[place + 1:]


def without(entries: list[str], place: int) -> list[str]:
    return entries[:place] + entries[place + 1:]


def padded(text: str, length: int) -> str:
    """A text with a remark at its end, so many bytes long."""
    return text + "#" * (length - len(text))


# (what it shows, input, (standard output, standard error, status))
VERDICTS = [
    ("nine entries with a hurt", traced(WAIT, NINE), legal(9, 2)),
    ("without the hurt", traced(WAIT, without(NINE, 4)), illegal(4, "HurtMissing")),
    ("as many entries as an input can have", traced(WAIT, ["0 commit"] * 3_700_000), illegal(0, "NotThere")),
    ("many legal entries, and one that isn't", traced(MANY_LOADS, LEGAL_LOADS + ["0 publish"]),
     illegal(len(LEGAL_LOADS), "NotThere")),
    ("a load of an idle core", traced(WAIT, NINE[3:4]), illegal(0, "NotThere")),
    ("the second epoch first", traced(WAIT, ["0 start 1"]), illegal(0, "NotNext")),
    ("a publish of a later epoch", traced(WAIT, NINE[:4] + ["1 publish"]), illegal(4, "NotHomefree")),
    ("a load of a value that isn't there", traced(WAIT, changed(NINE, 3, "1 load 00000040 4 00000001")),
     illegal(3, "WrongValue")),
    ("an entry after the end", traced(WAIT, NINE + ["0 publish"]), illegal(9, "Over")),
    ("a history that isn't whole", traced(WAIT, NINE[:5]), legal(5, 0)),
    ("no entries", traced(WAIT, []), legal(0, 0)),
    ("no epochs, no entries", traced(image(COUNTER, epochs=0), [], "trace 3"), legal(0, 0)),
    ("no epochs, an entry", traced(image(COUNTER, epochs=0), ["0 start 0"]), illegal(0, "Over")),
    ("the first of two faults counts", traced(WAIT, ["0 start 1", "0 commit"]), illegal(0, "NotNext")),
    ("the first entry counts", traced(WAIT, without(NINE, 0)), illegal(0, "NotNext")),
    ("one core", traced(ONE, OF_ONE, "trace 1"), legal(4, 1)),
    ("a core that publishes", traced(ONE, STRAIGHT, "trace 1"), legal(5, 1)),
    ("a fault", traced(FAULTS, ["0 start 0", "0 fault 1 00000000"], "trace 1"), legal(2, 0)),
    ("another fault", traced(FAULTS, ["0 start 0", "0 fault 2 00000000"], "trace 1"), illegal(1, "NotNext")),
    ("an exit", traced(EXIT, SIX), legal(6, 1)),
    ("an exit without its cancel", traced(EXIT, without(SIX, 4)), illegal(4, "NotCancelled")),
    ("a cancel in an image without exit", traced(WAIT, NINE[:3] + ["0 cancel 1"]), illegal(3, "NotNext")),
    ("a cancel of no core", traced(WAIT, ["0 cancel 1"]), illegal(0, "NotThere")),
    ("a width of 3 is well formed", traced(WAIT, ["0 start 0", "0 store 00000040 3 00000001"]), illegal(1, "NotNext")),
    ("a cause of 99 is well formed", traced(WAIT, ["0 start 0", "0 fault 99 00000000"]), illegal(1, "NotNext")),
    ("a core past the head is well formed", traced(WAIT, ["2 start 0"]), illegal(0, "NotThere")),
    ("the largest core is well formed", traced(WAIT, ["4294967295 start 0"]), illegal(0, "NotThere")),
    ("a value past its width is well formed", traced(WAIT, ["0 start 0", "0 store 00000040 1 00000101"]),
     illegal(1, "NotNext")),
    ("an address past memory is well formed", traced(WAIT, ["0 start 0", "0 load ffffffff 4 00000000"]),
     illegal(1, "NotNext")),
    ("the largest epoch is well formed", traced(WAIT, ["0 start 4294967295"]), illegal(0, "NotNext")),
    ("version 2, nine cores", traced("version 2\n" + WAIT, NINE, "trace 9"), legal(9, 2)),
    ("version 2, sixteen cores", traced("version 2\n" + WAIT, NINE, "trace 16"), legal(9, 2)),
    ("eight cores", traced(WAIT, NINE, "trace 8"), legal(9, 2)),
    ("remarks and empty lines", traced(WAIT, ["", "# trace 3", *[line + "\n\n#" for line in NINE]]), legal(9, 2)),
    ("no line feed at the end", traced(WAIT, NINE)[:-1], legal(9, 2)),
    ("digits of upper case",
     traced(image("9302f00f2300550467800000"), ["0 start 0", "0 store 00000040 1 000000FF", "0 commit"], "trace 1"),
     legal(3, 1)),
    ("the longest input", padded(traced(WAIT, NINE), LONGEST), legal(9, 2)),
    ("the longest image", padded(WAIT, 1_048_575) + "\n" + traced("", NINE), legal(9, 2)),
    ("a second head after a remark", traced(WAIT, ["#trace 2", *NINE]), legal(9, 2)),
]

REFUSALS = [
    ("a line that is cut", traced(WAIT, NINE[:4] + ["0 hu"]), trace_refused(10, "Line")),
    ("a first line that is cut", traced(WAIT, ["0 start"]), trace_refused(6, "Line")),
    ("an image of half a byte", traced(image("8322000"), NINE), image_refused(4, "Hex")),
    ("the image alone", WAIT, trace_refused(0, "Head")),
    ("without the head", WAIT + "".join(line + "\n" for line in NINE), image_refused(5, "Line")),
    ("empty input", "", image_refused(0, "MissingOrRepeated")),
    ("a trace alone", "trace 1\n", image_refused(0, "MissingOrRepeated")),
    ("a bad image and a bad head", traced("size 9999999999\n", [], "trace x"), image_refused(1, "Range")),
    ("an image that lacks a line, and a bad entry", traced("size 256\n", ["x"]), image_refused(0, "MissingOrRepeated")),
    ("no cores", traced(WAIT, NINE, "trace 0"), trace_refused(5, "Head")),
    ("nine cores", traced(WAIT, NINE, "trace 9"), trace_refused(5, "Head")),
    ("nine cores in version 1", traced("version 1\n" + WAIT, NINE, "trace 9"), trace_refused(6, "Head")),
    ("seventeen cores in version 2", traced("version 2\n" + WAIT, NINE, "trace 17"), trace_refused(6, "Head")),
    ("a number of cores that is 2 past 32 bits", traced(WAIT, NINE, "trace 4294967298"), trace_refused(5, "Head")),
    ("a head with nothing after its space", traced(WAIT, NINE, "trace "), trace_refused(5, "Head")),
    ("a head with two spaces", traced(WAIT, NINE, "trace  2"), trace_refused(5, "Head")),
    ("a head with a leading zero", traced(WAIT, NINE, "trace 02"), trace_refused(5, "Head")),
    ("a head with two numbers", traced(WAIT, NINE, "trace 1 1"), trace_refused(5, "Head")),
    ("a head with a space at its end", traced(WAIT, NINE, "trace 2 "), trace_refused(5, "Head")),
    ("a head with a carriage return", traced(WAIT, NINE, "trace 2\r"), trace_refused(5, "Head")),
    ("a head of one word is a line of the image", traced(WAIT, NINE, "trace"), image_refused(5, "Line")),
    ("a head with a tab is a line of the image", traced(WAIT, NINE, "trace\t2"), image_refused(5, "Line")),
    ("a head in upper case is a line of the image", traced(WAIT, NINE, "TRACE 2"), image_refused(5, "Line")),
    ("a head below a bad one", traced(WAIT, ["trace 2", *NINE], "trace x"), trace_refused(5, "Head")),
    ("a second head", traced(WAIT, ["trace 2", *NINE]), trace_refused(6, "Line")),
    ("a line of the image below the head", traced(WAIT, ["exit"]), trace_refused(6, "Line")),
    ("an epoch past 32 bits", traced(WAIT, ["0 start 4294967296"]), trace_refused(6, "Line")),
    ("a core past 32 bits", traced(WAIT, ["4294967296 start 0"]), trace_refused(6, "Line")),
    ("a width past 32 bits", traced(WAIT, ["0 load 00000040 4294967300 00000000"]), trace_refused(6, "Line")),
    ("a number of eleven digits", traced(WAIT, ["0 hurt 10000000000"]), trace_refused(6, "Line")),
    ("a leading zero", traced(WAIT, ["0 start 00"]), trace_refused(6, "Line")),
    ("a core with a leading zero", traced(WAIT, ["00 start 0"]), trace_refused(6, "Line")),
    ("a plus sign", traced(WAIT, ["0 start +0"]), trace_refused(6, "Line")),
    ("seven digits", traced(WAIT, ["0 load 0000040 4 00000000"]), trace_refused(6, "Line")),
    ("nine digits", traced(WAIT, ["0 load 00000040 4 000000000"]), trace_refused(6, "Line")),
    ("no digit", traced(WAIT, ["0 store 0000004g 4 00000000"]), trace_refused(6, "Line")),
    ("a pc of seven digits", traced(WAIT, ["0 fault 1 0000000"]), trace_refused(6, "Line")),
    ("an unknown word", traced(WAIT, ["0 stop"]), trace_refused(6, "Line")),
    ("a word in upper case", traced(WAIT, ["0 START 0"]), trace_refused(6, "Line")),
    ("no word", traced(WAIT, ["0"]), trace_refused(6, "Line")),
    ("a word too many after start", traced(WAIT, ["0 start 0 0"]), trace_refused(6, "Line")),
    ("a word too many after restart", traced(WAIT, ["0 restart 1"]), trace_refused(6, "Line")),
    ("a word too many after load", traced(WAIT, ["0 load 00000040 4 00000000 0"]), trace_refused(6, "Line")),
    ("a word too few after load", traced(WAIT, ["0 load 00000040 4"]), trace_refused(6, "Line")),
    ("a word too few after fault", traced(WAIT, ["0 fault 1"]), trace_refused(6, "Line")),
    ("a number after commit", traced(WAIT, ["0 commit 0"]), trace_refused(6, "Line")),
    ("a space at the end", traced(WAIT, ["0 commit "]), trace_refused(6, "Line")),
    ("a space at the beginning", traced(WAIT, [" 0 commit"]), trace_refused(6, "Line")),
    ("two spaces", traced(WAIT, ["0  commit"]), trace_refused(6, "Line")),
    ("a tab", traced(WAIT, ["0\tcommit"]), trace_refused(6, "Line")),
    ("a carriage return", traced(WAIT, ["0 commit\r"]), trace_refused(6, "Line")),
    ("a line of one space", traced(WAIT, [" "]), trace_refused(6, "Line")),
    ("a space before a remark", traced(WAIT, [" # text"]), trace_refused(6, "Line")),
    ("a byte past ASCII", traced(WAIT, ["0 commit\xff"]), trace_refused(6, "Line")),
    ("a bad line below an illegal entry", traced(WAIT, ["0 start 1", "x"]), trace_refused(7, "Line")),
    ("a bad line below remarks", traced(WAIT, ["", "# x", "0 start 0", "", "x"]), trace_refused(10, "Line")),
    ("an input that is too long", padded(traced(WAIT, NINE), LONGEST + 1), trace_refused(0, "TooLong")),
    ("an input that is too long, with a bad image", padded("size 1\n" + traced("", NINE), LONGEST + 1),
     trace_refused(0, "TooLong")),
    ("an image that is too long", padded(WAIT, 1_048_576) + "\n" + traced("", NINE), image_refused(0, "TooLong")),
    ("an image that is too long, without a trace", "#" * 1_048_577, image_refused(0, "TooLong")),
]


def rows(program: list[str]) -> Iterator[Check]:
    for name, text, expected in VERDICTS + REFUSALS:
        yield name, differs(run(program, ["audit"], text.encode("latin-1")), expected)


def main() -> int:
    script = Script()
    script.run(partial(rows, script.command()[:-1]))
    return script.ended("rows")


if __name__ == "__main__":
    sys.exit(main())
