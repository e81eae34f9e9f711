#!/usr/bin/env python3
"""Worked rows of `trace_cli seq`: image texts with the exact output for each.

Usage: tests/seq_rows.py [COMMAND ..]

COMMAND runs the sequential program on its standard input and ends with the
word `seq`; without it `./trace_cli seq` of this repository is tested. The
expected values were worked out by hand from the instruction tables of the
RISC-V Unprivileged ISA manual and from the format of image and report, never
from a program. Exits with 1 where a row differs.
"""

import sys
from collections.abc import Iterator, Sequence
from functools import partial

from common import Check, Script, called_bytes, differs

# Standard output, standard error and status
Outcome = tuple[str, str, int]
# What it shows, the text, what has to come
Row = tuple[str, str | bytes, Outcome]

COUNTER = "83220004b382a2002320500467800000"
STORE_X5_RETURN = "2320500467800000"
RETURN = "67800000"
# Stores the epoch's number to its own word, and leaves 1 in x10 in epoch 2 alone.
SEARCH = "9312250023a0a204134525001335150067800000"


def image(code: str, epochs: int = 1, limit: int = 100, size: int = 256, more: str = "") -> str:
    """An image text with the usual four lines and further lines after them."""
    return f"size {size}\nepochs {epochs}\nlimit {limit}\ncode {code}\n{more}"


FOUR = image(COUNTER, epochs=4)


def at(address: int, digits: str) -> str:
    """The report line of one row of memory, its rest filled with zeros."""
    return f"at {address:08x} {digits.ljust(32, '0')}\n"


def done(epochs: int, *lines: str) -> Outcome:
    return f"end done {epochs}\n" + "".join(lines), "", 0


def exited(epoch: int, *lines: str) -> Outcome:
    return f"end exit {epoch}\n" + "".join(lines), "", 0


def fault(epoch: int, cause: int, pc: int, *lines: str) -> Outcome:
    return f"end fault {epoch} {cause} {pc:08x}\n" + "".join(lines), "", 1


def refused(line: int, name: str) -> Outcome:
    return "", f"image {line} {name}\n", 2


# (what it shows, image text, (standard output, standard error, status))
RUNS: list[Row] = [
    ("four epochs add their numbers to one word", FOUR, done(4, at(0x40, "06"))),
    ("no epochs", image(COUNTER, epochs=0), done(0)),
    ("no epochs, code never decoded", image("00000000", epochs=0), done(0)),
    ("limit one too small", image(COUNTER, epochs=4, limit=3), fault(0, 8, 0x0C)),
    ("limit just enough", image(COUNTER, epochs=4, limit=4), done(4, at(0x40, "06"))),
    ("word of all zeros", image("00000000"), fault(0, 1, 0)),
    ("FENCE.I is not in the table", image("0f100000"), fault(0, 1, 0)),
    ("ECALL", image("73000000"), fault(0, 2, 0)),
    ("EBREAK", image("73001000"), fault(0, 2, 0)),
    ("FENCE does nothing", image("0f00f00f" + RETURN), done(1)),
    ("FENCE is counted", image("0f00f00f" + RETURN, limit=1), fault(0, 8, 4)),
    ("FENCE with other bits set", image("8f8fffff" + RETURN), done(1)),
    ("misaligned store outside memory", image("a3200040"), fault(0, 5, 0)),
    ("a store before the fault stays", image("2320100423200000"),
     fault(0, 7, 4, at(0x40, "fcffffff"))),
    ("a misaligned store into code is misaligned first", image("a3201000"), fault(0, 5, 0)),
    ("LB extends the sign", image("830200042322500467800000", more="at 00000040 80ff\n"),
     done(1, at(0x40, "80ff000080ffffff"))),
    ("SLTIU compares with the sign-extended immediate",
     image("9332f0ff2320500467800000"), done(1, at(0x40, "01"))),
    ("JALR to END + 2", image("67802000"), fault(0, 4, 0)),
    ("JALR to END + 1", image("67801000"), done(1)),
    ("code that runs off its end", image("13000000"), fault(0, 3, 4)),
    ("the limit comes before the fetch", image("13000000", limit=1), fault(0, 8, 4)),
    ("the end comes before the limit", image(RETURN, limit=1), done(1)),
    ("the limit comes before the decode", image("1300000000000000", limit=1), fault(0, 8, 4)),
    ("last word of memory", image("232e100e67800000"), done(1, at(0xF0, "0" * 24 + "fcffffff"))),
    ("store just past memory", image("23200010"), fault(0, 7, 0)),
    ("load just past memory", image("83220010"), fault(0, 6, 0)),
    ("SRAI by 31", image("9352f341" + STORE_X5_RETURN, more="reg 6 80000000\n"),
     done(1, at(0x40, "ffffffff"))),
    ("JAL over a word of zeros", image("ef02800000000000" + STORE_X5_RETURN),
     done(1, at(0x40, "04"))),
    ("AUIPC at pc 0", image("97120000" + STORE_X5_RETURN), done(1, at(0x40, "0010"))),
    ("JAL that reaches END", image("6ff0dfff"), done(1)),
    ("BEQ that reaches END", image("e30e00fe"), done(1)),
    ("JAL to END - 4", image("6ff09fff"), fault(0, 3, 0xFFFFFFF8)),
    ("a misaligned JAL", image("13000000ef002000"), fault(0, 4, 4)),
    ("an untaken branch to a misaligned target", image("63110000" + RETURN), done(1)),
    ("a taken branch to a misaligned target", image("63010000" + RETURN), fault(0, 4, 0)),
    ("JALR reads its source before the link is written",
     image("93028000e78202001300000023205004" + RETURN), done(1, at(0x40, "08"))),
    ("a load into x0 still checks its address", image("03200010" + RETURN), fault(0, 6, 0)),
    ("a load into x0 leaves 0",
     image("032000042328000467800000", more="at 00000040 ff\nat 00000050 01\n"), done(1, at(0x50, "00"))),
    ("a load at the top of the address space", image("8322c0ff"), fault(0, 6, 0)),
    ("a store at the top of the address space", image("a30f00fe"), fault(0, 7, 0)),
    ("a misaligned load at the top of the address space", image("8312f0ff"), fault(0, 5, 0)),
    ("a misaligned load just past memory", image("83121010"), fault(0, 5, 0)),
    ("a byte store into the last byte of code", image("a3030000" + RETURN), fault(0, 7, 0)),
    ("a byte store just above the code", image("23040000" + RETURN, more="at 00000008 ff\n"),
     done(1, at(0, "23040000" + RETURN))),
    ("code as large as memory", image("13000000" * 3 + RETURN, size=16), done(1)),
    ("a store where code is all of memory", image("13000000" * 3 + "23260000", size=16), fault(0, 7, 0x0C)),
    ("the last word of the largest memory", image("b7020100" + "23aea2fe" + RETURN, epochs=2, size=65_536),
     done(2, at(0xFFF0, "0" * 24 + "01000000"))),
    ("just past the largest memory", image("b7020100" + "03a30200", size=65_536), fault(0, 6, 4)),
    ("as many epochs as there may be", image("2320a004" + RETURN, epochs=65_535),
     done(65_535, at(0x40, "feff0000"))),
    ("the largest limit", image("6f000000", limit=1_000_000), fault(0, 8, 0)),
    ("each epoch starts with the image's registers",
     image("131325002320f305938f1f00" + RETURN, epochs=2, more="reg 31 0000000a\n"),
     done(2, at(0x40, "0a0000000a000000"))),
    ("code is read as data", image("83220000" + STORE_X5_RETURN), done(1, at(0x40, "83220000"))),
    ("the second epoch faults, all stores before it stay",
     image("9302100023005504630405000000000067800000", epochs=2), fault(1, 1, 0x0C, at(0x40, "0101"))),
    ("the third epoch exits", image(SEARCH, epochs=8, more="exit\n"),
     exited(2, at(0x40, "000000000100000002"))),
    ("no epoch exits without the line", image(SEARCH, epochs=8),
     done(8, at(0x40, "00000000010000000200000003000000"), at(0x50, "04000000050000000600000007000000"))),
    ("the last epoch exits", image(SEARCH, epochs=3, more="exit\n"), exited(2, at(0x40, "000000000100000002"))),
    ("the first epoch exits", image("13051000" + RETURN, epochs=4, more="exit\n"), exited(0)),
    ("x10 is 0 at epoch 0, which goes on; epoch 1 exits",
     image("2320a004" + RETURN, epochs=4, more="exit\n"), exited(1, at(0x40, "01"))),
    ("x11 doesn't exit", image("9305100013050000" + RETURN, epochs=4, more="exit\n"), done(4)),
    ("a fault where x10 is not 0 is a fault", image("1305100000000000", epochs=4, more="exit\n"), fault(0, 1, 4)),
    ("no epochs, none exits", image("13051000" + RETURN, epochs=0, more="exit\n"), done(0)),
    ("version 2 of the first row", "version 2\n" + FOUR, done(4, at(0x40, "06"))),
    ("version 1 of the first row", "version 1\n" + FOUR, done(4, at(0x40, "06"))),
    ("the last word of the largest memory of version 2",
     "version 2\n" + image("b702100023ae12fe" + RETURN, size=1_048_576), done(1, at(0xFFFF0, "0" * 24 + "fcffffff"))),
    ("just past the largest memory of version 2", "version 2\n" + image("b702100003a30200", size=1_048_576),
     fault(0, 6, 4)),
    ("a row of 16 bytes in version 2", "version 2\n" + image("2320a0042322a006" + RETURN, epochs=2),
     done(2, at(0x40, "01"), at(0x60, "0000000001"))),
]

REFUSALS: list[Row] = [
    ("empty input", "", refused(0, "MissingOrRepeated")),
    ("odd number of digits in code", "size 256\nepochs 4\nlimit 100\ncode 8322000\n", refused(4, "Hex")),
    ("epochs too large", "size 256\nepochs 65536\n", refused(2, "Range")),
    ("at into code", FOUR + "at 00000000 00\n", refused(5, "Place")),
    ("second size", FOUR + "size 256\n", refused(5, "MissingOrRepeated")),
    ("x10 is not for the image", FOUR + "reg 10 00000000\n", refused(5, "Range")),
    ("x1 is not for the image", FOUR + "reg 1 00000000\n", refused(5, "Range")),
    ("x0 is not for the image", FOUR + "reg 0 00000000\n", refused(5, "Range")),
    ("seven digits", FOUR + "reg 5 0000000\n", refused(5, "Hex")),
    ("register twice", FOUR + "reg 5 00000001\n" * 2, refused(6, "MissingOrRepeated")),
    ("a leading zero", "size 0256\n", refused(1, "Line")),
    ("a space at the end", "size 256 \n", refused(1, "Line")),
    ("a space at the beginning", " size 256\n", refused(1, "Line")),
    ("two spaces", "size  256\n", refused(1, "Line")),
    ("a line of one space", " \n", refused(1, "Line")),
    ("a tab", "size\t256\n", refused(1, "Line")),
    ("code without digits", "size 256\ncode \n", refused(2, "Line")),
    ("carriage return after a number", "size 256\r\n", refused(1, "Line")),
    ("carriage return after digits", "size 256\ncode 67800000\r\n", refused(2, "Hex")),
    ("a line of one carriage return", "\r\n", refused(1, "Line")),
    ("a space before a remark", " # text\n", refused(1, "Line")),
    ("a byte past ASCII in a remark is skipped", b"# caf\xc3\xa9 \xff\n\nsize 1\n", refused(3, "Range")),
    ("a byte past ASCII in a word", b"size 25\xff\n", refused(1, "Line")),
    ("a byte past ASCII in digits", b"size 256\ncode 678000\xff0\n", refused(2, "Hex")),
    ("number of ten digits past 32 bits", "epochs 4294967296\n", refused(1, "Range")),
    ("number of eleven digits", "epochs 42949672960\n", refused(1, "Line")),
    ("a plus sign", "epochs +4\n", refused(1, "Line")),
    ("register number past 32 bits", "reg 4294967301 00000000\n", refused(1, "Range")),
    ("digits before range", "reg 40 zz\n", refused(1, "Hex")),
    ("repeated before range", FOUR + "size 1\n", refused(5, "MissingOrRepeated")),
    ("spelling before repeated", FOUR + "size 0256\n", refused(5, "Line")),
    ("order before digits", "code 6g\n", refused(1, "MissingOrRepeated")),
    ("repeated register before digits", FOUR + "reg 5 00000000\nreg 5 zz\n",
     refused(6, "MissingOrRepeated")),
    ("half a byte", FOUR + "at 00000000 0\n", refused(5, "Hex")),
    ("code longer than memory", "size 16\ncode " + "00" * 20 + "\n", refused(2, "Range")),
    ("code of half a word", "size 16\ncode 0000\n", refused(2, "Range")),
    ("at above size", "at 00000040 00\n", refused(1, "MissingOrRepeated")),
    ("at above code", "size 256\nat 00000040 00\n", refused(2, "MissingOrRepeated")),
    ("at past memory", FOUR + "at 000000ff 0000\n", refused(5, "Place")),
    ("at far outside", FOUR + "at ffffffff 0000\n", refused(5, "Place")),
    ("size not a multiple of 16", "size 24\n", refused(1, "Range")),
    ("size 0", "size 0\n", refused(1, "Range")),
    ("size too large", "size 65552\n", refused(1, "Range")),
    ("limit 0", "limit 0\n", refused(1, "Range")),
    ("limit too large", "limit 1000001\n", refused(1, "Range")),
    ("unknown word", "sizes 256\n", refused(1, "Line")),
    ("exit with a second word", "exit 00000040\n", refused(1, "Line")),
    ("exit with a space at the end", "exit \n", refused(1, "Line")),
    ("a second exit", "exit\nexit\n", refused(2, "MissingOrRepeated")),
    ("version alone", "version\n", refused(1, "Line")),
    ("version of three words", "version 2 2\n", refused(1, "Line")),
    ("version spelled wrong", "version 02\n", refused(1, "Line")),
    ("version 3", "version 3\n", refused(1, "Range")),
    ("version 0", "version 0\n", refused(1, "Range")),
    ("a version past 32 bits", "version 4294967298\n", refused(1, "Range")),
    ("a second version", "version 2\nversion 2\n", refused(2, "MissingOrRepeated")),
    ("version below size", "size 256\nversion 2\n", refused(2, "MissingOrRepeated")),
    ("version below epochs", "epochs 4\nversion 1\n", refused(2, "MissingOrRepeated")),
    ("version below limit", "limit 4\nversion 1\n", refused(2, "MissingOrRepeated")),
    ("version below reg", "reg 5 00000000\nversion 1\n", refused(2, "MissingOrRepeated")),
    ("version below exit", "exit\nversion 1\n", refused(2, "MissingOrRepeated")),
    ("version below a remark", "# text\n\nversion 2\nsize 240\n", refused(4, "Range")),
    ("another version below size is repeated first", "size 256\nversion 3\n", refused(2, "MissingOrRepeated")),
    ("spelling of a version below size", "size 256\nversion x\n", refused(2, "Line")),
    ("version 2, size not a multiple of 32", "version 2\nsize 240\n", refused(2, "Range")),
    ("version 2, size 16", "version 2\nsize 16\n", refused(2, "Range")),
    ("version 2, size too large", "version 2\nsize 1048608\n", refused(2, "Range")),
    ("version 1, a size of version 2", "version 1\nsize 1048576\n", refused(2, "Range")),
    ("a size of version 2 without a version", "size 131072\n", refused(1, "Range")),
    ("too many words", "size 256 256\n", refused(1, "Line")),
    ("a missing line is told last", "size 256\nepochs 4\nlimit 100\n", refused(0, "MissingOrRepeated")),
    ("a fault below a missing line", "size 256\nsize 256\n", refused(2, "MissingOrRepeated")),
    ("code above size", "code 67800000\nsize 256\n", refused(1, "MissingOrRepeated")),
    ("number that is 256 past 32 bits", "size 4294967552\n", refused(1, "Range")),
    ("at of seven digits", FOUR + "at 0000004 00\n", refused(5, "Hex")),
    ("at without bytes", FOUR + "at 00000040 \n", refused(5, "Line")),
    ("at of one word", FOUR + "at 00000040\n", refused(5, "Line")),
    ("at into the last byte of code", FOUR + "at 0000000f 00\n", refused(5, "Place")),
    ("at just past memory", FOUR + "at 00000100 00\n", refused(5, "Place")),
    ("x32 is no register", FOUR + "reg 32 00000000\n", refused(5, "Range")),
    ("spelling of a register before its digits", FOUR + "reg 05 zz\n", refused(5, "Line")),
    ("text too long", "#" * 1_048_577, refused(0, "TooLong")),
    ("text just short enough", "#" * 1_048_576, refused(0, "MissingOrRepeated")),
]

ACCEPTED: list[Row] = [
    ("no line feed at the end", FOUR[:-1], done(4, at(0x40, "06"))),
    ("empty lines and remarks", "\n# a remark\n\n" + FOUR.replace("\n", "\n\n#\n"), done(4, at(0x40, "06"))),
    ("digits of either case", image(COUNTER.upper(), epochs=4), done(4, at(0x40, "06"))),
    ("other order of lines", f"limit 100\nreg 5 ffffffff\nsize 256\ncode {COUNTER}\nepochs 4\n",
     done(4, at(0x40, "06"))),
    ("a later at line wins", FOUR + "at 00000040 0a0b\nat 00000041 00\n", done(4, at(0x40, "10"))),
    ("at up to the last byte", FOUR + "at 000000ff 01\n", done(4, at(0x40, "06"))),
]

USAGE: list[list[str | bytes]] = [["x"], [], ["help"], ["audit", "x"], ["audit", "--help"], ["AUDIT"], ["seq", "audit"],
                                  ["seq", "--help"], ["seq", "x"], ["SEQ"], ["--help"], ["--version"], ["run"],
                                  ["run", "--cores", "9"],
         # words that are no UTF-8
         [b"\xff"], [b"seq\xff"], ["seq", b"\xc3"]]

# Words that ./trace_cli answers itself, with a page of help.
WRAPPERS_OWN: list[list[str | bytes]] = [[], ["--help"]]
# No run of the tests takes a minute; one that has no answer after so many seconds hangs.
MOST_SECONDS = 600


def run(command: Sequence[str], words: Sequence[str | bytes], text: str | bytes) -> Outcome:
    """Standard output, standard error and status of a call."""
    data = text if isinstance(text, bytes) else text.encode("ascii")
    result = called_bytes([*command, *words], data, MOST_SECONDS)
    return result.stdout.decode("latin-1"), result.stderr.decode("latin-1"), result.returncode


def rows(script: Script) -> Iterator[Check]:
    """Rows of runs, and words that ask for none."""
    program = script.command()[:-1]
    for name, text, expected in RUNS + REFUSALS + ACCEPTED:
        yield name, differs(run(program, ["seq"], text), expected)
    own = [] if script.words else WRAPPERS_OWN
    for words in (words for words in USAGE if words not in own):
        yield f"words {words}", differs(run(program, words, FOUR), ("", "usage\n", 2))


def main() -> int:
    script = Script()
    script.run(partial(rows, script))
    return script.ended("rows")


if __name__ == "__main__":
    sys.exit(main())
