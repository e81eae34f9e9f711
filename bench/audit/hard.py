#!/usr/bin/env python3
"""Seconds and memory of `why` against those of `trace_cli audit`, on traces that are hard to explain.

    bench/audit/hard.py [FORM ..]            measures the forms, or those that are named
    bench/audit/hard.py FORM ENTRIES > FILE  writes the image of a form, and a trace of so many entries below it

The forms: `stores`, one long attempt, each of whose stores violates the epoch after it by false sharing; `both`, the
same, and its last store is to the bytes that all had read; `pairs`, each store is another instruction, and violates
fifteen epochs, each of which loads by one of its own; `notices`, nothing but one epoch that is violated and begun
again; `bytes`, one violation with many bytes, read one by one.

Build the programs first, by calling ./trace_cli and ./why. Both take turns, three times. The status is 1 where `why`
takes more than MOST times the audit's processor time at any length, or answers with anything but status 0. Needs GNU
time, /usr/bin/time.
"""
import pathlib
import statistics
import subprocess
import sys
import tempfile
from collections.abc import Callable
from typing import NamedTuple

ROOT = pathlib.Path(__file__).resolve().parents[2]
AUDIT = ROOT / "crates" / "trace_cli" / "out" / "trace_cli"
WHY = ROOT / "crates" / "why" / "out" / "why"
SIZES = [10_000, 100_000, 1_000_000]
ROUNDS = 3
MOST = 20
RETURN = 0x00008067  # jalr x0, 0(x1)
DATA = 0x80000


class Form(NamedTuple):
    """The text of an image, and a history of it: on how many cores, and its entries."""

    image: str
    cores: int
    entries: list[str]


class Run(NamedTuple):
    """Of a run of a program its status, its processor seconds, and the most memory that it held, in kilobytes."""

    status: int
    seconds: float
    most: int


def i_type(opcode: int, kind: int, rd: int, rs: int, value: int) -> int:
    return (value & 0xFFF) << 20 | rs << 15 | kind << 12 | rd << 7 | opcode


def lw(rd: int, rs: int, offset: int) -> int:
    return i_type(0x03, 2, rd, rs, offset)


def lb(rd: int, rs: int, offset: int) -> int:
    return i_type(0x03, 0, rd, rs, offset)


def addi(rd: int, rs: int, value: int) -> int:
    return i_type(0x13, 0, rd, rs, value)


def slli(rd: int, rs: int, by: int) -> int:
    return i_type(0x13, 1, rd, rs, by)


def lui(rd: int, value: int) -> int:
    return value << 12 | rd << 7 | 0x37


def s_type(kind: int, rs: int, value: int, offset: int) -> int:
    return (offset >> 5 & 0x7F) << 25 | value << 20 | rs << 15 | kind << 12 | (offset & 0x1F) << 7 | 0x23


def sw(value: int, rs: int, offset: int) -> int:
    return s_type(2, rs, value, offset)


def sb(value: int, rs: int, offset: int) -> int:
    return s_type(0, rs, value, offset)


def bne(rs: int, other: int, offset: int) -> int:
    return ((offset >> 12 & 1) << 31 | (offset >> 5 & 0x3F) << 25 | other << 20 | rs << 15 | 1 << 12
            | (offset >> 1 & 0xF) << 8 | (offset >> 11 & 1) << 7 | 0x63)


def jal(offset: int) -> int:
    return ((offset >> 20 & 1) << 31 | (offset >> 1 & 0x3FF) << 21 | (offset >> 11 & 1) << 20
            | (offset >> 12 & 0xFF) << 12 | 0x6F)


def image(words: list[int], epochs: int, count: int) -> str:
    """The text of an image of this code, whose epochs may take so many instructions."""
    code = b"".join(word.to_bytes(4, "little") for word in words).hex()
    return f"version 2\nsize 1048576\nepochs {epochs}\nlimit {count}\ncode {code}\n"


def stores(count: int) -> Form:
    """One long attempt, each of whose stores violates the epoch after it, by false sharing."""
    words = [bne(10, 0, 12), sw(0, 0, 0x7C0), jal(-4), lw(5, 0, 0x7C4), RETURN]
    entries = ["0 start 0", "1 start 1"]
    while len(entries) < count:
        entries += ["1 load 000007c4 4 00000000", "0 hurt 1", "0 store 000007c0 4 00000000", "1 restart"]
    return Form(image(words, 2, count), 2, entries[:count])


def both(count: int) -> Form:
    """The same, but the attempt also stores to the other word at its end: each violation came true later."""
    words = [bne(10, 0, 24), addi(5, 5, 1), sw(0, 0, 0x7C0), bne(5, 6, -8), sw(0, 0, 0x7C4), RETURN, lw(5, 0, 0x7C4),
             RETURN]
    entries = ["0 start 0", "1 start 1"]
    turns = max((count - 4) // 4, 1)
    for _ in range(turns):
        entries += ["1 load 000007c4 4 00000000", "0 hurt 1", "0 store 000007c0 4 00000000", "1 restart"]
    text = image(words, 2, count) + f"reg 6 {turns:08x}\n"
    return Form(text, 2, [*entries, "0 store 000007c4 4 00000000"])


def bytes_of(count: int) -> Form:
    """One violation with many bytes: an epoch publishes bytes that the one after it had read one by one. The limit of
    an epoch bounds them."""
    words = [lui(5, DATA >> 12), addi(6, 0, 1), bne(10, 0, 16), sb(6, 5, 0), addi(5, 5, 1), jal(-8), lb(7, 5, 0),
             addi(5, 5, 1), jal(-8)]
    half = min((count - 4) // 2, 330_000)
    entries = ["0 start 0", "1 start 1", *(f"1 load {DATA + i:08x} 1 00000000" for i in range(half)),
               *(f"0 store {DATA + i:08x} 1 00000001" for i in range(half))]
    return Form(image(words, 2, 1_000_000), 2, [*entries, "0 hurt 1", "0 publish"])


def pairs(count: int) -> Form:
    """Many pairs of instructions: each store of one attempt is another instruction, and violates fifteen epochs, each
    of which loads by an instruction of its own."""
    times = max(count // 46, 1)
    # a jump to 8 + 8 * epoch; there epoch 0 jumps past the loads of the others
    words = [slli(5, 10, 3), i_type(0x67, 0, 0, 5, 8), jal(8 * 16), RETURN]
    words += [lw(6, 28, 0), RETURN] * 15 + [sw(10, 28, 0)] * times + [RETURN]
    entries = [f"{core} start {core}" for core in range(16)]
    for _ in range(times):
        entries += [f"{core} load 000ffff0 4 00000000" for core in range(1, 16)]
        entries += [f"0 hurt {core}" for core in range(1, 16)]
        entries += ["0 store 000ffff0 4 00000000"]
        entries += [f"{core} restart" for core in range(1, 16)]
    return Form(image(words, 16, times + 100) + "reg 28 000ffff0\n", 16, entries)


def notices(count: int) -> Form:
    """Violations without a cause: nothing but one epoch that is violated and begun again."""
    entries = ["0 start 0", "1 start 1"]
    while len(entries) < count:
        entries += ["0 hurt 1", "1 restart"]
    return Form(image([RETURN], 2, 10), 2, entries[:count])


FORMS: dict[str, Callable[[int], Form]] = {
    "stores": stores, "both": both, "bytes": bytes_of, "pairs": pairs, "notices": notices,
}


def text_of(name: str, count: int) -> str:
    form = FORMS[name](count)
    return f"{form.image}trace {form.cores}\n" + "\n".join(form.entries) + "\n"


def measured(file: pathlib.Path, *command: str | pathlib.Path) -> Run:
    """A run of a program on a file."""
    with open(file, "rb") as stdin:
        done = subprocess.run(["/usr/bin/time", "-f", "%U %S %M", *command], stdin=stdin, stdout=subprocess.DEVNULL,
                              stderr=subprocess.PIPE, text=True, check=False)
    user, system, most = done.stderr.split("\n")[-2].split()
    return Run(done.returncode, float(user) + float(system), int(most))


def measure(form: str, count: int, folder: str) -> bool:
    """A row of the table, and whether it may be so."""
    file = pathlib.Path(folder, "trace")
    text = text_of(form, count)
    file.write_text(text)
    entries = text.partition("\ntrace ")[2].count("\n") - 1
    runs = [(measured(file, AUDIT, "audit"), measured(file, WHY)) for _ in range(ROUNDS)]
    audited, told = (statistics.median(run.seconds for run in one) for one in zip(*runs))
    audit_most, why_most = (max(run.most for run in one) for one in zip(*runs))
    sound = all(run.status == 0 for both_runs in runs for run in both_runs)
    size = file.stat().st_size / 1e6
    print(f"{form:8}{entries:10,}{size:7.1f}{audited:10.2f}{told:9.2f}{told / max(audited, 0.01):9.1f}"
          f"{audit_most / 1024:12.1f}{why_most / 1024:10.1f}", flush=True)
    return sound and told <= MOST * max(audited, 0.01)


def main(words: list[str]) -> int:
    if len(words) == 2 and words[1].isdigit():
        sys.stdout.write(text_of(words[0], int(words[1])))
        return 0
    print("form       entries     MB  audit, s   why, s    ratio   audit, MB   why, MB")
    with tempfile.TemporaryDirectory() as folder:
        fine = [measure(form, count, folder) for form in words or FORMS for count in SIZES]
    return 0 if all(fine) else 1


if __name__ == "__main__":
    sys.exit(main(sys.argv[1:]))
