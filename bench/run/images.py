"""The loops of this bench, as image texts."""
import sys
from pathlib import Path

ROOT = Path(__file__).resolve().parents[2]
sys.path.insert(0, str(ROOT / "tests" / "model"))

from fuzz import MATCH, RETURN, word_of_b, word_of_i, word_of_s  # noqa: E402

# Registers of the bodies below.
NUMBER, BASE, COUNT, VALUE = 10, 5, 6, 7
# A word that epochs share, and the first word of the regions that they have for themselves, of 128 bytes each.
SHARED, OWN = 1024, 2048
# How many instructions lie from one access to the next.
BETWEEN = 10


def addi(rd: int, rs1: int, value: int) -> int:
    return word_of_i(MATCH["addi"], rd, rs1, value)


def text(words: list[int], epochs: int, version: int = 1) -> bytes:
    code = b"".join(word.to_bytes(4, "little") for word in words).hex()
    return f"version {version}\nsize 65536\nepochs {epochs}\nlimit 1000000\ncode {code}\n".encode("ascii")


def own_region(regions: int = 256) -> list[int]:
    """The base of the region of this epoch, one of so many, a power of two up to 256, into BASE."""
    return [word_of_i(MATCH["andi"], BASE, NUMBER, regions - 1), MATCH["slli"] | BASE << 7 | BASE << 15 | 7 << 20]


def filling(count: int) -> list[int]:
    """So many instructions that touch no memory."""
    return [addi(VALUE, VALUE, 1)] * count


def computing(epochs: int) -> bytes:
    """Epochs that execute 999,996 instructions or so and then store one word."""
    upper = 499_990 + 0x800 >> 12
    return text([MATCH["lui"] | COUNT << 7 | upper << 12, addi(COUNT, COUNT, 499_990 - (upper << 12)),
                 addi(COUNT, COUNT, -1), word_of_b(MATCH["bne"], COUNT, 0, -4)]
                + own_region() + [word_of_s(MATCH["sw"], BASE, NUMBER, OWN - 1024), RETURN], epochs)


def accessing(epochs: int, rounds: int, conflict: bool, version: int = 1, regions: int = 256) -> bytes:
    """Epochs of so many rounds, each of a load and a store with BETWEEN instructions from access to access, in one of
    so many regions, of which one line is touched. With a conflict each even epoch stores the shared word last, and each
    odd one loads it first. More than 8 cores need version 2."""
    body = own_region(regions)
    if conflict:
        body += [word_of_i(MATCH["andi"], COUNT, NUMBER, 1), word_of_b(MATCH["beq"], COUNT, 0, 8),
                 word_of_i(MATCH["lw"], VALUE, 0, SHARED)]
    body += [addi(COUNT, 0, rounds)]
    loop = [word_of_i(MATCH["lw"], VALUE, BASE, OWN - 1024)] + filling(BETWEEN - 1)
    loop += [word_of_s(MATCH["sw"], BASE, VALUE, OWN - 1024)] + filling(BETWEEN - 3) + [addi(COUNT, COUNT, -1)]
    body += loop + [word_of_b(MATCH["bne"], COUNT, 0, -4 * len(loop))]
    if conflict:
        body += [word_of_i(MATCH["andi"], COUNT, NUMBER, 1), word_of_b(MATCH["bne"], COUNT, 0, 8),
                 word_of_s(MATCH["sw"], 0, NUMBER, SHARED)]
    return text(body + [RETURN], epochs, version)


def committed_entries(epochs: int, rounds: int, conflict: bool) -> int:
    """How many entries the attempts that commit have: each a start or a restart, its accesses, a commit."""
    return epochs * (2 + 2 * rounds + (1 if conflict else 0))
