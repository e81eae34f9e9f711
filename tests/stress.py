#!/usr/bin/env python3
"""Runs random loops on threads, many times: no difference from `seq`, no trace that the audit refuses, no hang.

Usage: tests/stress.py [--only WORD] [--seed S] [--count N] [--limit SECONDS] [--jobs J] [--keep DIR] [COMMAND ..]

COMMAND reads its standard input and ends with the word `seq`, in whose place
`run --cores N --trace` and `audit` are put; without it `./trace_cli seq` of
this repository is tested. Loop number I of seed S is always the same text on
the same number of cores, 1 to 16, but its threads run as the machine lets them.
Each run has to print the report that `seq` prints, with its status, then counts
that its trace gives; `audit` has to find the trace legal, up to the end. A run
that takes longer than the limit is a hang. The first loop that differs is
written to DIR as stress-S-I.image, and ends the test with status 1.

10,000 runs take about five minutes; the gate doesn't run them.
"""

import argparse
import random
import sys
import time
from collections import Counter
from collections.abc import Iterator
from concurrent.futures import ThreadPoolExecutor
from functools import partial
from pathlib import Path
from typing import NamedTuple

from common import ROOT, TOO_LONG, Check, Script, called_bytes, kept, to_first_failure

sys.path.insert(0, str(ROOT / "tests" / "model"))

import audit_fuzz  # noqa: E402
import fuzz  # noqa: E402
from fuzz import MATCH, RETURN, word_of_b, word_of_i, word_of_s  # noqa: E402
from rv32_seq import Outcome  # noqa: E402

COUNTED = ("load", "store", "restart", "commit")


# --- Loops -----------------------------------------------------------------

def conflicting(rng: random.Random) -> list[int]:
    """Epochs that often touch the same bytes; some exit, some fault."""
    return audit_fuzz.conflicting(rng)


def counting(rng: random.Random) -> list[int]:
    """Epochs that count in one of a few words, so that each third or so has a conflict."""
    words = [word_of_i(MATCH["andi"], 5, 10, rng.choice([0, 1, 3, 7])),
             MATCH["slli"] | 5 << 7 | 5 << 15 | rng.choice([0, 2, 4]) << 20]
    name = rng.choice([("lw", "sw"), ("lbu", "sb")])
    if name[0] == "lw":
        words.append(word_of_i(MATCH["andi"], 5, 5, -4))
    return words + [word_of_i(MATCH[name[0]], 6, 5, 64), word_of_i(MATCH["addi"], 6, 6, 1),
                    word_of_s(MATCH[name[1]], 5, 6, 64), RETURN]


def waiting(rng: random.Random) -> list[int]:
    """Epochs that wait for a word that the one before them sets."""
    words = [MATCH["slli"] | 5 << 7 | 10 << 15 | 2 << 20, word_of_b(MATCH["beq"], 10, 0, 12),
             word_of_i(MATCH["lw"], 6, 5, 60), word_of_b(MATCH["beq"], 6, 0, -4)]
    if rng.random() < 0.3:  # the epoch with this number is the last one
        words.append(word_of_i(MATCH["sltiu"], 10, 10, rng.randint(1, 8)))
        words.append(word_of_i(MATCH["xori"], 10, 10, 1))
    return words + [word_of_i(MATCH["addi"], 6, 0, 1), word_of_s(MATCH["sw"], 5, 6, 64), RETURN]


def loop_of(rng: random.Random) -> tuple[bytes, int]:
    """The text of an image, and on how many cores it runs."""
    version = rng.choice([None, 1, 2])
    cores = rng.randint(1, 16 if version == 2 else 8)
    if rng.random() < 0.2:
        return fuzz.dressed(rng, fuzz.well_formed(rng)), rng.randint(1, 8)
    words = rng.choice([conflicting, counting, waiting])(rng)
    code = b"".join(word.to_bytes(4, "little") for word in words).hex()
    lines = [f"version {version}"] if version else []
    lines += ["size 256", f"epochs {rng.choice([0, 1, 2, 5, 8, 20, 40])}", f"limit {rng.choice([3, 8, 50, 50, 200])}",
              f"code {code}"]
    if rng.random() < 0.3:
        lines.append("exit")
    if rng.random() < 0.3:
        lines.append(f"at 00000040 {rng.randbytes(8).hex()}")
    return ("\n".join(lines) + "\n").encode("latin-1"), cores


# --- Comparing -------------------------------------------------------------

class Ran(NamedTuple):
    """What is wrong with a run, or None; and how many entries and restarts it had."""

    wrong: str | None
    entries: int = 0
    restarts: int = 0


# How many entries and restarts there were.
seen: Counter[str] = Counter()


def outcome_of(program: list[str], words: list[str], text: bytes, limit: float) -> Outcome:
    result = called_bytes(program + words, text, limit)
    return result.stdout.decode("latin-1"), result.stderr.decode("latin-1"), result.returncode


def ran(program: list[str], text: bytes, cores: int, limit: float) -> Ran:
    """A run of this loop."""
    expected = outcome_of(program, ["seq"], text, limit)
    output, errors, status = outcome_of(program, ["run", "--cores", str(cores), "--trace"], text, limit)
    report, below = output[:len(expected[0])], output[len(expected[0]):]
    if TOO_LONG in (status, expected[2]) or (report, errors, status) != expected:
        return Ran(f"run {(report, errors, status)}, seq {expected}")
    if status > 1:
        return Ran(f"below a refusal: {below!r}" if below else None)
    counts, _, trace = below.partition("\n")
    entries = [line.split()[1] for line in trace.splitlines()[1:]]
    wanted = " ".join(["counts"] + [str(entries.count(word)) for word in COUNTED])
    if counts != wanted:
        return Ran(f"{counts!r}, and its trace gives {wanted!r}")
    verdict = outcome_of(program, ["audit"], text + b"\n" + trace.encode("latin-1"), limit)
    words = expected[0].split("\n", 1)[0].split()
    homefree = int(words[2]) + (1 if words[1] == "exit" else 0)
    if verdict != (f"legal {len(entries)} {homefree}\n", "", 0):
        return Ran(f"the audit of its trace says {verdict}")
    return Ran(None, len(entries), entries.count("restart"))


def case(seed: str, index: int) -> tuple[bytes, int]:
    """One loop, and on how many cores it runs."""
    return loop_of(random.Random(f"stress/{seed}/{index}"))


def loops(given: argparse.Namespace, program: list[str]) -> Iterator[Check]:
    """Runs of the loops of a seed."""
    with ThreadPoolExecutor(given.jobs) as pool:
        runs = pool.map(lambda index: ran(program, *case(given.seed, index), given.limit), range(given.count))
        try:
            for index, (wrong, entries, restarts) in enumerate(runs):
                seen.update(entries=entries, restarts=restarts)
                name, (text, cores) = f"stress-{given.seed}-{index}", case(given.seed, index)
                yield f"{name} on {cores} cores", wrong and kept(given.keep, f"{name}.image", text, wrong)
        finally:
            pool.shutdown(cancel_futures=True)


def stressed(given: argparse.Namespace, program: list[str]) -> Iterator[Check]:
    """The same up to the first that differs."""
    return to_first_failure(loops(given, program))


def arguments(words: list[str]) -> argparse.Namespace:
    parser = argparse.ArgumentParser(description="Runs random loops on threads, many times.")
    parser.add_argument("--seed", default="1")
    parser.add_argument("--count", type=int, default=10_000)
    parser.add_argument("--limit", type=float, default=60, help="the seconds after which a run hangs")
    parser.add_argument("--jobs", type=int, default=4, help="how many loops run at a time")
    parser.add_argument("--keep", type=Path, default=Path("."))
    parser.add_argument("command", nargs=argparse.REMAINDER)
    return parser.parse_args(words)


def main() -> int:
    script = Script()
    given = arguments(script.words)
    begun = time.monotonic()
    script.run(partial(stressed, given, (given.command or [str(ROOT / "trace_cli"), "seq"])[:-1]))
    print(f"seed {given.seed}: {seen['entries']} entries, {seen['restarts']} restarts, "
          f"{time.monotonic() - begun:.0f} seconds")
    return script.ended("runs")


if __name__ == "__main__":
    sys.exit(main())
