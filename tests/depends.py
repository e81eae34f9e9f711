#!/usr/bin/env python3
"""The program `depends` on all examples and on random loops: the rows of tests/depends.txt, schedules that show what it
tells, seeds that never violate anything where it says never, and refusals.

Usage: tests/depends.py [--many N] [COMMAND ..]

COMMAND is a command of `trace_cli` that ends with the word `seq`, such as crates/trace_cli/out/trace_cli seq;
`depends`, `replay` and `why` are the programs that were built beside it. Without it those of this repository are
tested. Where no such program is beside it the test is left out, and a line says so. N random loops are compared with
the reference model, model/dependences.py, 60 without it. Exits with 1 where an outcome differs.
"""

import argparse
import random
import sys
from collections import Counter
from collections.abc import Iterable, Iterator
from functools import partial
from typing import NamedTuple

from common import ROOT, Row, Script, beside, called, comparing, left_out
from seq_rows import image, run

sys.path.insert(0, str(ROOT / "tests" / "model"))

import dependences as model  # noqa: E402
import rv32_seq  # noqa: E402
from fuzz import MATCH, RETURN, word_of_b, word_of_i, word_of_s  # noqa: E402
from stress import loop_of  # noqa: E402

STORES = ["caches", "plain"]
COUNTER = image("83220004938212002320500467800000", epochs=4, limit=50)


class Known(NamedTuple):
    """An example, on how many cores and over which stores it is looked at, and the lines that have to be printed, but
    for those that begin with `dep` and `turns`."""
    name: str
    cores: str
    stores: list[str]
    lines: list[str]


ROWS = [
    Known("own_counters", "5", ["plain"], ["from plain 5 epoch 4 load 00000014 by epoch 0 store 00000034"]),
    Known("own_counters", "4", ["plain"], ["never plain 4"]),
    Known("padded_counters", "4", [], ["never caches 4", "never plain 4"]),
    Known("past_exit", "2", ["plain", "caches"], ["never plain 2", "never caches 2"]),
    Known("past_exit", "3", ["caches"], ["from caches 3 epoch 2 load 00000014 by epoch 1 store 00000008"]),
    Known("shift_left", "1", [], ["never caches 1", "never plain 1"]),
]
# The lines `dep`, and of each store its line and that of turns
Told = tuple[list[str], dict[str, tuple[str, str | None]]]


class Programs(NamedTuple):
    """The commands of the programs."""
    depends: list[str]
    replay: list[str]
    why: list[str]


# How often a random loop was told so of a store, and what else is told.
seen: Counter[str] = Counter()


# --- What a schedule shows ---------------------------------------------------

def violated(traced: str) -> Iterator[tuple[int, int]]:
    """Of each `hurt` of a trace the epoch that is violated, and the one whose core did it."""
    running: dict[str, int] = {}
    for line in traced.partition("\ntrace ")[2].splitlines()[1:]:
        core, what, *rest = line.split()
        if what == "start":
            running[core] = int(rest[0])
        elif what == "hurt":
            yield int(rest[0]), running[core]


def check_shown(at: str, programs: Programs, text: str, told: str, turns: str) -> Iterator[Row]:
    """A line `from`: its turns make one violation, at the last of them, and `why` says of it what the line says."""
    words = told.split()
    output, errors, status = run(programs.replay, words[1:3], f"{text}\n{turns}\n")
    yield (f"{at}: replay", (errors, status in (0, 1)), ("", True))
    first = next(violated(output), None)
    said = run(programs.why, [], f"{text}\ntrace {output.partition(chr(10) + 'trace ')[2]}")[0].split()
    load, store = (["load", said[24]], ["store", said[27]]) if said[22:23] == ["load"] else (["buffer"], [])
    yield (f"{at}: what the turns show", words[3:],
           ["epoch", str(first and first[0]), *load, "by", "epoch", str(first and first[1]), *store])
    output = run(programs.replay, words[1:3], f"{text}\n{turns.rpartition(' ')[0]}\n")[0]
    yield (f"{at}: a turn less", list(violated(output)), [])


def check_never(at: str, replay: list[str], text: str, store: str, cores: int, seeds: Iterable[int]) -> Iterator[Row]:
    """Where never is told: no seed and no short schedule violates anything."""
    if cores < 2:
        return
    for seed in seeds:
        output, errors, _ = run(replay, ["seeded", str(seed), store, str(cores)], text)
        yield (f"{at}: seed {seed}", (errors, list(violated(output))), ("", []))
    output, errors, _ = run(replay, ["all", store, "2", "8"], text)
    most = next((line for line in output.splitlines() if line.startswith("most ")), "most 0")
    yield (f"{at}: each schedule of 8 turns", (errors, most), ("", "most 0"))


def conflicting(loop: model.Loop, store: str, cores: int) -> set[tuple[int, int]]:
    """The pairs of epochs, the later one first, that conflict on so many cores by the model."""
    pairs = {(met.later, met.earlier) for met in model.MET[store](loop, cores)}
    return pairs | set(model.overflows(loop, cores) if store == "caches" else [])


# --- One loop ------------------------------------------------------------------

def told_of(output: str, stores: list[str]) -> Told | None:
    """The lines `dep`, and for each store its line and the line of turns, or None where they aren't that."""
    lines = output.splitlines()
    deps = [line for line in lines if line.startswith("dep ")]
    rest = lines[len(deps):]
    found: dict[str, tuple[str, str | None]] = {}
    for store in stores:
        line = rest.pop(0) if rest else ""
        turns = rest.pop(0) if line.startswith("from ") and rest else None
        if line.split()[1:2] != [store] or (turns is not None and not turns.startswith("turns ")):
            return None
        found[store] = (line, turns)
    return None if rest or lines[:len(deps)] != deps else (deps, found)


def check_loop(programs: Programs, name: str, text: str, cores: int, deps: list[str], leasts: dict[str, int | None],
               seeds: Iterable[int]) -> Iterator[Row]:
    """What is told of a loop on up to so many cores. `leasts` has for each store the least number with a conflict, or
    None."""
    printed = run(programs.depends, [str(cores)], text)
    yield (f"{name}: again", run(programs.depends, [str(cores)], text), printed)
    told = told_of(printed[0], STORES)
    yield (f"{name}: status, lines", (printed[1:], told is None), (("", 0), False))
    if told is None:
        return
    yield (f"{name}: dependences", told[0], deps)
    loop = model.Loop(rv32_seq.image_of(text.encode("latin-1")))
    for store in STORES:
        line, turns = told[1][store]
        at, words, least = f"{name} {store}", line.split(), leasts[store]
        yield (f"{at}: from how many cores", words[2] if words[0] != "never" else line,
               str(least) if least else f"never {store} {cores}")
        seen[f"{words[0]} {store}"] += 1
        if words[0] == "never":
            yield from check_never(at, programs.replay, text, store, cores, seeds)
        if turns is not None:
            yield (f"{at}: a conflict {line}",
                   (int(words[4]), int(words[9 if "load" in words else 8])) in conflicting(loop, store, int(words[2])),
                   True)
            yield from check_shown(at, programs, text, line, turns)


# --- Examples and rows -----------------------------------------------------------

@comparing
def check_examples(programs: Programs) -> Iterator[Row]:
    deps: dict[str, list[str]] = {}
    leasts: dict[str, dict[str, int | None]] = {}
    for row in (ROOT / "tests/depends.txt").read_text().splitlines():
        name, kind, *rest = row.split()
        if kind == "dep":
            deps.setdefault(name, []).append(row.partition(" ")[2])
        elif name != "#" and kind in STORES:
            leasts.setdefault(name, {})[kind] = None if rest == ["never"] else int(rest[1])
    files = {path.stem: path.read_text() for path in (ROOT / "examples").glob("*.image")}
    yield ("the examples of depends.txt", sorted(leasts), sorted(files))
    for name in sorted(leasts):
        cores = 16 if "\nversion 2\n" in f"\n{files[name]}" else 8
        yield from check_loop(programs, name, files[name], cores, deps.get(name, []), leasts[name], [1, 2])


@comparing
def check_rows(programs: Programs) -> Iterator[Row]:
    for name, cores, stores, wanted in ROWS:
        output, errors, status = run(programs.depends, [cores, *stores], (ROOT / f"examples/{name}.image").read_text())
        got = [line for line in output.splitlines() if not line.startswith(("dep ", "turns "))]
        yield (f"{name} on {cores} cores over {stores}", (got, errors, status), (wanted, "", 0))


@comparing
def check_words(depends: list[str]) -> Iterator[Row]:
    for words in (["0"], ["17"], ["x"], ["2", "other"], ["-1"], ["2", "caches", "2"], ["2", "plain", "caches:sets"],
                  ["caches"]):
        yield (f"words {words}", run(depends, words, COUNTER), ("", "usage\n", 2))
    yield ("more cores than version 1 allows", run(depends, ["9"], COUNTER), ("", "usage\n", 2))
    yield ("an image that is refused", run(depends, ["2"], "size 1\n"), ("", "image 1 Range\n", 2))
    yield ("no epochs", run(depends, ["2"], image("67800000", epochs=0)), ("never caches 2\nnever plain 2\n", "", 0))
    with open("/dev/full", "w", encoding="ascii") as full:
        done = called([*depends, "2"], COUNTER, stdout=full)
    yield ("a write that fails", (done.stderr, done.returncode), ("stopped Write\n", 3))


# --- Random loops ------------------------------------------------------------------

def access(rng: random.Random, places: list[int]) -> list[int]:
    """A load or store of a place that epochs share, or that follows from the epoch's number; sometimes one at an
    address from memory."""
    base, at = rng.choice([0, 0, 0, 5, 5]), rng.choice(places)
    narrow = at % 4 != 0 or rng.random() < 0.15
    base = 10 if narrow and base else base
    if rng.random() < 0.1:
        return [word_of_i(MATCH["lw"], 7, 0, 64), word_of_i(MATCH["andi"], 7, 7, 0x1C),
                rng.choice([word_of_s(MATCH["sw"], 7, 10, 64), word_of_i(MATCH["lw"], 6, 7, 64)])]
    if rng.random() < 0.5:
        return [word_of_i(MATCH["lbu" if narrow else "lw"], 6, base, at)]
    return [word_of_s(MATCH["sb" if narrow else "sw"], base, rng.choice([6, 10, 5, 0]), at)]


def small(rng: random.Random) -> tuple[bytes, int]:
    """The text of a loop of a few accesses, and on how many cores it is looked at."""
    wide = rng.random() < 0.2
    places = [64, 80, 96, 112, 128, 144, 192] if wide else [64, 68, 65, 72, 76, 80, 84, 128, 192]
    words = [MATCH["slli"] | 5 << 7 | 10 << 15 | rng.choice([0, 2, 2, 4, 4]) << 20]
    for _ in range(rng.randint(2, 8 if wide else 5)):
        chance = rng.random()
        words += ([word_of_i(MATCH["addi"], 6, 6, 1)] if chance < 0.1
                  else [word_of_b(MATCH["beq"], rng.choice([6, 10]), 0, 8)] if chance < 0.2
                  else access(rng, places))
    leaves = rng.random() < 0.3
    if leaves:
        words += [rng.choice([word_of_i(MATCH["sltiu"], 10, 10, rng.randint(0, 3)),
                              word_of_i(MATCH["andi"], 10, 6, 1)])]
        words += [word_of_i(MATCH["xori"], 10, 10, 1)] * rng.randint(0, 1)
    words += [word_of_i(MATCH["lw"], 8, 6, 1)] if rng.random() < 0.1 else []
    code = b"".join(word.to_bytes(4, "little") for word in [*words, word_of_i(MATCH["addi"], 0, 0, 0), RETURN]).hex()
    version = rng.choice([1, 1, 1, 2])
    lines = [f"version {version}", "size 512", f"epochs {rng.randint(2, 6)}",
             f"limit {rng.choice([rng.randint(3, 8), *[40] * 9])}"]
    # code lies below 64 where it is short; else the places are in it, and stores fault
    lines += [f"code {code}", *(["exit"] if leaves else []),
              *(["at 00000040 0700000004000000"] if len(code) <= 128 else [])]
    return ("\n".join(lines) + "\n").encode("ascii"), rng.choice([2, 3, 4, 8])


@comparing
def check_random(programs: Programs, count: int) -> Iterator[Row]:
    for index in range(count):
        rng = random.Random(f"depends/{index}")
        text, cores = small(rng) if rng.random() < 0.5 else loop_of(rng)
        try:
            image_read = rv32_seq.image_of(text)
        except rv32_seq.Refused as refused:
            yield (f"random {index}", run(programs.depends, [str(cores)], text),
                   ("", f"image {refused.line} {refused.name}\n", 2))
            continue
        loop = model.Loop(image_read)
        told = {store: model.store_line(loop, store, cores).split() for store in STORES}
        leasts = {store: None if words[0] == "never" else int(words[2]) for store, words in told.items()}
        yield from check_loop(programs, f"random {index}", text.decode("latin-1"), cores, list(model.dep_lines(loop)),
                              leasts, range(3))


@comparing
def no_words(depends: list[str]) -> Iterator[Row]:
    """In the place of which ./depends prints its page of help."""
    yield "no words", run(depends, [], COUNTER), ("", "usage\n", 2)


def main() -> int:
    script = Script()
    parser = argparse.ArgumentParser(description="Tests the program depends.")
    parser.add_argument("--many", type=int, default=60, help="how many random loops are tried")
    parser.add_argument("command", nargs=argparse.REMAINDER)
    given = parser.parse_args(script.words)
    found = [beside(given.command or [str(ROOT / "trace_cli")], name) for name in Programs._fields]
    if not all(path and path.exists() for path in found):
        left_out("depends", "it, replay and why weren't built beside the program that is tested")
        return 0
    programs = Programs(*([str(path)] for path in found))
    script.run(*([partial(no_words, programs.depends)] if given.command else []),
               partial(check_words, programs.depends), partial(check_rows, programs), partial(check_examples, programs))
    seen.clear()
    script.run(partial(check_random, programs, given.many))
    print("random loops:", ", ".join(f"{count} {told}" for told, count in sorted(seen.items())))
    return script.ended()


if __name__ == "__main__":
    sys.exit(main())
