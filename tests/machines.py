#!/usr/bin/env python3
"""Tests runs over caches of any size: `gain` beside the figures of tests/machines.tsv, which an independent program
made; and random loops over random caches.

Usage: tests/machines.py [--random N] [--seed S] [COMMAND ..]

COMMAND is a command of `trace_cli` that ends with the word `seq`; `gain`, `replay` and `why` are the programs that were
built beside it. Without it those of this repository are tested. Where one isn't built the test is left out, and a line
says so. Of each of N random loops, 60 without the word, over caches of a random size: the schedule of `replay even`
makes the same history again, so does its trace, its report is that of `seq`, `audit` finds it legal, and `why` explains
each violation; and of a schedule drawn from a seed, and of the held run, the same. The turns of `replay held` and the
figures of `gain --held` are those of model/held.py. In some of the caches bytes lie apart; `own_counters`, whose
counters do, takes the steps of `padded_counters`, and those of tests/held.tsv. Exits with 1 where an outcome differs.
"""

import argparse
import random
import sys
from collections import Counter
from collections.abc import Iterator
from concurrent.futures import ThreadPoolExecutor
from functools import partial
from pathlib import Path

from common import ROOT, Check, Script, beside, called, differs, left_out

sys.path.insert(0, str(ROOT / "tests" / "model"))

import held  # noqa: E402
from flat_audit import entry_of  # noqa: E402
from gain import lines_of, wide, without_held  # noqa: E402
from rv32_seq import image_of  # noqa: E402
from stress import loop_of  # noqa: E402

KEYS = ("line", "sets", "ways", "buffer")
# The four counters of own_counters, each in a line of its own
COUNTERS_APART = "caches:apart=00000040:16:4"
FIGURES = ("steps", "useful", "lost", "dropped", "waiting", "idle", "restarts")
# An epoch that isn't homefree when its loop ends has no violation that isn't one of these.
KINDS = "true silent false buffer".split()
seen: Counter[str] = Counter()
# An image and a machine by its word; and by the cores the figures
Rows = dict[tuple[str, str], dict[str, list[str]]]


def rows() -> Rows:
    """The rows of the table."""
    found: Rows = {}
    lines = [line.split("\t")
             for line in (ROOT / "tests" / "machines.tsv").read_text(encoding="ascii").splitlines()
             if not line.startswith("#")]
    for row in (dict(zip(lines[0], words)) for words in lines[1:]):
        word = "caches:" + ",".join(f"{key}={row[key]}" for key in KEYS)
        found.setdefault((row["image"], word), {})[row["cores"]] = [row[name] for name in FIGURES]
    return found


def figures_of(gain: Path, image: str, store: str) -> dict[str, list[str]]:
    """What `gain` says of an image over a store, by the cores."""
    done = called([gain, "8", store], (ROOT / "examples" / f"{image}.image").read_text(encoding="latin-1"))
    found = {}
    for words in map(str.split, done.stdout.splitlines()):
        told = dict(zip(words[::2], words[1::2]))
        found[f"{told['cores']} {told['store']}"] = [told.get(name, "-") for name in FIGURES]
    return found or {"refused": [done.stderr, str(done.returncode)]}


def table(gain: Path) -> Iterator[Check]:
    """Each image on each machine of the table."""
    known = rows()
    with ThreadPoolExecutor(4) as pool:
        for ((image, store), wanted), got in zip(known.items(), pool.map(lambda key: figures_of(gain, *key), known)):
            # one core has all figures that it has on more: the table begins with two
            same = {cores: figures for cores, figures in got.items() if cores.partition(" ")[0] in wanted}
            yield (f"{image} over {store}",
                   differs(same, {f"{cores} {store}": figures for cores, figures in wanted.items()}))


# --- Bytes that lie apart ---------------------------------------------------------

def of_each(figures: dict[str, list[str]]) -> dict[str, list[str]]:
    """The figures by the cores alone."""
    return {cores.partition(" ")[0]: one for cores, one in figures.items()}


def held_rows(image: str) -> dict[str, list[str]]:
    """The steps and restarts of an image's held runs over caches, by the cores, of tests/held.tsv."""
    lines = [line.split("\t") for line in (ROOT / "tests" / "held.tsv").read_text(encoding="ascii").splitlines()
             if not line.startswith("#")]
    return {row["cores"]: [row["waits"], row["waiting_restarts"]]
            for row in (dict(zip(lines[0], words)) for words in lines[1:])
            if (row["example"], row["store"]) == (image, "caches")}


def lying_apart(programs: dict[str, Path]) -> Iterator[Check]:
    """Counters that lie apart run as those that the program pads, and count the same as in order."""
    got = of_each(figures_of(programs["gain"], "own_counters", COUNTERS_APART))
    yield ("own_counters whose counters lie apart", differs({cores: one[0] for cores, one in got.items()},
                                                            {"1": "464", "2": "232", "4": "116", "8": "110"}))
    yield "as padded_counters", differs(got, of_each(figures_of(programs["gain"], "padded_counters", "caches")))
    text = (ROOT / "examples" / "own_counters.image").read_text(encoding="latin-1")
    report = called([programs["seq"], "seq"], text).stdout
    for cores in ("1", "2", "4", "8"):
        done = called([programs["replay"], "even", COUNTERS_APART, cores], text)
        yield (f"what own_counters makes apart on {cores} cores",
               differs((done.stdout.partition("\n")[2].partition("counts ")[0], done.stderr, done.returncode),
                       (report, "", 0)))
    done = called([programs["gain"], "8", COUNTERS_APART, "--held"], text)
    yield ("own_counters whose counters lie apart, held",
           differs({row["cores"]: [row["steps"], row["restarts"]] for row in lines_of(without_held(done.stdout)[1])},
                   {"1": ["464", "0"], **held_rows("padded_counters")}))


# --- Random loops over random caches ---------------------------------------------

def machine(rng: random.Random, size: int, most: int = 10) -> str:
    """The word of caches, small ones rather than large ones, of at most 2 to the power of `most` sets; of lines that
    the memory is a whole number of."""
    chosen = {"line": rng.choice([length for length in (16, 32, 64) if size % length == 0] or [16]),
              "sets": 2 ** min(rng.randint(0, most), rng.randint(0, most)),
              "ways": min(rng.randint(1, 16), rng.randint(1, 16)),
              "buffer": min(rng.randint(1, 64), rng.randint(1, 64), rng.randint(1, 64))}
    named = [f"{key}={chosen[key]}" for key in KEYS if rng.random() < 0.8 or key == "line" and chosen["line"] != 16]
    if size >= 4 and rng.random() < 0.4:
        named.append(apart(rng, size, chosen["line"] if any(one.startswith("line") for one in named) else 16))
    rng.shuffle(named)
    return "caches" + (":" + ",".join(named) if named else "")


def apart(rng: random.Random, size: int, line: int) -> str:
    """Whole words of memory that lie apart, in pieces of whole words that fit into a line."""
    length = 4 * min(rng.randint(1, size // 4), rng.randint(1, size // 4))
    first = 4 * rng.randint(0, (size - length) // 4)
    return f"apart={first:08x}:{length}:{4 * rng.randint(1, line // 4)}"


def size_of(text: str) -> int:
    """The bytes of memory of an image, as far as it says them."""
    words = [line.split(" ") for line in text.split("\n") if line.startswith("size ")]
    return int(words[0][1]) if words and words[0][1:2] and words[0][1].isdecimal() and len(words[0][1]) < 10 else 0


class Loop:
    """A random loop over random caches, and the programs."""

    def __init__(self, programs: dict[str, Path], seed: str, index: int) -> None:
        rng = random.Random(f"machines/{seed}/{index}")
        text, self.cores = wide(rng) if rng.random() < 0.4 else loop_of(rng)
        self.programs, self.text = programs, text.decode("latin-1")
        self.store, self.drawn = machine(rng, size_of(self.text)), str(rng.getrandbits(32))

    def outcome(self, name: str, words: list[str], below: str = "") -> tuple[str, str, int]:
        done = called([self.programs[name], *words], self.text + below, encoding="latin-1")
        return done.stdout, done.stderr, done.returncode

    def wrong(self, *drawn: str) -> str | None:
        """What is wrong with a run by a schedule that `replay` draws, or None."""
        output, errors, status = self.outcome("replay", [*drawn, self.store, str(self.cores)])
        report = self.outcome("seq", ["seq"])
        if status > 1:
            return differs((output, errors, status), report) if report[2] > 1 else f"refused: {errors}"
        turns, _, below = output.partition("\n")
        trace = "\ntrace" + below.partition("\ntrace")[2]
        seen["histories"] += 1
        found = [("again", self.outcome("replay", [self.store, str(self.cores)], f"\n{turns}\n"),
                  (below, errors, status)),
                 ("by its trace", self.outcome("replay", [self.store], trace), (below, errors, status)),
                 ("seq", (below.partition("counts ")[0], errors, status), report),
                 ("audit", self.outcome("trace_cli", ["audit"], trace)[0].split(" ")[0], "legal")]
        found += [("why", self.unexplained(trace), [])]
        return next((f"{name}: {wrong}" for name, got, wanted in found if (wrong := differs(got, wanted))), None)

    def unlike_model(self) -> str | None:
        """What is wrong with the turns and figures of the held run, beside the model."""
        output, _, status = self.outcome("replay", ["held", self.store, str(self.cores)])
        if status > 1:
            return None
        turns, _, below = output.partition("\n")
        entries = [entry for line in below.partition("\ntrace")[2].splitlines()[1:]
                   if (entry := entry_of(line.encode()))]
        try:
            wanted = held.figures_of(image_of(self.text.encode("latin-1")), self.store, self.cores,
                                     [int(core) for core in turns.split()[1:]], entries)
        except held.Differs as wrong:
            return f"held: {wrong}"
        told = lines_of(without_held(self.outcome("gain", [str(self.cores), self.store, "--held"])[0])[1])[-1]
        seen["steps held"] += wanted.held
        return differs({key: told[key] for key in wanted._fields}, {key: str(n) for key, n in wanted._asdict().items()})

    def unexplained(self, trace: str) -> list[str]:
        """The violations that `why` has no cause for, by the machine of the run."""
        out, errors, status = self.outcome("why", [self.store], trace)
        hurts = [line for line in out.splitlines() if line.startswith("hurt ")]
        seen.update(line.split(" ")[2] for line in hurts)
        return [line for line in hurts if line.split(" ")[2] not in KINDS] + ([errors] if status else [])


def random_loops(programs: dict[str, Path], seed: str, count: int) -> Iterator[Check]:
    """Each loop at even speed, by a schedule that is drawn from a seed, and as a held run."""
    loops = [Loop(programs, seed, index) for index in range(count)]
    with ThreadPoolExecutor(4) as pool:
        for index, wrong in enumerate(pool.map(lambda loop: loop.wrong("even"), loops)):
            yield f"loop {index} of seed {seed} over {loops[index].store} on {loops[index].cores} cores", wrong
        for index, wrong in enumerate(pool.map(seeded, loops)):
            yield f"loop {index} of seed {seed}, drawn", wrong
        for index, wrong in enumerate(pool.map(held_run, loops)):
            yield f"loop {index} of seed {seed}, held", wrong


def seeded(loop: Loop) -> str | None:
    """The same of a drawn schedule, which may end before the loop does: then its report isn't that of `seq`."""
    return loop.wrong("seeded", loop.drawn)


def held_run(loop: Loop) -> str | None:
    """The same of the held run, which is that of the model."""
    return loop.wrong("held") or loop.unlike_model()


def main() -> int:
    script = Script()
    parser = argparse.ArgumentParser(description="Tests runs over caches of any size.")
    parser.add_argument("--random", type=int, default=60, help="how many random loops are tried")
    parser.add_argument("--seed", default="1")
    parser.add_argument("command", nargs=argparse.REMAINDER)
    given = parser.parse_args(script.words)
    command = given.command or [str(ROOT / "trace_cli"), "seq"]
    found = {name: beside(command, name) for name in ("gain", "replay", "why", "trace_cli")}
    programs = {name: path for name, path in found.items() if path}
    if len(programs) < len(found):
        left_out("machines", "gain, replay or why wasn't built beside the program that is tested")
        return 0
    programs["seq"] = programs["trace_cli"]
    script.run(partial(table, programs["gain"]), partial(lying_apart, programs),
               partial(random_loops, programs, given.seed, given.random))
    print("random loops:", ", ".join(f"{seen[key]} {key}" for key in sorted(seen)))
    return script.ended()


if __name__ == "__main__":
    sys.exit(main())
