#!/usr/bin/env python3
"""The program `gain` on all examples and on random images: the figures of tests/gain.txt, tests/limits.tsv and
tests/held.tsv, the sums, refusals; and `replay even` and `replay held`, whose turns are replayed.

Usage: tests/gain.py [--random N] [COMMAND ..]

COMMAND is a command of `trace_cli` that ends with the word `seq`, such as crates/trace_cli/out/trace_cli seq; `gain`
and `replay` are the programs that were built beside it. Without it ./gain and ./replay of this repository are tested.
Where no such program is beside it the test is left out, and a line says so. N random images are tried, 40 without it.
Exits with 1 where an outcome differs.
"""

import argparse
import random
import sys
from collections import Counter
from collections.abc import Iterator
from functools import partial

from common import ROOT, Row, Script, beside, called, comparing, left_out
from seq_rows import image, run
from stress import loop_of

sys.path.insert(0, str(ROOT / "tests" / "model"))

from fuzz import MATCH, RETURN, word_of_i, word_of_s  # noqa: E402

FIGURES = "steps useful lost dropped waiting idle restarts".split()
CAUSES = "nothomefree noway orbfull orbbusy".split()
KINDS = "true silent false buffer".split()
COUNTER = image("83220004938212002320500467800000", epochs=4, limit=50)
# Epoch 0 counts down from 409,600 and then sets a word, for which three others look again and again: on four cores
# there are more entries than a trace may have.
COUNT_DOWN = image("631e0500b74206009382f2ffe39e02fe13031000232060046780000003230004e30e03fe67800000", epochs=4,
                   limit=1_000_000)
# How often a random image came to each kind, cause and end.
seen: Counter[str] = Counter()


def lines_of(text: str) -> list[dict[str, str]]:
    rows = []
    for line in text.splitlines():
        words = line.split()
        rows.append(dict(zip(words[::2], words[1::2])))
    return rows


def check_sums(name: str, rows: list[dict[str, str]]) -> Iterator[Row]:
    """Each step of each core is counted once; one core loses and waits nothing, and isn't held."""
    first = {row["store"]: int(row["steps"]) for row in rows if row["cores"] == "1"}
    for row in rows:
        n = {key: int(row[key]) for key in [*FIGURES, *CAUSES]}
        held = int(row.get("held", "0"))
        at = f"{name} {row['store']} {row['cores']}"
        yield (f"{at}: the sum", n["useful"] + n["lost"] + n["dropped"] + n["waiting"] + held + n["idle"],
               int(row["cores"]) * n["steps"])
        yield (f"{at}: waiting", sum(n[cause] for cause in CAUSES), n["waiting"])
        hundredths = first[row["store"]] * 100 // n["steps"]
        yield (f"{at}: gain", row["gain"], f"{hundredths // 100}.{hundredths % 100:02}")
        if row["cores"] == "1":
            yield (f"{at}: one core", (n["lost"], n["dropped"], n["waiting"], held), (0, 0, 0, 0))


@comparing
def check_examples(program: list[str]) -> Iterator[Row]:
    known: dict[tuple[str, str, str], list[str]] = {}
    for line in (ROOT / "tests/gain.txt").read_text().splitlines():
        if not line.startswith("#"):
            name, store, cores, *figures = line.split()
            known[name, store, cores] = figures
    names = sorted({name for name, _, _ in known})
    for name in names:
        text = (ROOT / f"examples/{name}.image").read_bytes()
        first, second = run(program, ["8"], text), run(program, ["8"], text)
        yield (f"{name}: again", second, first)
        rows = lines_of(first[0])
        yield (f"{name}: lines", [(row["store"], row["cores"]) for row in rows],
               [(s, c) for s in ("caches", "plain") for c in "1248"])
        for row in rows:
            yield (f"{name} {row['store']} {row['cores']}", [row[key] for key in FIGURES],
                   known[name, row["store"], row["cores"]])
        yield from check_sums(name, rows)


@comparing
def check_words(program: list[str]) -> Iterator[Row]:
    for words in (list[str](), ["0"], ["17"], ["x"], ["2", "2"], ["-1"]):
        yield (f"words {words}", run(program, words, COUNTER), ("", "usage\n", 2))
    yield ("an image that is refused", run(program, ["2"], "size 1\n"), ("", "image 1 Range\n", 2))
    rows = lines_of(run(program, ["3"], COUNTER)[0])
    yield ("the numbers of cores", [row["cores"] for row in rows], ["1", "2", "3"] * 2)
    yield from check_sums("counter", rows)


@comparing
def check_limits(program: list[str]) -> Iterator[Row]:
    """What the dependences allow stands below the runs, as the figures of another program have it; and no run over the
    plain store takes less than where loads wait for commits."""
    known: dict[str, list[tuple[int, ...]]] = {}
    for line in (ROOT / "tests/limits.tsv").read_text().splitlines()[3:]:
        name, *figures = line.split("\t")
        known.setdefault(name, []).append(tuple(map(int, figures)))
    for path in sorted((ROOT / "examples").glob("*.image")):
        text, name = path.read_bytes(), path.stem
        without = run(program, ["8"], text)
        output, errors, status = run(program, ["8", "--limits"], text)
        stores, told = without_limits(output)
        yield (f"{name}: the runs", (stores, errors, status), without)
        yield (f"{name}: the limits", told, known.get(name, told))
        plain = {int(row["cores"]): int(row["steps"]) for row in lines_of(stores) if row["store"] == "plain"}
        yield (f"{name}: the numbers of cores", [cores for cores, _, _ in told], list(plain))
        yield (f"{name}: in order", [one for one in told if not one[1] <= one[2] <= plain[one[0]]], [])


def without_limits(output: str) -> tuple[str, list[tuple[int, ...]]]:
    """What stands above the first limit, and the cores, `forward` and `commit` of each limit."""
    above, mark, below = output.partition("limit ")
    return above, [tuple(map(int, line.split()[2::2])) for line in (mark + below).splitlines()]


@comparing
def check_limit_words(program: list[str]) -> Iterator[Row]:
    """`--limits` is the last word or none. Of the counter an epoch takes six steps: it begins, loads, adds, stores,
    returns and commits. A load comes in the step of the store before it, two steps after the load there, or in that of
    the commit, four after it."""
    for words in (["--limits"], ["--limits", "4"], ["4", "--limits", "plain"], ["4", "--limits", "--limits"],
                  ["4", "plain", "--limits", "--limits"], ["4", "--limit"], ["4", "--limits="], ["17", "--limits"]):
        yield (f"words {words}", run(program, words, COUNTER), ("", "usage\n", 2))
    yield ("an image that is refused, and limits", run(program, ["2", "--limits"], "size 1\n"),
           ("", "image 1 Range\n", 2))
    output, errors, status = run(program, ["3", "plain", "--limits"], COUNTER)
    runs, told = without_limits(output)
    yield ("limits: the runs", (runs, errors, status), run(program, ["3", "plain"], COUNTER))
    yield ("limits: of the counter", told, [(1, 24, 24), (2, 14, 18), (3, 12, 18)])
    with open("/dev/full", "w", encoding="ascii") as full:
        done = called([*program, "2", "--limits"], COUNTER, stdout=full)
    yield ("limits: a write that fails", (done.stderr, done.returncode), ("stopped Write\n", 3))


@comparing
def check_waits(program: list[str]) -> Iterator[Row]:
    """Loads that wait. Of the counter an epoch takes six steps, and its load is the second. It waits for the turn that
    commits the epoch before, and comes in the step of that turn: so each epoch commits four steps after the one
    before it, and with two cores that is no different. Where no load stands, nothing waits. `recurrence` takes the
    steps that another program counted."""
    for store in ("plain", "caches"):
        rows = lines_of(run(program, ["4", store, "--wait", "00000000"], COUNTER)[0])
        yield (f"waits: {store}", [[row[key] for key in ("cores", *FIGURES, "held")] for row in rows],
               [["1", "24", "24", "0", "0", "0", "0", "0", "0"], ["2", "18", "24", "0", "0", "0", "4", "0", "8"],
                ["4", "18", "24", "0", "0", "0", "24", "0", "24"]])
        yield from check_sums("waits", rows)
        rows = lines_of(run(program, ["4", store, "--wait", "00000004", "00000008", "fffffffc"], COUNTER)[0])
        yield (f"waits: {store}, where no load stands", [row.pop("held") for row in rows], ["0"] * 3)
        yield (f"waits: {store}, as without", rows, lines_of(run(program, ["4", store], COUNTER)[0]))
    text = (ROOT / "examples/recurrence.image").read_bytes()
    output, errors, status = run(program, ["4", "caches", "--wait", "00000018", "--limits"], text)
    runs, told = without_limits(output)
    rows = lines_of(runs)
    yield ("waits: recurrence", (rows[-1]["steps"], errors, status), ("120", "", 0))
    yield ("waits: and limits", told, without_limits(run(program, ["4", "--limits"], text)[0])[1])
    yield from check_sums("recurrence", rows)


def without_held(output: str) -> tuple[str, str]:
    """The lines but those of held runs, and those, as lines of a store."""
    lines = output.splitlines(keepends=True)
    held = [line for line in lines if line.startswith("held ")]
    others = [line for line in lines if line not in held]
    return "".join(others), "".join(line.replace("held", "store", 1) for line in held)


@comparing
def check_held(program: list[str], replay: list[str]) -> Iterator[Row]:
    """Loads that wait for what earlier epochs store in order: the steps and restarts that another program counted, and
    the run that `replay held` shows."""
    known: dict[str, dict[tuple[str, str], list[str]]] = {}
    for line in (ROOT / "tests/held.tsv").read_text().splitlines()[3:]:
        name, _, store, cores, *figures = line.split("\t")
        known.setdefault(name, {})[store, cores] = figures
    for name, figures_of in known.items():
        text = (ROOT / f"examples/{name}.image").read_bytes()
        output, errors, status = run(program, ["8", "--held"], text)
        runs, held = without_held(output)
        yield (f"held: {name}: the other runs", (runs, errors, status), run(program, ["8"], text))
        yield from check_sums(f"held: {name}", lines_of(held))
        others = {(row["store"], row["cores"]): row for row in lines_of(runs)}
        for row in lines_of(held):
            at = row["store"], row["cores"]
            other = others[at]
            if row["cores"] == "1":
                yield (f"held: {name} {at}", (row["steps"], row["held"]), (other["steps"], "0"))
                continue
            yield (f"held: {name} {at}", [other["steps"], row["steps"], other["restarts"], row["restarts"]],
                   figures_of[at])
            printed, errors, status = run(replay, ["held", *at], text)
            turns, _, below = printed.partition("\n")
            again = run(replay, [*at], text + b"\n" + turns.encode("ascii") + b"\n")
            yield (f"held: {name} {at}: replayed", again, (below, errors, status))
            counts = next(line.split() for line in below.splitlines() if line.startswith("counts "))
            yield (f"held: {name} {at}: restarts", counts[3], row["restarts"])


@comparing
def check_held_words(program: list[str], replay: list[str]) -> Iterator[Row]:
    """`--held` stands behind the stores and before `--wait`. The lines of held runs stand each below another."""
    for words in (["--held"], ["--held", "4"], ["4", "--held", "plain"], ["4", "--held", "--held"],
                  ["4", "--limits", "--held"], ["4", "--wait", "00000000", "--held"], ["4", "--helds"],
                  ["17", "--held"]):
        yield (f"words {words}", run(program, words, COUNTER), ("", "usage\n", 2))
    for words in (["held"], ["held", "plain"], ["held", "other", "2"], ["held", "plain", "17"],
                  ["held", "plain", "2", "--wait", "00000000"]):
        yield (f"replay {words}", run(replay, words, COUNTER), ("", "usage\n", 2))
    output, errors, status = run(program, ["2", "plain", "--held", "--wait", "00000000", "--limits"], COUNTER)
    runs, told = without_limits(output)
    others, held = without_held(runs)
    yield ("held, waits and limits", (errors, status, len(told)), ("", 0, 2))
    yield ("held: where loads wait", others, run(program, ["2", "plain", "--wait", "00000000"], COUNTER)[0])
    yield ("held: the lines", [line.split()[0] for line in runs.splitlines()], ["store", "held"] * 2)
    yield ("held: the counter", [[row[key] for key in ("steps", "lost", "held")] for row in lines_of(held)],
           [["24", "0", "0"], ["18", "0", "8"]])
    yield ("an image that is refused, and held", run(program, ["2", "--held"], "size 1\n"), ("", "image 1 Range\n", 2))


@comparing
def check_wait_words(program: list[str]) -> Iterator[Row]:
    """`--wait` stands behind the stores, and behind it an address at least, in eight lower-case digits each."""
    for words in (["--wait", "00000000"], ["4", "--wait"], ["4", "--wait", "0"], ["4", "--wait", "0000000A"],
                  ["4", "--wait", "000000000"], ["4", "--wait", "0000000g"], ["4", "--wait", "00000000", "plain"],
                  ["4", "--limits", "--wait", "00000000"], ["4", "--wait", "--limits"], ["4", "--waits", "00000000"],
                  ["4", "--wait", "00000000", "--wait", "00000004"], ["17", "--wait", "00000000"]):
        yield (f"words {words}", run(program, words, COUNTER), ("", "usage\n", 2))
    yield ("an image that is refused, and waits", run(program, ["2", "--wait", "00000000"], "size 1\n"),
           ("", "image 1 Range\n", 2))
    output, errors, status = run(program, ["1", "plain", "--wait", *["00000000"] * 30_000], COUNTER)
    yield ("30,000 addresses", (lines_of(output)[0]["steps"], errors, status), ("24", "", 0))


@comparing
def check_many_stores(program: list[str]) -> Iterator[Row]:
    """A line for each word of a store, however many there are: an epoch of one instruction takes three steps."""
    words = ["plain", "caches"] * 30_000
    output, errors, status = run(program, ["1", *words], image("67800000", epochs=1, limit=1))
    yield ("60,000 stores: status", (errors, status), ("", 0))
    yield ("60,000 stores: lines", [line.split()[:6] for line in output.splitlines()],
           [["store", word, "cores", "1", "steps", "3"] for word in words])


@comparing
def check_long(program: list[str]) -> Iterator[Row]:
    """A loop of a long history: an epoch takes a step to begin, one for each instruction, and one to commit. Epoch 0
    stores in step 819,204, counted from 0, and commits two steps later; the others look in both. Over caches the store
    violates them, and over the plain store the commit. They begin again at once, and commit five steps later. On two
    cores epoch 2 begins a step after the commit, and epoch 3 when epoch 1 has committed."""
    output, errors, status = run(program, ["4"], COUNT_DOWN)
    yield ("long: status", (errors, status), ("", 0))
    rows = lines_of(output)
    useful = 2 * 409_600 + 7 + 3 * 6
    wanted = [(store, cores, steps, useful, again * hurt, again, again)
              for store, hurt in (("caches", 819_204), ("plain", 819_206))
              for cores, steps, again in (("1", useful, 0), ("2", hurt + 12, 1), ("4", hurt + 6, 3))]
    keys = ("steps", "useful", "lost", "restarts", "true")
    yield ("long: lines", [(row["store"], row["cores"], *(int(row[key]) for key in keys)) for row in rows], wanted)
    yield from check_sums("long", rows)


@comparing
def check_write(program: list[str]) -> Iterator[Row]:
    with open("/dev/full", "w", encoding="ascii") as full:
        done = called([*program, "2"], COUNTER, stdout=full)
    yield ("a write that fails", (done.stderr, done.returncode), ("stopped Write\n", 3))


def below_end(output: str) -> str:
    """The end of the loop that `replay even` printed, and the cause of a fault."""
    words = output.split("\nend ")[1].split("\n")[0].split()
    return " ".join([words[0], *words[2:3]])


def wide(rng: random.Random) -> tuple[bytes, int]:
    """The text of an image whose epochs write in many lines, some of the same, and on how many cores it runs."""
    version, step = rng.choice([1, 2]), rng.choice([16, 32, 64])
    words = [word_of_i(MATCH["andi"], 5, 10, rng.choice([0, 1, 3, 7])),
             MATCH["slli"] | 5 << 7 | 5 << 15 | rng.choice([4, 7, 9]) << 20]
    for at in range(rng.randint(1, 24)):
        words += ([word_of_i(MATCH["lw"], 6, 5, 256 + at * step)] * rng.randint(0, 1)
                  + [word_of_s(MATCH["sw"], 5, 10, 256 + at * step)])
    code = b"".join(word.to_bytes(4, "little") for word in [*words, RETURN]).hex()
    return (f"version {version}\nsize 8192\nepochs {rng.choice([3, 9, 20])}\nlimit 100\ncode {code}\n".encode("ascii"),
            rng.randint(2, 16 if version == 2 else 8))


def check_even(gain: list[str], replay: list[str], name: str, text: bytes, cores: int) -> Iterator[Row]:
    """The turns of `replay even` make what it shows below them, and that is the run that `gain` counts."""
    printed = run(gain, [str(cores)], text)
    yield (f"{name}: again", run(gain, [str(cores)], text), printed)
    if printed[2]:
        for store in ("caches", "plain"):
            yield (f"{name} {store}: refused", run(replay, ["even", store, str(cores)], text), printed)
        return
    rows = lines_of(printed[0])
    yield from check_sums(name, rows)
    for row in rows:
        seen.update(key for key in [*KINDS, *CAUSES, "dropped"] if row[key] != "0")
    for store in ("caches", "plain"):
        output, errors, status = run(replay, ["even", store, str(cores)], text)
        seen[below_end(output)] += 1
        turns, _, below = output.partition("\n")
        replayed = run(replay, [store, str(cores)], text + b"\n" + turns.encode("ascii") + b"\n")
        yield (f"{name} {store} {cores}: replayed", replayed, (below, errors, status))
        row = next(row for row in rows if (row["store"], row["cores"]) == (store, str(cores)))
        counts = next(line.split() for line in below.splitlines() if line.startswith("counts "))
        yield (f"{name} {store} {cores}: restarts", row["restarts"], counts[3])
        if below.startswith("end done") and not below.startswith("end done 0\n"):
            first = next(row for row in rows if (row["store"], row["cores"]) == (store, "1"))
            yield (f"{name} {store} {cores}: useful", row["useful"], first["steps"])


@comparing
def check_runs(gain: list[str], replay: list[str], count: int) -> Iterator[Row]:
    for name in ("counter", "own_counters"):
        yield from check_even(gain, replay, name, (ROOT / f"examples/{name}.image").read_bytes(), 4)
    for index in range(count):
        rng = random.Random(f"gain/{index}")
        text, cores = wide(rng) if rng.random() < 0.2 else loop_of(rng)
        yield from check_even(gain, replay, f"random {index}", text, cores)
    for words in (["even"], ["even", "caches"], ["even", "other", "2"], ["even", "caches", "17"]):
        yield (f"replay {words}", run(replay, words, COUNTER), ("", "usage\n", 2))


PARTS = (check_words, check_limit_words, check_limits, check_waits, check_wait_words, check_many_stores,
         check_examples, check_long, check_write)


def main() -> int:
    script = Script()
    parser = argparse.ArgumentParser(description="Tests the program gain, and replay even.")
    parser.add_argument("--random", type=int, default=40, help="how many random images are tried")
    parser.add_argument("command", nargs=argparse.REMAINDER)
    given = parser.parse_args(script.words)
    gain, replay = (beside(given.command or [str(ROOT / "trace_cli")], name) for name in ("gain", "replay"))
    if gain is None or replay is None:
        left_out("gain", "it and replay weren't built beside the program that is tested")
        return 0
    script.run(*[partial(part, [str(gain)]) for part in PARTS],
               *[partial(part, [str(gain)], [str(replay)]) for part in (check_held, check_held_words)],
               partial(check_runs, [str(gain)], [str(replay)], given.random))
    print("random images:", ", ".join(f"{seen[key]} {key}" for key in sorted(seen)))
    return script.ended()


if __name__ == "__main__":
    sys.exit(main())
