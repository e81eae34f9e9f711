#!/usr/bin/env python3
"""Runs at even speed in which turns cost something: `gain .. --costs KEY=N,.. --hold N`, and `replay even` and `replay
held` with the same words behind them.

Usage: tests/costs.py [--random N] [COMMAND ..]

COMMAND is a command of `trace_cli` that ends with the word `seq`, such as crates/trace_cli/out/trace_cli seq; `gain`
and `replay` are the programs that were built beside it. Without it ./gain and ./replay of this repository are tested.
Where no such program is beside it the test is left out, and a line says so. The figures of all examples are those of
tests/costs.tsv. N random images are tried, 40 without it, with random costs, stores and loads that wait: the sums, the
run without costs, the instructions of the reference model, and the schedules that `replay` prints. Exits with 1 where
an outcome differs.
"""

import argparse
import os
import random
import sys
import tempfile
from collections import Counter
from collections.abc import Iterator
from functools import partial
from typing import NamedTuple

from common import ROOT, Row, Script, beside, called, called_bytes, comparing, left_out
from gain import CAUSES, COUNT_DOWN, COUNTER, below_end, lines_of, wide, without_held, without_limits
from seq_rows import image, run
from stress import loop_of

sys.path.insert(0, str(ROOT / "tests" / "model"))

from dependences import Loop  # noqa: E402
from rv32_seq import Image, Refused, image_of, report_of  # noqa: E402

# Each of two epochs stores 255 to its byte at 64, 65.
BYTES = image("9302f00f2300550467800000", epochs=2)
KEYS = "miss upgrade begin restart commit line".split()
# Where the steps of attempts that committed went; and all that each step of a core is counted as.
SPENT = "busy handling memory queue".split()
SUMS = [*SPENT, *"lost dropped waiting idle".split()]
FIGURES = ["steps", "order", *SUMS, "restarts"]
# By the names that tests/costs.tsv has for them.
SETS = {
    "ideal": ["--costs", "bus=0"], "bus10": ["--costs", "bus=10"], "bus40": ["--costs", "bus=40"],
    "bus10b": ["--costs", "bus=10", "--hold", "10"], "mem20": ["--costs", "miss=20,upgrade=20,line=20"],
    "hand10": ["--costs", "begin=10,restart=10,commit=10"],
}
# Words that ask for no costs behind any others.
REFUSED = [
    ["--costs"], ["--hold"], ["--costs", ""], ["--hold", ""], ["--cost", "bus=1"], ["--costs=bus=1"], ["--hold=1"],
    *(["--costs", word] for word in (
        "misses=1", "Miss=1", "hold=1", "queue=1", "miss", "miss=", "=1", "1", "miss=1=1", "miss:1", " miss=1",
        "miss =1", "miss= 1", "miss=1 ", "miss=+1", "miss=-1", "miss=01", "miss=0x1", "miss=1.0", "miss=1000001",
        "bus=1000001", "miss=4294967296", "miss=18446744073709551616", "miss=" + "9" * 5000, ",", "miss=1,",
        ",miss=1", "miss=1,,line=1", "miss=1;line=1", "miss=1,miss=1", "line=0,miss=1,line=0", "bus=1,bus=1",
        "bus=1,miss=1", "miss=0,bus=0", "begin=1,restart=1,commit=1,bus=1")),
    *(["--hold", word] for word in ("x", "01", "+1", "-1", "1.0", "1000001", "18446744073709551616", "bus=1")),
    ["--hold", "1", "--costs", "bus=1"], ["--hold", "1", "--hold", "1"], ["--costs", "bus=1", "--hold"],
    ["--costs", "bus=1", "--hold", "1000001"], ["--costs", "bus=1", "--costs", "bus=1"],
    ["--costs", "miss=1", "--costs", "line=1"], ["--costs", "miss=1", "line=1"], ["--costs", "bus=1", "1"],
    ["--costs", "bus=1", "--hold", "1", "--hold", "1"], ["--costs", "bus=1", "--hold", "1", "1"],
    ["--costs", "--hold", "1"], ["--hold", "--costs", "bus=1"],
    *([*costs, *behind] for costs in (["--costs", "bus=1"], ["--hold", "1"], ["--costs", "bus=1", "--hold", "1"])
      for behind in (["plain"], ["--held"], ["--limits"], ["--wait", "00000000"])),
]
# Words behind which no costs stand: of `replay` those of a run that isn't at even speed.
WITHOUT_COSTS: dict[str, list[list[str]]] = {
    "gain": [[], ["17"], ["0"], ["2", "other"], ["2", "--wait"], ["2", "--limits", "--held"]],
    "replay": [["plain", "2"], ["plain"], ["seeded", "1", "plain", "2"], ["all", "plain", "2", "3"],
               ["threads", "plain", "2"], ["steps", "plain", "2"], ["steps", "plain"], ["even", "plain"],
               ["held", "plain", "2", "--wait", "00000000"], ["even", "plain", "17"], ["even"], []],
}
# How many random lines had steps of each sum, and how many runs came to each end.
seen: Counter[str] = Counter()


def check_sums(name: str, rows: list[dict[str, str]], late: str) -> Iterator[Row]:
    """Each step of each core is counted once; one core loses and waits nothing. Who was late stood in a queue, or was
    held: the other sum is 0."""
    first = {row["store"]: int(row["steps"]) for row in rows if row["cores"] == "1"}
    for row in rows:
        n = {key: int(row.get(key, "0")) for key in [*FIGURES, *CAUSES, "held"]}
        at = f"{name} {row['store']} {row['cores']}"
        yield f"{at}: the sum", sum(n[key] for key in [*SUMS, "held"]), int(row["cores"]) * n["steps"]
        yield f"{at}: waiting", sum(n[cause] for cause in CAUSES), n["waiting"]
        yield f"{at}: late, and not {late}", n["queue" if late == "held" else "held"], 0
        hundredths = first[row["store"]] * 100 // n["steps"]
        yield f"{at}: gain", row["gain"], f"{hundredths // 100}.{hundredths % 100:02}"
        if row["cores"] == "1":
            yield f"{at}: one core", (n["lost"], n["dropped"], n["waiting"]), (0, 0, 0)


@comparing
def check_examples(gain: list[str]) -> Iterator[Row]:
    """The figures that another program has for each example."""
    known: dict[tuple[str, str], dict[tuple[str, str], list[str]]] = {}
    for line in (ROOT / "tests/costs.tsv").read_text().splitlines()[3:]:
        name, costs, store, cores, *figures = line.split("\t")
        known.setdefault((name, costs), {})[store, cores] = figures
    for (name, costs), figures_of in known.items():
        text = (ROOT / f"examples/{name}.image").read_bytes()
        output, errors, status = run(gain, ["8", *SETS[costs]], text)
        yield f"{name} {costs}: status", (errors, status), ("", 0)
        rows = lines_of(output)
        yield f"{name} {costs}: lines", [(row["store"], row["cores"]) for row in rows], list(figures_of)
        for row in rows:
            at = row["store"], row["cores"]
            yield f"{name} {costs} {at}", [row[key] for key in FIGURES], figures_of[at]
        yield from check_sums(f"{name} {costs}", rows, "queue")


def unread(program: list[str], words: list[str]) -> tuple[str, str, int, int]:
    """What a program makes of words, and how far it read the image that it is given."""
    with tempfile.TemporaryFile() as given:
        given.write(COUNTER.encode("ascii"))
        given.seek(0)
        done = called_bytes([*program, *words], stdin=given)
        return (done.stdout.decode("ascii"), done.stderr.decode("ascii"), done.returncode,
                os.lseek(given.fileno(), 0, os.SEEK_CUR))


@comparing
def check_refused_words(gain: list[str], replay: list[str]) -> Iterator[Row]:
    usage = ("", "usage\n", 2, 0)
    for words in REFUSED:
        for before in (["2"], ["2", "plain", "--held", "--wait", "00000000", "--limits"]):
            yield f"gain {before} {words}"[:200], unread(gain, [*before, *words]), usage
        for before in (["even", "plain", "2"], ["even", "plain", "2", "--wait", "00000000"], ["held", "plain", "2"]):
            yield f"replay {before} {words}"[:200], unread(replay, [*before, *words]), usage
    for costs in (SETS["bus10"], SETS["bus10b"], ["--hold", "1"]):
        for at in WITHOUT_COSTS["gain"]:
            yield f"gain {at} {costs}", unread(gain, [*at, *costs]), usage
        for at in WITHOUT_COSTS["replay"]:
            yield f"replay {at} {costs}", unread(replay, [*at, *costs]), usage
    yield ("and of words that it takes all is read", unread(gain, ["2", *SETS["bus10"]])[1:], ("", 0, len(COUNTER)))


@comparing
def check_same_words(gain: list[str]) -> Iterator[Row]:
    """Words that say the same: `bus` is each key, in any order, and what isn't named is 0. The limits have no costs."""
    costs = ["--costs", ",".join(f"{key}=7" for key in KEYS)]
    reverse = ["--costs", ",".join(f"{key}=7" for key in reversed(KEYS))]
    for one, other in ((["--costs", "bus=7"], costs), (costs, reverse), (costs, [*costs, "--hold", "0"]),
                       (["--hold", "7"], ["--costs", "line=0", "--hold", "7"]),
                       (["--costs", "begin=7"], ["--costs", "miss=0,begin=7,line=0", "--hold", "0"])):
        yield f"{one} and {other}", run(gain, ["4", *one], COUNTER), run(gain, ["4", *other], COUNTER)
    output, errors, status = run(gain, ["4", "--limits", *costs], COUNTER)
    runs, told = without_limits(output)
    yield "limits: the runs", (runs, errors, status), run(gain, ["4", *costs], COUNTER)
    yield "limits: without costs", told, without_limits(run(gain, ["4", "--limits"], COUNTER)[0])[1]
    yield ("an image that is refused", run(gain, ["2", *costs], "size 1\n"), ("", "image 1 Range\n", 2))
    with open("/dev/full", "w", encoding="ascii") as full:
        done = called([*gain, "2", *costs], COUNTER, stdout=full)
    yield "a write that fails", (done.stderr, done.returncode), ("stopped Write\n", 3)


@comparing
def check_by_hand(gain: list[str]) -> Iterator[Row]:
    """The four epochs of the counter on one core: each begins, executes four instructions, and commits. Over caches the
    first load misses, and its core has the line from then on: it pays for nothing else, nor waits for the bus.

    Of two epochs that store to bytes of one line each begins, executes three instructions, of which the second stores,
    and commits. Over plain the one commits in its fifth step, and the other when that commit's five more are over; the
    first core is idle as long. Over caches both stores miss in the third step. The one holds the bus for ten steps, for
    which the other waits; it is the homefree one when it goes on."""
    costs = "miss=100,upgrade=7,begin=20,restart=9,commit=3,line=5"
    handling = 4 * (1 + 20) + 4 * (1 + 3)
    for text, words, wanted in (
            (COUNTER, ["1", "plain", "--costs", costs, "--hold", "11"],
             [16 + handling, 16, 16, handling, 0, 0, 0, 0, 0, 0, 0]),
            (COUNTER, ["1", "caches", "--costs", costs, "--hold", "11"],
             [116 + handling, 116, 16, handling, 100, 0, 0, 0, 0, 0, 0]),
            (BYTES, ["2", "plain", "--costs", "begin=2,commit=5"], [17, 6, 6, 18, 0, 5, 0, 0, 0, 5, 0]),
            (BYTES, ["2", "caches", "--costs", "miss=4", "--hold", "10"], [19, 10, 6, 4, 8, 10, 0, 0, 0, 10, 0])):
        row = lines_of(run(gain, words, text)[0])[-1]
        yield f"by hand: {words}", [int(row[key]) for key in FIGURES], wanted
    keys, priced = (list(lines_of(run(gain, ["1", "--wait", "00000000", *behind], COUNTER)[0])[0])
                    for behind in (list[str](), ["--hold", "0"]))
    place = keys.index("useful")
    yield "the words of a line", priced, [*keys[:place], "order", *SPENT, *keys[place + 1:]]


@comparing
def check_dear(gain: list[str]) -> Iterator[Row]:
    """The largest costs, in a loop of a long history: `order` is the instructions, and what four epochs ask for."""
    costs = ["--costs", "bus=1000000", "--hold", "1000000"]
    output, errors, status = run(gain, ["4", *costs], COUNT_DOWN)
    yield "dear: status", (errors, status), ("", 0)
    rows = lines_of(output)
    yield from check_sums("dear", rows, "queue")
    instructions = 2 * 409_600 + 5 + 3 * 4
    for row in rows:
        at = f"dear: {row['store']} {row['cores']}"
        yield f"{at}: busy", int(row["busy"]), instructions
        yield f"{at}: order", (int(row["order"]) - instructions) % 1_000_000, 0


class Case(NamedTuple):
    """An image, on how many cores it runs, over which stores; which loads wait; and what turns cost."""

    text: bytes
    cores: int
    stores: list[str]
    held: bool
    waits: list[str]
    costs: list[str]

    def words(self) -> list[str]:
        """Those of `gain` before what turns cost."""
        return [str(self.cores), *self.stores, *["--held"] * self.held, *self.waits]

    def cost(self, key: str) -> int:
        """What one of the keys costs."""
        said = self.costs[1] if self.costs[0] == "--costs" else ""
        numbers = dict(one.split("=") for one in said.split(",") if one)
        return int(numbers.get(key, numbers.get("bus", "0")))

    def paces(self) -> Iterator[tuple[str, list[str]]]:
        """The runs at even speed: how `gain` begins their lines, and the words of `replay` behind the cores."""
        yield "even", self.waits
        if self.held:
            yield "held", []


def store_of(rng: random.Random, size: int) -> str:
    """A word of a store whose lines fit the memory."""
    numbers = {"line": [n for n in (16, 32, 64) if size % n == 0], "sets": [1, 2, 4, 64], "ways": [1, 2, 4],
               "buffer": [1, 2, 4, 16]}
    keys = rng.sample([key for key in numbers if numbers[key]], rng.randint(1, 3))
    return "caches:" + ",".join(f"{key}={rng.choice(numbers[key])}" for key in keys)


def costs_of(rng: random.Random) -> list[str]:
    """Some costs, or how long messages hold the bus, or both."""
    def number() -> int:
        return rng.choice([0, 1, 2, 3, 10, 40, rng.randint(0, 300), rng.randint(0, 1_000_000)])
    keys = ["bus"] if rng.random() < 0.3 else rng.sample(KEYS, rng.randint(1, len(KEYS)))
    costs = ["--costs", ",".join(f"{key}={number()}" for key in keys)]
    hold = ["--hold", str(number())]
    return rng.choice([costs, costs, [*costs, *hold], [*costs, *hold], hold])


def image_in(text: bytes) -> Image | None:
    try:
        return image_of(text)
    except Refused:
        return None


def drawn(rng: random.Random) -> Case:
    text, cores = wide(rng) if rng.random() < 0.2 else loop_of(rng)
    loop = image_in(text)
    size, code = (loop.size, loop.code) if loop else (256, 64)
    stores = [rng.choice(["plain", "caches", store_of(rng, size)]) for _ in range(2)]
    waits = ["--wait", *(f"{4 * rng.randrange(code // 4 + 1):08x}" for _ in range(rng.randint(1, 4)))]
    return Case(text, cores, list(dict.fromkeys(stores)), rng.random() < 0.3, waits if rng.random() < 0.3 else [],
                costs_of(rng))


def as_useful(row: dict[str, str]) -> dict[str, str]:
    """A line with costs as one without."""
    others = {key: word for key, word in row.items() if key not in [*SPENT, "order"]}
    return {**others, "useful": str(sum(int(row[key]) for key in SPENT))}


def check_refused(gain: list[str], replay: list[str], name: str, case: Case) -> Iterator[Row]:
    """An image that is refused is refused whatever turns cost."""
    seen["refused"] += 1
    without = run(gain, case.words(), case.text)
    yield f"{name}: refused", without[1].split()[0], "image"
    yield f"{name}: refused, with costs", run(gain, [*case.words(), *case.costs], case.text), without
    for pace, waits in case.paces():
        words = [pace, case.stores[0], str(case.cores), *waits, *case.costs]
        yield f"{name}: refused, {pace}", run(replay, words, case.text), without


def check_gain(gain: list[str], name: str, case: Case) -> Iterator[Row]:
    """The lines of `gain`: what costs nothing is the run without costs, and each run executes what the loop does in
    order, wherever that ends and whatever turns cost."""
    instructions = sum(path.count for path in Loop(image_of(case.text)).in_order)
    free, without = run(gain, [*case.words(), *SETS["ideal"]], case.text), run(gain, case.words(), case.text)
    yield f"{name}: no costs, status", free[1:], without[1:]
    for ours, others in zip(without_held(free[0]), without_held(without[0])):
        yield f"{name}: no costs", [as_useful(row) for row in lines_of(ours)], lines_of(others)
    printed = run(gain, [*case.words(), *case.costs], case.text)
    yield f"{name}: again", run(gain, [*case.words(), *case.costs], case.text), printed
    runs, held = map(lines_of, without_held(printed[0]))
    yield from check_sums(name, runs, "held" if case.waits else "queue")
    yield from check_sums(f"{name}: held", held, "held")
    orders = {store: order_of(gain, case, store, instructions) for store in case.stores}
    for row in [*runs, *held]:
        seen.update(key for key in [*SUMS, "held", "restarts"] if row.get(key, "0") != "0")
        yield (f"{name}: {row['store']} {row['cores']}", (int(row["busy"]), int(row["order"])),
               (instructions, orders[row["store"]]))
    yield f"{name}: held over plain", [row for row in held if row["store"] == "plain" and row["restarts"] != "0"], []


def order_of(gain: list[str], case: Case, store: str, instructions: int) -> int:
    """How many steps the loop takes in order: its instructions, and what its misses and upgrades cost. How many these
    are is what they cost at a step each; over plain there is none."""
    steps = instructions
    for key in ("miss", "upgrade") if store != "plain" else ():
        row = lines_of(run(gain, ["1", store, "--costs", f"{key}=1"], case.text)[0])[0]
        steps += (int(row["order"]) - instructions) * case.cost(key)
    return steps


def check_replay(gain: list[str], replay: list[str], name: str, case: Case) -> Iterator[Row]:
    """The turns of `replay even` and `replay held` make what it shows below them: the report of the loop, and as many
    restarts as `gain` counts."""
    report = report_of(image_of(case.text))[0]
    output = run(gain, [*case.words(), *case.costs], case.text)[0]
    rows = dict(zip(("even", "held"), map(lines_of, without_held(output))))
    for pace, waits in case.paces():
        for store in case.stores:
            at = [store, str(case.cores)]
            printed, errors, status = run(replay, [pace, *at, *waits, *case.costs], case.text)
            turns, _, below = printed.partition("\n")
            again = run(replay, at, case.text + b"\n" + turns.encode("ascii") + b"\n")
            yield f"{name} {pace} {at}: replayed", again, (below, errors, status)
            yield f"{name} {pace} {at}: the report", below[:len(report)], report
            seen[below_end(printed)] += 1
            counts = next(line.split() for line in below.splitlines() if line.startswith("counts "))
            row = next(row for row in rows[pace] if [row["store"], row["cores"]] == at)
            yield f"{name} {pace} {at}: restarts", row["restarts"], counts[3]


@comparing
def check_runs(gain: list[str], replay: list[str], count: int) -> Iterator[Row]:
    for index in range(count):
        case = drawn(random.Random(f"costs/{index}"))
        name = f"random {index} {' '.join([*case.words(), *case.costs])}"
        if image_in(case.text) is None:
            yield from check_refused(gain, replay, name, case)
            continue
        yield from check_gain(gain, name, case)
        yield from check_replay(gain, replay, name, case)


def main() -> int:
    script = Script()
    parser = argparse.ArgumentParser(description="Tests runs in which turns cost something.")
    parser.add_argument("--random", type=int, default=40, help="how many random images are tried")
    parser.add_argument("command", nargs=argparse.REMAINDER)
    given = parser.parse_args(script.words)
    gain, replay = (beside(given.command or [str(ROOT / "trace_cli")], name) for name in ("gain", "replay"))
    if gain is None or replay is None:
        left_out("costs", "gain and replay weren't built beside the program that is tested")
        return 0
    both = [str(gain)], [str(replay)]
    script.run(*[partial(part, both[0]) for part in (check_examples, check_same_words, check_by_hand, check_dear)],
               partial(check_refused_words, *both), partial(check_runs, *both, given.random))
    print("random images:", ", ".join(f"{seen[key]} {key}" for key in sorted(seen)))
    return script.ended()


if __name__ == "__main__":
    sys.exit(main())
