#!/usr/bin/env python3
"""Tests `replay threads`: runs on threads over caches of any size and over the plain store.

Usage: tests/on_threads.py [--runs N] [--seed S] [--store STORE] [COMMAND ..]

COMMAND is a command of `trace_cli` that ends with the word `seq`; `replay` is the program that was built beside it.
Without it those of this repository are tested. Where `replay` isn't built the test is left out, and a line says so. Of
each of N runs, 40 without the word, of examples and of random loops on 2, 4, 8 or 16 cores: the report is that of
`seq`, the counts are those of the trace, `audit` finds it legal up to the end, and its turns, which `replay` takes
again over the same store, make the same. They are over the stores of STORES in turn, or all over STORE. Run number I of
seed S is always of the same loop, but its threads run as the machine lets them. Exits with 1 where an outcome differs.
"""

import argparse
import random
import sys
from collections import Counter
from collections.abc import Iterator
from concurrent.futures import ThreadPoolExecutor
from functools import partial
from pathlib import Path

from common import ROOT, Check, Row, Script, beside, called, comparing, differs, left_out

sys.path.insert(0, str(ROOT / "tests" / "model"))

from audit_rows import FAULTS, WAIT  # noqa: E402
from gain import wide  # noqa: E402
from machines import size_of  # noqa: E402
from seq_rows import COUNTER, FOUR, at, done, fault, image, refused  # noqa: E402
from stores import ODD  # noqa: E402
from stress import COUNTED, loop_of  # noqa: E402

LARGE = "caches:sets=64,ways=4,buffer=16"
STORES = (LARGE, "plain", "caches:sets=1,ways=1,buffer=1", "caches:line=32,sets=2,ways=1,buffer=2")
EXAMPLES = sorted((ROOT / "examples").glob("*.image"))
USAGE = ("", "usage\n", 2)
seen: Counter[str] = Counter()
# Each program by its name.
Programs = dict[str, Path]


def outcome(program: Path, words: list[str], text: str) -> tuple[str, str, int]:
    done_so = called([program, *words], text, encoding="latin-1")
    return done_so.stdout, done_so.stderr, done_so.returncode


# --- Rows --------------------------------------------------------------------------

# Images with their reports, which don't depend on how the threads run.
REPORTS = [
    ("four epochs add their numbers to one word", 4, FOUR, done(4, at(0x40, "06"))),
    ("on sixteen cores in version 2", 16, "version 2\n" + FOUR, done(4, at(0x40, "06"))),
    ("no epochs", 2, image(COUNTER, epochs=0), done(0)),
    ("an epoch that waits for the one before it", 2, WAIT, done(2, at(0x40, "01"))),
    ("a fault", 3, FAULTS, fault(0, 1, 0)),
]
# Words and an input that are refused.
REFUSALS = [
    *[(words, FOUR, USAGE) for words in (
        ["threads"], ["threads", LARGE], ["threads", "2", LARGE], ["threads", LARGE, "2", "2"], ["threads", LARGE, "0"],
        ["threads", LARGE, "17"], ["threads", LARGE, "02"], ["threads", LARGE, "+2"], ["threads", LARGE, ""],
        ["threads", "bus", "2"], ["threads", "caches:sets", "2"], ["Threads", LARGE, "2"], ["threads", LARGE, "9"],
        ["steps", "threads", LARGE, "2"], ["threads", "caches:sets=3", "2"], ["threads", "caches:ways=17", "2"])],
    (["threads", "caches:line=64", "2"], ODD, USAGE),
    (["threads", "plain", "9"], FOUR, USAGE),
    (["threads", "caches:line=64", "9"], FOUR + "at 00000000 00\n", refused(5, "Place")),
    (["threads", "caches:sets=3", "2"], "", refused(0, "MissingOrRepeated")),
    (["threads", LARGE, "2"], image("8322000"), refused(4, "Hex")),
    (["threads", LARGE, "2"], "#" * 1_048_577, refused(0, "TooLong")),
]


@comparing
def rows(programs: Programs) -> Iterator[Row]:
    """What is printed of images worked out by hand, and what is refused."""
    for store in STORES:
        for name, cores, text, (report, errors, status) in REPORTS:
            output, *ended = outcome(programs["replay"], ["threads", store, str(cores)], text)
            yield f"{name} over {store}", (output.partition("counts ")[0], *ended), (report, errors, status)
    for words, text, wanted in REFUSALS:
        yield f"refused: {words}", outcome(programs["replay"], words, text), wanted


# --- Runs --------------------------------------------------------------------------

def loop(rng: random.Random, index: int) -> tuple[str, int]:
    """The text of an image, and the most cores of its version."""
    if index % 3 == 0:
        text = rng.choice(EXAMPLES).read_text(encoding="latin-1")
    else:
        text = (wide if rng.random() < 0.5 else loop_of)(rng)[0].decode("latin-1")
    return text, 16 if "\nversion 2\n" in f"\n{text}" else 8


def chosen(seed: str, index: int, store: str | None) -> tuple[str, str, int]:
    """The loop of a run, its store and its cores."""
    rng = random.Random(f"on_threads/{seed}/{index}")
    text, most = loop(rng, index)
    cores = rng.choice([count for count in (2, 4, 8, 16) if count <= most])
    word = store or STORES[index % len(STORES)]
    return text, word if size_of(text) % 64 == 0 or "line=" not in word else LARGE, cores


def wrong(programs: Programs, text: str, store: str, cores: int) -> str | None:
    """What is wrong with a run of this loop, or None."""
    output, errors, status = outcome(programs["replay"], ["threads", store, str(cores)], text)
    report = outcome(programs["trace_cli"], ["seq"], text)
    top, counts, below = output.partition("counts ")
    if (top, errors, status) != report:
        return differs((top, errors, status), report)
    seen[f"status {status}"] += 1
    if status > 1:
        return differs(output, "")
    line, _, trace = below.partition("\n")
    entries = [words.split()[1] for words in trace.splitlines()[1:]]
    seen.update(entries)
    seen["entries"] += len(entries)
    seen[f"{cores} cores"] += 1
    ended = top.split()
    homefree = int(ended[2]) + (ended[1] == "exit")
    traced = f"{text}\n{trace}"
    found = [
        ("counts", counts + line, " ".join(["counts", *(str(entries.count(word)) for word in COUNTED)])),
        ("audit", outcome(programs["trace_cli"], ["audit"], traced), (f"legal {len(entries)} {homefree}\n", "", 0)),
        ("again", outcome(programs["replay"], [store], traced), (output, errors, status)),
    ]
    return next((f"{name}: {differs(got, wanted)}" for name, got, wanted in found if got != wanted), None)


def runs(programs: Programs, seed: str, count: int, store: str | None) -> Iterator[Check]:
    """Each run, four at a time."""
    all_chosen = [chosen(seed, index, store) for index in range(count)]
    with ThreadPoolExecutor(4) as pool:
        for index, found in enumerate(pool.map(lambda run: wrong(programs, *run), all_chosen)):
            yield f"run {index} of seed {seed} over {all_chosen[index][1]} on {all_chosen[index][2]} cores", found


def main() -> int:
    script = Script()
    parser = argparse.ArgumentParser(description="Tests runs on threads over caches of any size.")
    parser.add_argument("--runs", type=int, default=40, help="how many runs are made")
    parser.add_argument("--seed", default="1")
    parser.add_argument("--store", help="the store of all runs")
    parser.add_argument("command", nargs=argparse.REMAINDER)
    given = parser.parse_args(script.words)
    command = given.command or [str(ROOT / "trace_cli"), "seq"]
    found = {name: beside(command, name) for name in ("replay", "trace_cli")}
    programs = {name: path for name, path in found.items() if path}
    if len(programs) < len(found):
        left_out("on_threads", "replay wasn't built beside the program that is tested")
        return 0
    script.run(partial(rows, programs), partial(runs, programs, given.seed, given.runs, given.store))
    print("runs:", ", ".join(f"{seen[key]} {key}" for key in sorted(seen)))
    return script.ended()


if __name__ == "__main__":
    sys.exit(main())
