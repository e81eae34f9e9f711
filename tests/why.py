#!/usr/bin/env python3
"""Tests the program `why` on real traces: loops of examples/ run on 2, 4 and 8 cores, and what it answers where `audit`
refuses.

Usage: tests/why.py [COMMAND ..]

COMMAND is a command of `trace_cli` that ends with the word `seq`, such as crates/trace_cli/out/trace_cli seq; `why` is
the program that was built beside it. Without it ./trace_cli and ./why of this repository are tested. Where no such
program is beside it the test is left out, and a line says so. Of each run: one line for each violation of its trace, in
their places; no violation is unexplained; the lines of further runs stand below their violation's and share no byte
with another of its runs; one line for each cancellation of an attempt that was not violated, and for each attempt that
goes on; the sums of the kinds, of the pairs of instructions, and the total, are those of the lines, and pairs and lines
of the caches stand heaviest first. With the word `--attempts` there is a line more for each attempt, in the order of
their starts and restarts, and its instructions are those of the other lines. Exits with 1 where a check failed.
"""

import sys
from collections.abc import Iterator, Sequence
from dataclasses import dataclass
from functools import partial
from pathlib import Path
from typing import NamedTuple

from common import ROOT, Check, Script, beside, called, differs, left_out
from seq_rows import MOST_SECONDS, Outcome

LOOPS = ["byte_search", "counter", "first_match", "hash_insert", "histogram", "list_walk", "maximum", "moving_pointer",
         "own_counters", "padded_counters", "recurrence", "shift_left", "wait_for_flag", "wide_lines"]
CORES = [2, 4, 8]
WAITS = "size 256\nepochs 2\nlimit 50\ncode 6308050083220004e38e02fe67800000930210002320500467800000\n"
# (what it shows, input, standard output, standard error, status)
# Epoch 1 waits for a word, which epoch 0 stores; it is violated when epoch 0 commits, and goes on.
GOES_ON = WAITS + ("trace 2\n0 start 0\n1 start 1\n1 load 00000040 4 00000000\n0 store 00000040 4 00000001\n0 hurt 1\n"
                   "0 commit\n1 restart\n")
ATTEMPTS = ("attempt 0 epoch 0 try 1 core 0 done 4 committed 5 by 0 core 0\n"
            "attempt 1 epoch 1 try 1 core 1 done 3 violated 4 by 0 core 0\n"
            "attempt 6 epoch 1 try 2 core 1 done 1 open\n")
REFUSED = [
    ("an image without its code", "size 256\ntrace 2\n", "", "image 0 MissingOrRepeated\n", 2),
    ("a trace without its head", WAITS, "", "trace 0 Head\n", 2),
    ("a line that is none", WAITS + "trace 2\n0 begin 0\n", "", "trace 6 Line\n", 2),
    ("an input that is a byte too long", WAITS + "trace 2\n" + "#" * (33_554_433 - len(WAITS) - len("trace 2\n")), "",
     "trace 0 TooLong\n", 2),
    ("an image that is a byte too long", WAITS + "#" * (1_048_576 - len(WAITS)) + "\ntrace 2\n", "",
     "image 0 TooLong\n", 2),
    ("an entry that is refused", WAITS + "trace 2\n0 start 1\n", "illegal 0 NotNext\n", "", 4),
    ("no entry", WAITS + "trace 2\n",
     "total epochs 2 committed 0 useful 0 rollbacks 0 lost 0 cancelled 0 dropped 0 open 0 unsettled 0\n", "", 0),
]


@dataclass
class Attempt:
    """What a core runs: the epoch, the number of the attempt, and whether it isn't violated."""
    epoch: str
    number: int = 1
    goes_on: bool = True


class Met(NamedTuple):
    """What the line of a violation, and those that belong to it, say of its pair of instructions."""
    kind: str
    lost: int
    stale: bool
    vain: bool
    later: bool
    distance: int
    first: int
    length: int


def outcome(command: Sequence[str | Path], text: str) -> Outcome:
    done = called(command, text, MOST_SECONDS)
    return done.stdout, done.stderr, done.returncode


def value_of(words: list[str], name: str) -> int:
    return int(words[words.index(name) + 1])


FATES = {"hurt": "violated", "cancel": "cancelled", "commit": "committed", "fault": "faulted"}


def attempts(entries: list[str]) -> list[tuple[str, str]]:
    """Of each attempt of a trace, by its first entry: `ENTRY epoch E try T core C`, and how it ended."""
    told: list[tuple[str, str]] = []
    runs: dict[str, tuple[str, int, int | None]] = {}           # epoch, try, and which in `told` where it goes on
    for place, (core, what, *rest) in enumerate(entry.split() for entry in entries):
        if what in ("start", "restart"):
            epoch, number = (rest[0], 1) if what == "start" else (runs[core][0], runs[core][1] + 1)
            runs[core] = epoch, number, len(told)
            told.append((f"{place} epoch {epoch} try {number} core {core}", "open"))
        if what in FATES:
            one = next(core for core, run in runs.items() if run[0] == rest[0]) if what in ("hurt", "cancel") else core
            epoch, number, at = runs[one]
            if at is not None:
                told[at] = (told[at][0], f"{FATES[what]} {place} by {runs[core][0]} core {core}")
            runs[one] = epoch, number, None
            if what in ("cancel", "commit"):
                del runs[one]
    return told


def attempts_wrong(report: str, plain: str, trace: str) -> str | None:
    """What is wrong with the lines of attempts in a report that has them, or None: which they are, and what they
    executed by the other lines."""
    lines = report.splitlines(True)
    if "".join(line for line in lines if not line.startswith("attempt ")) != plain:
        return "the other lines are not those without the word"
    told = [line.split() for line in lines if line.startswith("attempt ")]
    wanted = attempts(trace.splitlines()[1:])
    if [(" ".join(words[1:8]), " ".join(words[10:])) for words in told] != wanted:
        return f"the attempts are {told}, but the trace has {wanted}"
    others = [line.split() for line in plain.splitlines()]
    done = {words[11]: int(words[9]) for words in told if words[10] in ("violated", "cancelled")}
    if done != {words[1]: value_of(words, "lost") for words in others if words[0] in ("hurt", "cancel")}:
        return f"the attempts that did not commit executed {done}"
    sums = [sum(int(words[9]) for words in told if words[10] in fates)
            for fates in (("committed", "faulted"), ("open",))]
    if sums != [value_of(others[-1], "useful"), value_of(others[-1], "unsettled")]:
        return f"those that committed or go on executed {sums}"
    return None


def unended(entries: list[str]) -> tuple[list[str], list[str]]:
    """The cancellations of a trace, by their places, and the attempts that go on after it: each as `epoch E try T core
    C`. A violated attempt is none of them."""
    attempts: dict[str, Attempt] = {}
    cancelled: list[str] = []
    for place, (core, what, *rest) in enumerate(entry.split() for entry in entries):
        if what == "start":
            attempts[core] = Attempt(rest[0])
        elif what == "restart":
            attempts[core] = Attempt(attempts[core].epoch, attempts[core].number + 1)
        elif what == "hurt":
            next(attempt for attempt in attempts.values() if attempt.epoch == rest[0]).goes_on = False
        elif what == "cancel":
            victim = next(one for one, attempt in attempts.items() if attempt.epoch == rest[0])
            ended = attempts.pop(victim)
            if ended.goes_on:
                cancelled.append(f"{place} epoch {ended.epoch} try {ended.number} core {victim}")
        elif what in ("commit", "fault"):
            del attempts[core]
    return cancelled, [f"epoch {attempt.epoch} try {attempt.number} core {core}"
                       for core, attempt in sorted(attempts.items(), key=lambda one: int(one[0])) if attempt.goes_on]


def pair_lines(lines: list[list[str]]) -> list[str]:
    """The lines of pairs that the lines of violations give, heaviest first."""
    marked = {word: {int(words[1]) for words in lines if words[0] == word} for word in ("vain", "later")}
    pairs: dict[tuple[str, str], list[Met]] = {}
    for words in (words for words in lines if words[0] == "hurt"):
        names = ("asked", "held") if words[2] == "buffer" else ("store", "load")
        (store, stored), (load, loaded) = [words[len(words) - words[::-1].index(name):][:2] for name in names]
        if "-" not in (stored, loaded):
            pairs.setdefault((stored, loaded), []).append(Met(
                kind=words[2], lost=value_of(words, "lost"), stale=names[0] == "store" and int(store) < int(load),
                vain=int(words[1]) in marked["vain"], later=int(words[1]) in marked["later"],
                distance=value_of(words, "epoch") - value_of(words, "by"),
                first=int(words[words.index("at") + 1], 16), length=int(words[words.index("at") + 2])))
    told = []
    for (store, load), those in pairs.items():
        lost, first = sum(one.lost for one in those), min(one.first for one in those)
        kinds = [f"{kind} {sum(one.kind == kind for one in those)}"
                 for kind in ("true", "silent", "false", "buffer")]
        fates = [f"stale {sum(one.stale for one in those)}", f"vain {sum(one.vain for one in those)}",
                 f"later {sum(one.later for one in those)}"]
        distances = [one.distance for one in those]
        head = (f"pair asked {store} held {load}" if any(one.kind == "buffer" for one in those)
                else f"pair store {store} load {load}")
        text = " ".join([head, f"rollbacks {len(those)} lost {lost}", *kinds, *fates,
                         f"distance {min(distances)} {max(distances)}",
                         f"at {first:08x} {max(one.first + one.length for one in those) - first}"])
        told.append((-lost, -len(those), store, load, text))
    return [text for *_, text in sorted(told)]


def differences(report: str, trace: str) -> str | None:
    """What is wrong with the report on a trace, or None."""
    entries = trace.splitlines()[1:]
    places = [place for place, entry in enumerate(entries) if entry.split()[1] == "hurt"]
    lines = [line.split() for line in report.splitlines()]
    hurts, kinds, cancels, opens = [[words for words in lines if words[0] == first]
                                    for first in ("hurt", "kind", "cancel", "open")]
    total = lines[-1]
    if [int(words[1]) for words in hurts] != places:
        return f"violations stand at {places}"
    if any(words[2] == "other" for words in hurts):
        return "a violation is unexplained"
    for words in kinds:
        of_kind = [value_of(hurt, "lost") for hurt in hurts if hurt[2] == words[1]]
        if (value_of(words, "rollbacks"), value_of(words, "lost")) != (len(of_kind), sum(of_kind)):
            return f"{' '.join(words)}, but the lines have {len(of_kind)} and {sum(of_kind)}"
    if {words[1] for words in kinds} != {words[2] for words in hurts}:
        return "the kinds are not those that occur"
    pairs, wanted = [line for line in report.splitlines() if line.startswith("pair ")], pair_lines(lines)
    if pairs != wanted:
        return f"the pairs are {pairs}, but the lines have {wanted}"
    weights = [(-value_of(words, "lost"), -value_of(words, "rollbacks"), words[1]) for words in lines
               if words[0] == "line"]
    if weights != sorted(weights):
        return "the lines do not stand heaviest first"
    cancelled, going_on = unended(entries)
    if ([" ".join(words[1:8]) for words in cancels],
        [" ".join(words[1:7]) for words in opens]) != (cancelled, going_on):
        return f"{cancelled} were cancelled, and {going_on} go on"
    for those, count, name, done in [(hurts, "rollbacks", "lost", "lost"), (cancels, "cancelled", "dropped", "lost"),
                                     (opens, "open", "unsettled", "done")]:
        sums = (len(those), sum(value_of(words, done) for words in those))
        if (value_of(total, count), value_of(total, name)) != sums:
            return f"{' '.join(total)}, but the lines have {sums}"
    return None


def runs_wrong(report: str) -> str | None:
    """What is wrong with the lines of further runs, or None: each stands below its violation's, is of a kind that a run
    can have, and no byte is in two runs."""
    place: str | None = None
    taken: set[int] = set()
    for words in (line.split() for line in report.splitlines()):
        if words[0] == "hurt":
            place, taken = words[1], set()
        if words[0] == "also" and (words[1] != place or words[2] not in ("true", "silent", "false")):
            return f"{' '.join(words)} stands below {place}"
        if words[0] in ("hurt", "also") and words[words.index("at") + 1] != "-":
            first, length = int(words[words.index("at") + 1], 16), int(words[words.index("at") + 2])
            if taken & set(range(first, first + length)):
                return f"{' '.join(words)} has a byte of another run"
            taken |= set(range(first, first + length))
    return None


def real(command: list[str], why: Path) -> Iterator[Check]:
    """Each run."""
    for name in LOOPS:
        image = (ROOT / "examples" / f"{name}.image").read_text()
        for cores in CORES:
            printed, _, _ = outcome([*command[:-1], "run", "--cores", str(cores), "--trace"], image)
            trace = printed[f"\n{printed}".index("\ntrace "):]
            report, errors, status = outcome([why], image + trace)
            yield (f"{name} on {cores} cores",
                   f"{errors!r}, status {status}" if (errors, status) != ("", 0) else differences(report, trace)
                   or runs_wrong(report))
            told, errors, status = outcome([why, "--attempts"], image + trace)
            yield (f"the attempts of {name} on {cores} cores",
                   f"{errors!r}, status {status}" if (errors, status) != ("", 0)
                   else attempts_wrong(told, report, trace))


def refused(why: Path) -> Iterator[Check]:
    for name, text, output, errors, status in REFUSED:
        yield name, differs(outcome([why], text), (output, errors, status))
    for name, word in ("a word", "seq"), ("a word that is no UTF-8", "\udcff"):
        yield name, differs(outcome([why, word], WAITS), ("", "usage\n", 2))
    for words in (["--attempts", "plain"], ["--attempts", "--attempts"], ["plain", "attempts"], ["--attempts="],
                  ["plain", "--attempts", "--attempts"]):
        yield f"the words {' '.join(words)}", differs(outcome([why, *words], WAITS), ("", "usage\n", 2))
    for words in (["--attempts"], ["plain", "--attempts"], ["caches:sets=4", "--attempts"]):
        told = outcome([why, *words], GOES_ON)[0].splitlines(True)
        yield (f"the words {' '.join(words)}",
               differs("".join(line for line in told if line.startswith("attempt ")), ATTEMPTS))


def main() -> int:
    script = Script()
    command = script.command()
    why = beside(command, "why")
    if why is None or not why.is_file():
        left_out("why", "no program of that name was built beside the one that is tested")
        return 0
    script.run(partial(real, command, why), partial(refused, why))
    return script.ended("reports")


if __name__ == "__main__":
    sys.exit(main())
