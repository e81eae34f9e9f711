#!/usr/bin/env python3
"""Random schedules of random loops, turn by turn: what `replay steps` says of each turn, summed up, beside the flat
machine of flat_audit.py.

Usage: tests/model/steps_fuzz.py [--only WORD] [--seed S] [--count N] [--jobs J] [--keep DIR] [COMMAND ..]

COMMAND is a command of `trace_cli` that ends with the word `seq`; `replay` is the program that was built beside it.
Without it ./replay of this repository is tested. Schedule number I of seed S is always the same, over the version's
caches, over the plain store and over caches of another size in turn. After each turn the flat machine has its entries
done. Then each core has to run what the machine's does, with the hart that it was given, and committed memory has to be
the machine's. A core of the plain store has to keep just the bytes that were stored and those that were read from
outside; one with a cache marks just their lines, each of its other bytes is the committed one, and its buffer has just
the shared lines to which it has stored. A place is told where it isn't as it was, and nowhere else, in the order of the
places. Below the line `end` there has to be what `replay` prints without `steps`. The first schedule that differs is
written to DIR, and ends the test with status 1. 2,000 take some minutes.
"""

import argparse
import random
import sys
import time
from collections import Counter
from collections.abc import Iterator
from concurrent.futures import ThreadPoolExecutor
from functools import partial
from pathlib import Path
from typing import NamedTuple

sys.path.insert(0, str(Path(__file__).resolve().parent.parent))

import flat_audit  # noqa: E402
import machines  # noqa: E402
import rv32_seq  # noqa: E402
import stress  # noqa: E402
from common import ROOT, TOO_LONG, Check, Script, kept, left_out, to_first_failure  # noqa: E402
from flat_audit import Core, Flat  # noqa: E402
from places import Machine, machine_of  # noqa: E402
from replay import program_of  # noqa: E402
from rv32_seq import Image  # noqa: E402
from steps_rows import NAMED, turns_of  # noqa: E402

NOTHING = ["0000", "0000", "0" * 32]
# How many turns there were.
seen: Counter[str] = Counter()
# A place, or the end of one, by its words; and what stands there
Place = tuple[str, ...]
Now = list[str]


class Case(NamedTuple):
    """The text of an image, on how many cores it runs, over which store, and the turns."""

    text: bytes
    cores: int
    store: str
    schedule: list[int]

    def given(self) -> bytes:
        """The input of `replay`."""
        return self.text + f"turns {' '.join(map(str, self.schedule))}\n".encode()


class Differs(Exception):
    """What is told of a turn isn't so."""


def expect(name: str, got: object, wanted: object) -> None:
    if got != wanted:
        raise Differs(f"{name}\n  expected {wanted}\n  got      {got}")


# --- What stands -----------------------------------------------------------

class Told:
    """What stands at each place by the lines so far."""

    def __init__(self, image: Image) -> None:
        self.image = image
        self.places: dict[Place, Now] = {}

    def first(self, place: Place) -> Now:
        """What stands at a place before the first turn."""
        if place[0] == "at":
            address = int(place[1], 16)
            return [self.image.memory[address:address + 16].hex()]
        return NOTHING if place[0] == "kept" else [] if place[0] == "orb" else ["-"]

    def add(self, changes: list[str]) -> None:
        """Adds the lines below a turn, which are in order and new."""
        order: list[tuple[int, int, int, Place]] = []
        for line in changes:
            words = line.split()
            place, now = tuple(words[:NAMED[words[0]]]), words[NAMED[words[0]]:]
            if now == self.places.get(place, self.first(place)):
                raise Differs(f"not new: {line}")
            self.places[place] = now
            core = int(place[1]) if place[0] not in ("hart", "at") else 0
            kind = {"attempt": 0, "hart": 1, "at": 3}.get(place[0], 2)
            order.append((kind, core, {"orb": 1}.get(place[0], 0),
                          place[2:] if kind == 2 else place[1:] if kind == 3 else ()))
        expect("the order of the lines", order, sorted(set(order)))

    def of(self, word: str, core: int) -> dict[Place, Now]:
        """The places of a core of this kind, without their first two words."""
        return {place[2:]: now for place, now in self.places.items() if place[:2] == (word, str(core))}

    def memory(self) -> bytearray:
        """Committed memory."""
        bytes_now = bytearray(self.image.memory)
        for place, now in self.places.items():
            if place[0] == "at":
                bytes_now[int(place[1], 16):int(place[1], 16) + 16] = bytes.fromhex(now[0])
        return bytes_now


# --- What has to stand -----------------------------------------------------

def kept_by(core: Core | None) -> tuple[dict[int, int], dict[int, int]]:
    """The own bytes, and those read from outside, that a store keeps for a core: of a speculative one alone."""
    return (core.own, core.outside) if core and not (core.hurt or core.straight) else ({}, {})


def check_plain(told: Told, k: int, core: Core | None) -> None:
    """A core of the plain store."""
    own, outside = kept_by(core)
    rows: dict[Place, Now] = {}
    for row in sorted({a // 16 for a in [*own, *outside]}):
        read, stored = (sum(1 << i for i in range(16) if 16 * row + i in those) for those in (outside, own))
        rows[f"{16 * row:08x}",] = [f"{read:04x}", f"{stored:04x}",
                                    bytes(own.get(16 * row + i, 0) for i in range(16)).hex()]
    expect(f"core {k} keeps", {place: now for place, now in told.of("kept", k).items() if now != NOTHING}, rows)


def check_cache(told: Told, k: int, core: Core | None, committed: bytearray, machine: Machine) -> None:
    """A core with a cache of this machine."""
    size, sets, ways, buffer = machine[:4]
    own, outside = kept_by(core)
    stored: dict[int, int] = {}
    loaded: set[int] = set()
    shared: list[str] = []
    for (cache_set, way), now in told.of("line", k).items():
        if now == ["-"]:
            continue
        address, mask, cells = int(now[0], 16), int(now[3], 16), bytes.fromhex(now[4])
        expect(f"core {k}, the mask of {now[0]}", len(now[3]), 16 if size == 64 else 8)
        expect(f"core {k}, the set of {now[0]}", (int(cache_set), int(way) < ways, len(cells)),
               (address // size % sets, True, size))
        there = machine.bytes_at(address, len(committed))
        stored |= {there.get(i, -1): cells[i] for i in range(size) if mask >> i & 1}
        loaded |= {address} if now[2] == "loaded" else set()
        shared += [now[0]] if now[1] == "SpS" and mask else []
        rest = [i for i in there if not mask >> i & 1]
        expect(f"core {k}, the other bytes of {now[0]}", [cells[i] for i in rest],
               [committed[there[i]] for i in rest])
    expect(f"core {k} has stored", stored, own)
    expect(f"core {k} has loaded in", loaded, {machine.place(a, len(committed)) // size * size for a in outside})
    expect(f"the buffer of core {k} has room", len(shared) <= buffer, True)
    expect(f"the buffer of core {k}", sorted(told.of("orb", k).get((), [])), sorted(shared))


def attempt_of(core: Core | None) -> Now:
    return [str(core.epoch), "straight" if core.straight else "speculative"] if core and not core.hurt else ["-"]


def hart_of(core: Core) -> Now:
    return [f"{core.hart.pc:08x}", str(core.hart.done)]


def check_turn(told: Told, flat: Flat, store: str, by: int, answer: list[str]) -> None:
    """All that stands after a turn of this core."""
    if answer[:2] == ["over", "fault"]:
        flat.core(by).straight = True
    if answer[0] != "again":
        hart = hart_of(flat.core(by)) if answer == ["go"] else ["-"]
        expect("the hart", told.of("hart", by).get((), ["-"]), hart)
    for k, core in enumerate(flat.cores):
        expect(f"core {k} runs", told.of("attempt", k).get((), ["-"]), attempt_of(core))
        if store == "plain":
            check_plain(told, k, core)
        else:
            check_cache(told, k, core, flat.committed, machine_of(store, flat.image.version))
    expect("committed memory", told.memory(), flat.committed)


def check(image: Image, case: Case, output: str) -> int:
    """All turns of an output, and how many there are."""
    told, flat = Told(image), Flat(image, case.cores)
    turns = turns_of(output)
    for number, (head, entries, changes) in enumerate(turns):
        expect("turn", head[:2], [str(number), str(case.schedule[number])])
        for line in entries:
            entry = flat_audit.entry_of(line.encode())
            if entry is None:
                raise Differs(f"turn {number}: no entry: {line}")
            expect(f"turn {number}, {line}", flat.refusal(entry), None)
            flat.apply(entry)
        try:
            told.add(changes)
            check_turn(told, flat, case.store, case.schedule[number], head[2:])
        except Differs as wrong:
            raise Differs(f"turn {number}: {wrong}") from None
    return len(turns)


# --- Schedules -------------------------------------------------------------

def case_of(seed: str, index: int) -> Case:
    """A schedule of a random loop."""
    rng = random.Random(f"steps/{seed}/{index}")
    text, cores = stress.loop_of(rng)
    chosen = [rng.random() ** 2 + 0.05 for _ in range(cores)]
    store = ("caches", "plain", machines.machine(random.Random(f"machine/{seed}/{index}"),
                                                 machines.size_of(text.decode("latin-1")), 4))[index % 3]
    return Case(text, cores, store, rng.choices(range(cores), chosen, k=rng.choice([5, 40, 150, 400])))


def wrong_of(program: str, case: Case) -> tuple[str | None, int]:
    """What is wrong with a schedule, or None; and how many turns it had."""
    words = [case.store, str(case.cores)]
    expected = stress.outcome_of([program], words, case.given(), 60)
    output, errors, status = stress.outcome_of([program], ["steps", *words], case.given(), 60)
    below = output.partition("end\n")[2] if status < 2 else output
    try:
        expect("without end", TOO_LONG in (status, expected[2]), False)
        expect("below the line `end`", (below, errors, status), expected)
        return None, check(rv32_seq.image_of(case.text), case, output) if status < 2 else 0
    except Differs as wrong:
        return f"{' '.join(words)}: {wrong}", 0


def schedules(given: argparse.Namespace, program: str) -> Iterator[Check]:
    """The schedules of a seed."""
    with ThreadPoolExecutor(given.jobs) as pool:
        results = pool.map(lambda index: wrong_of(program, case_of(given.seed, index)), range(given.count))
        try:
            for index, (wrong, turns) in enumerate(results):
                seen.update(turns=turns)
                name = f"steps-{given.seed}-{index}"
                yield name, wrong and kept(given.keep, f"{name}.turns", case_of(given.seed, index).given(), wrong)
        finally:
            pool.shutdown(cancel_futures=True)


def driven(given: argparse.Namespace, program: str) -> Iterator[Check]:
    """The same up to the first that differs."""
    return to_first_failure(schedules(given, program))


def arguments(words: list[str]) -> argparse.Namespace:
    parser = argparse.ArgumentParser(description="Random schedules of random loops, turn by turn.")
    parser.add_argument("--seed", default="1")
    parser.add_argument("--count", type=int, default=2_000)
    parser.add_argument("--jobs", type=int, default=4, help="how many schedules are driven at a time")
    parser.add_argument("--keep", type=Path, default=Path("."))
    parser.add_argument("command", nargs=argparse.REMAINDER)
    return parser.parse_args(words)


def main() -> int:
    script = Script()
    given = arguments(script.words)
    program = program_of(given.command or [str(ROOT / "trace_cli"), "seq"])
    if not program or not program.is_file():
        left_out("the steps of replay", "no such program was built beside the one that is tested")
        return 0
    begun = time.monotonic()
    script.run(partial(driven, given, str(program)))
    print(f"seed {given.seed}: {seen['turns']} turns, {time.monotonic() - begun:.0f} seconds")
    return script.ended("schedules")


if __name__ == "__main__":
    sys.exit(main())
