#!/usr/bin/env python3
"""Tests that tools/view and tools/json cost memory by what they show and not by their input, that long pages and
documents are right, and the iterators of tools/loops.

Usage: tests/long_inputs.py [COMMAND ..]

COMMAND is a command of `trace_cli` that ends with the word `seq`; `why` and `replay` are the programs that were built
beside it. Without it those of this repository are tested. The trace is worked by hand: on one core epoch E begins at
turn 4E, loads a word, stores it, and commits at turn 4E + 3. Memory is what the system says of a tool and of all that
it started (`getrusage`). Where a program isn't built, pages are left out, and a line says so. Exits with 1 where a
check failed.
"""

import itertools
import json
import os
import sys
import tempfile
from collections.abc import Callable, Iterable, Iterator
from functools import partial
from pathlib import Path
from typing import NamedTuple

from common import ROOT, Check, Script, beside, called_bytes, left_out

sys.path.insert(0, str(ROOT / "tools"))
sys.dont_write_bytecode = True

from loops import Programs, Stopped, Unreadable, Violation, iter_conflicts, iter_entries, iter_steps  # noqa: E402
from loops.changes import Hand, OfHart  # noqa: E402
from loops.views.data import PageData  # noqa: E402

Checks = Iterator[Check]
# An entry as JSON has it, or a part of one
Fields = dict[str, int | str | None]
# A trace of 33 MB may cost 500 MB, so one of 3 MB this; half of it is Python's own.
MOST_BYTES = 45_000_000
EPOCHS = 32_000
IMAGE = "size 256\nepochs {}\nlimit 100\ncode 832200042320500467800000\n"
# Runs a command, and writes the most memory of it and of all that it started to a file. It is a small process, since
# what its parent has counts as the child's.
MEASURED = """
import resource, subprocess, sys
status = subprocess.call(sys.argv[2:])
open(sys.argv[1], "w").write(str(resource.getrusage(resource.RUSAGE_CHILDREN).ru_maxrss))
sys.exit(status)
"""
RUN = '<script type="application/json" id="run">'
NONE: Fields = {"epoch": None, "address": None, "width": None, "value": None, "cause": None, "pc": None}
WORD: Fields = {"address": 64, "width": 4, "value": 0}


class Measured(NamedTuple):
    """What a tool prints, its error stream, its status, and the bytes that were most resident."""

    out: str
    errors: str
    status: int
    most: int


def trace(epochs: int) -> str:
    """The trace of the image on one core."""
    return "trace 1\n" + "".join(f"0 start {epoch}\n0 load 00000040 4 00000000\n0 store 00000040 4 00000000\n0 commit\n"
                                 for epoch in range(epochs))


def entries(epochs: int) -> list[Fields]:
    """The same as JSON has it."""
    acts: list[list[tuple[str, Fields]]] = [
        [("start", {"epoch": epoch}), ("load", WORD), ("store", WORD), ("commit", {})] for epoch in range(epochs)]
    return [{"place": place, "core": 0, "what": what, **NONE, **said}
            for place, (what, said) in enumerate(itertools.chain(*acts))]


def measured(room: Path, name: str, source: Path, *words: str, **environment: str) -> Measured:
    """What a tool makes of a file."""
    most = room / "most"
    call: list[str | Path] = [sys.executable, "-c", MEASURED, most, sys.executable, ROOT / "tools" / name, *words]
    with source.open("rb") as given:
        done = called_bytes(call, stdin=given, env={**os.environ, **environment})
    return Measured(done.stdout.decode("utf-8"), done.stderr.decode("utf-8"), done.returncode,
                    int(most.read_text()) * 1024)


def memory(most: int) -> str | None:
    return None if most <= MOST_BYTES else f"{most:,} bytes"


# --- JSON ----------------------------------------------------------------------

def documents(room: Path) -> Checks:
    """A long trace as JSON and back, and one whose last line is wrong."""
    source = room / "long.trace"
    source.write_text(IMAGE.format(EPOCHS) + trace(EPOCHS))
    out, errors, status, most = measured(room, "json", source)
    image = {"version": 1, "exit": False, "size": 256, "epochs": EPOCHS, "limit": 100,
             "code": "832200042320500467800000", "registers": {}, "data": [], "remarks": []}
    wanted = {"form": "traced", "version": 1,
              "content": {"image": image, "trace": {"cores": 1, "entries": entries(EPOCHS)}}}
    yield "a long trace as JSON", None if (out, errors, status) == (json.dumps(wanted, indent=1) + "\n", "",
                                                                    0) else f"{out[:300]!r}, {errors[:300]!r}, {status}"
    yield "its memory", memory(most)
    yield from back(room, out)
    source.write_text(IMAGE.format(EPOCHS) + trace(EPOCHS) + "0 begin 0\n")
    out, errors, status, most = measured(room, "json", source)
    yield ("its last line is wrong",
           None if (out, errors, status) == ("", "json: '0 begin 0' is no entry\n", 2)
           else f"{out[:300]!r}, {errors[:300]!r}, {status}")


def back(room: Path, told: str) -> Checks:
    """The long document as text again, and one whose last entry is wrong."""
    source = room / "long.json"
    source.write_text(told)
    out, errors, status, most = measured(room, "json", source, "--back")
    yield ("a long document as text",
           None if (out, errors, status) == (IMAGE.format(EPOCHS) + trace(EPOCHS), "", 0)
           else f"{out[:300]!r}, {errors[:300]!r}, {status}")
    yield "its memory", memory(most)
    source.write_text("commit".join(told.rsplit('"commit"', 1)))
    out, errors, status, _ = measured(room, "json", source, "--back")
    right = (out, status) == ("", 2) and errors.startswith("json: Expecting value: line ")
    yield "its last entry is wrong", None if right else f"{out[:300]!r}, {errors[:300]!r}, {status}"


# --- Iterators -----------------------------------------------------------------

def refused(lines: Callable[[], Iterable[object]]) -> str | None:
    try:
        return f"is read as {list(lines())}"
    except Unreadable:
        return None


def iterators() -> Checks:
    """An iterator reads no further than it is asked, so lines may have no end."""
    first = list(itertools.islice(iter_entries(f"0 start {epoch}" for epoch in itertools.count()), 3))
    yield "entries without end", None if [(one.place, one.epoch)
                                          for one in first] == [(0, 0), (1, 1), (2, 2)] else f"{first}"
    turns = (line for turn in itertools.count()
             for line in (f"turn {turn} 0 go", f"entry 0 start {turn}", f"hart 0 {turn:08x} 0"))
    steps = [(one.turn, one.entries[0].place, one.changes) for one in itertools.islice(iter_steps(turns), 3)]
    yield "turns without end", None if steps == [(turn, turn, [OfHart(0, Hand(turn, 0))])
                                                 for turn in range(3)] else f"{steps}"
    lines = iter(["turn 0 0 over done 1", "end", "end done 1"])
    answers = [one.answer for one in iter_steps(lines)]
    yield ("what is below turns is left",
           None if (answers, list(lines)) == (["over done 1"], ["end done 1"]) else f"{answers}")
    hurt = ("hurt {0} true epoch 1 try 1 core 1 lost 3 entered 2 since 2 by 0 core 0 cause 5 commit load 3 00000004 "
            "store 2 00000014 at 00000040 4")
    report = (line.format(place) for place in itertools.count(4) for line in (hurt, "moot {0}"))
    found = [(one.place, one.moot) for one in itertools.islice(iter_conflicts(report), 2) if isinstance(one, Violation)]
    yield "violations without end", None if found == [(4, True), (5, True)] else f"{found}"
    yield "turns that have no end line", refused(lambda: iter_steps(["turn 0 0 go"]))
    yield "a line above the first turn", refused(lambda: iter_steps(["hart 0 -", "end"]))
    yield "a line of no violation", refused(lambda: iter_conflicts(["moot 4"]))


def streams(room: Path, programs: Programs) -> Checks:
    """Lines of a program that is left in the middle, and of one that refuses."""
    source = room / "long.trace"
    source.write_text(IMAGE.format(EPOCHS) + trace(EPOCHS))
    lines = programs.step_lines(source, "caches")
    first = next(lines)
    lines.close()
    left = None
    try:
        left = f"process {os.waitpid(-1, os.WNOHANG)} is left"
    except ChildProcessError:
        pass
    yield "a program that is left", left if first == "turn 0 0 go" else first
    source.write_text("size 256\nspeed 3\n" + trace(1))
    try:
        yield "a program that refuses", f"gives {list(programs.step_lines(source, 'caches'))}"
    except Stopped as stopped:
        yield ("a program that refuses",
               None if (stopped.status, stopped.line) == (2, "image 2 Line\n")
               else f"{stopped.status}, {stopped.line!r}")
    try:
        yield "a program that says nothing", f"gives {list(Programs(room, '/bin/false').iter_why(source))}"
    except Stopped as stopped:
        got = (stopped.status, stopped.line)
        yield "a program that says nothing", None if got == (1, "false ended with status 1\n") else f"{got}"


# --- Pages -----------------------------------------------------------------------

def run_of(page: str) -> PageData:
    """What a page has of its run."""
    run: PageData = json.loads(page.partition(RUN)[2].partition("</script>")[0])
    return run


def pages(room: Path, programs: Programs) -> Checks:
    """Turns of a long run: at its start, in its middle and at its end."""
    source, folder = room / "long.trace", str(programs.folder)
    source.write_text(IMAGE.format(EPOCHS) + trace(EPOCHS))
    last = 4 * EPOCHS - 1
    for first, to in ((0, 100), (64_001, 64_098), (last - 2, last)):
        out, errors, status, most = measured(room, "view", source, "--from", str(first), "--to", str(to),
                                             LOOPS_PROGRAMS=folder)
        name = f"turns {first} to {to}"
        yield f"{name}: no error", None if (errors, status) == ("", 0) else f"{errors[:300]!r}, {status}"
        yield f"{name}: memory", memory(most)
        run = run_of(out)
        shown = [(turn, core, told) for turn, core, told, *_ in run["steps"]]
        lines = trace(EPOCHS).split("\n")[1 + first:2 + to]
        yield f"{name}: turns", None if shown == [(first + place, 0, [line])
                                                  for place, line in enumerate(lines)] else f"{shown[:3]}"
        attempts = [[0, epoch, 1, 4 * epoch - first, 4 * epoch + 4 - first, "committed", None]
                    for epoch in range(EPOCHS) if 4 * epoch <= to and 4 * epoch + 4 >= first]
        yield f"{name}: attempts", None if run["attempts"] == attempts else f"{run['attempts'][:3]}, not {attempts[:3]}"
        cut = (f"Turns {first:,} to {to:,} of {4 * EPOCHS:,} are on this page: --from and --to of tools/view choose "
               "others.")
        told = run.get("cut")
        yield f"{name}: what is left out", None if (told, run["all"]) == (cut, 4 * EPOCHS) else f"{told}"


def line_ends(room: Path, programs: Programs) -> Checks:
    """Nothing but a line feed ends a line of the image: what stands behind a form feed, say, is of the remark."""
    for name, mark in (("a form feed", "\f"), ("U+0085", "\x85"), ("U+2028", "\u2028"), ("a carriage return", "\r")):
        source = room / "remark.trace"
        source.write_text(f"# A loop.{mark}trace 1 of it.\n" + IMAGE.format(2) + trace(2), encoding="utf-8",
                          newline="\n")
        out, errors, status, _ = measured(room, "view", source, LOOPS_PROGRAMS=str(programs.folder))
        epochs = run_of(out)["epochs"] if status == 0 else None
        yield f"{name} in a remark", None if (epochs, errors) == (2, "") else f"{status}, {errors[-300:]!r}"


def main() -> int:
    script = Script()
    with tempfile.TemporaryDirectory() as folder:
        room = Path(folder)
        script.run(iterators, partial(documents, room))
        found = [beside(script.command(), name) for name in ("why", "replay")]
        if all(path and path.is_file() for path in found):
            for path in filter(None, found):
                (room / path.name).symlink_to(path)
            script.run(*[partial(part, room, Programs(room)) for part in (streams, pages, line_ends)])
        else:
            left_out("pages of long runs", "why and replay weren't built beside the program that is tested")
    return script.ended()


if __name__ == "__main__":
    sys.exit(main())
