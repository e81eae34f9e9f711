#!/usr/bin/env python3
"""Tests tests/gate-time: what it notes of a command that starts processes of the checker, and what it prints of a file.
And tests/lanes: what it prints before anything is kept, and after; and tests/function-times, of files of known times.

Usage: tests/gate_time.py

The checker is a stub that works for a second, so nothing is proved. Exits with 1 where a check failed.
"""
import os
import subprocess
import sys
import tempfile
import time
from collections.abc import Iterator
from pathlib import Path

from common import Check, Script, called, differs, there

TOOL = Path(__file__).resolve().parent / "gate-time"
# Works until it has used so much processor time.
CHECKER = """\
import time
while time.process_time() < 1.3:
    pass
"""
COMMAND = """\
"$0" build --crate-name low src/lib.rt & "$0" check --crate-name=low --test & "$0" check --crate-name=high --only=f &
wait
exit 7
"""
NOTED = "proofs\tlow\t90.0\nproofs\thigh\t30.0\ntests\tlow\t66.0\nwrong bodies\thigh\t12.0\nthe rest\trt\t6.0\n"
SHOWN = """\
processor minutes: proofs 2.0 (low 1.5)
processor minutes: tests 1.1 (low 1.1)
processor minutes: wrong bodies 0.2
processor minutes: the rest 0.1
processor minutes: all 3.4
"""
# Files that the checker writes, and when, in seconds; and what is printed of them.
WRITTEN = (("Rattle-orb-specs.Buffer.oantt", 100), ("Rattle-orb-proofs.Firsts.oantt", 101.5), ("notes", 102),
           ("Rattle-orb-proofs.buffer.Orb.at.Code.Mir.oantt", 102), ("Rattle-orb-proofs.buffer.Orb.at.Lts.oantt", 105),
           ("Rattle-orb-proofs.buffer.Orb.at.Proof.oantt", 109), ("Rattle-orb-proofs.buffer.Orb.at.Met.oantt", 109.01),
           ("Rattle-orb-proofs.buffer.Orb.enter.Lts.oantt", 111.01))
TIMES = """\
   7.5 s  buffer::Orb::at: Proof 4.0, Lts 3.0, Code 0.5
   2.0 s  buffer::Orb::enter: Lts 2.0
   1.5 s  Firsts
"""


def noted(folder: str) -> tuple[dict[tuple[str, str], float], int]:
    """What is noted of three processes of the checker, one of each kind, and the status."""
    rattle, file = Path(folder, "rattle"), Path(folder, "out", "gate.tsv")
    script = Path(folder, "work.py")
    script.write_text(CHECKER)
    # the name by which a process was called is its first word
    rattle.write_text(f'#!/bin/bash\nexec -a rattle "{sys.executable}" "{script}" "$@"\n')
    rattle.chmod(0o755)
    ran = subprocess.run([TOOL, "note", file, "bash", "-c", COMMAND, rattle], check=False)
    rows = [line.split("\t") for line in file.read_text().splitlines()]
    return {(part, crate): float(seconds) for part, crate, seconds in rows}, ran.returncode


def runs(pid: str) -> bool:
    """Whether a process runs."""
    try:
        return Path("/proc", pid, "stat").read_text().rpartition(")")[2].split()[0] != "Z"
    except OSError:
        return False


def goes_on() -> bool:
    """Whether what a command started still runs once a SIGTERM has ended it."""
    command = [str(TOOL), "note", "/dev/null", "bash", "-c", "sleep 60 & echo $!; wait"]
    with subprocess.Popen(command, stdout=subprocess.PIPE, text=True) as it:
        started = there(it.stdout).readline().strip()
        it.terminate()
    for _ in range(50):
        if not runs(started):
            return False
        time.sleep(0.1)
    return True


def works() -> Iterator[Check]:
    """What is noted of processes that work, what is shown of notes, and other words."""
    with tempfile.TemporaryDirectory() as folder:
        rows, status = noted(folder)
        wanted = {("proofs", "low"), ("tests", "low"), ("wrong bodies", "high"), ("the rest", "bash")}
        close = (rows.keys() == wanted and all(0.4 <= rows[it] <= 1.6 for it in wanted - {("the rest", "bash")})
                 and 3.5 <= sum(rows.values()) <= 6)
        yield ("processes that work 1.3 seconds each",
               None if close and status == 7 else f"noted {rows}, status {status}")
        file = Path(folder, "noted.tsv")
        file.write_text(NOTED)
        shown = called([TOOL, file])
        yield "what is shown", differs((shown.stdout, shown.returncode), (SHOWN, 0))
        wrong = called([TOOL, "note"])
        right = not wrong.stdout and "tests/gate-time FILE" in wrong.stderr and wrong.returncode == 2
        yield "other words", None if right else f"{wrong.stdout!r}, status {wrong.returncode}"


def ends() -> Iterator[Check]:
    yield "a SIGTERM", "what the command started goes on after it" if goes_on() else None


def lanes() -> Iterator[Check]:
    """What is printed of a kit beside which nothing is kept, and of one with a proof beside it."""
    with tempfile.TemporaryDirectory() as folder:
        kit, command = Path(folder, "kit"), Path(folder, "bin", "rt")
        command.parent.mkdir()
        command.write_text(f"#!/bin/sh\necho '{kit}/START-HERE.md'\n")
        command.chmod(0o755)
        path = f"{command.parent}:{os.environ['PATH']}"
        said = called([TOOL.parent / "lanes"], env={**os.environ, "PATH": path}).stdout
        good = said.strip().isdecimal() and 1 <= int(said) <= len(os.sched_getaffinity(0))
        yield "how many checks there are at once, from nothing", None if good else f"printed {said!r}"
        Path(folder, "rattle-kept", "proof-low").mkdir(parents=True)
        said = called([TOOL.parent / "lanes"], env={**os.environ, "PATH": path}).stdout
        yield "nothing where a proof is kept", differs(said, "\n")


def function_times() -> Iterator[Check]:
    """What is printed of the files of a check, of one without files, and of other words."""
    with tempfile.TemporaryDirectory() as folder:
        tool, kept = Path(folder, "tests", "function-times"), Path(folder, "crates/orb/out/incremental/of a kit")
        tool.parent.mkdir()
        tool.write_text((TOOL.parent / "function-times").read_text())
        tool.chmod(0o755)
        none = called([tool, "orb"])
        yield "no file of a check", None if (none.stdout, none.returncode) == ("", 2) else f"{none}"
        kept.mkdir(parents=True)
        for name, at in WRITTEN:
            file = kept / name
            file.touch()
            os.utime(file, (at, at))
        yield "the functions that took longest", differs(called([tool, "orb"]).stdout, TIMES)
        yield "one function", differs(called([tool, "orb", "1"]).stdout, TIMES.partition("\n")[0] + "\n")
        wrong = called([tool, "orb", "many"])
        yield "a count of other words", None if wrong.returncode == 2 and not wrong.stdout else f"{wrong}"


def main() -> int:
    script = Script()
    script.run(works, ends, lanes, function_times)
    return script.ended()


if __name__ == "__main__":
    sys.exit(main())
