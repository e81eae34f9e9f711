#!/usr/bin/env python3
"""Megabytes per second of printing and of reading a trace, and the time and memory of `trace_cli audit` and of `why` on
it.

`audit_bench` is built by bench/build, where it isn't yet; build the others first, by calling ./trace_cli and ./why. The
histories, of 10,000, 100,000 and 1,000,000 entries, are made here by history.py, from a seed. `audit_bench` prints each
as a trace and has to read the same history back; the audit has to find it legal, with the homefree epoch that it was
made with; the report of `why` has to tell of each of its violations, and of as many epochs committed. Needs GNU time,
/usr/bin/time.
"""
import pathlib
import re
import statistics
import subprocess
import tempfile
from typing import NamedTuple

from history import HURT, Entry, encoded, history

ROOT = pathlib.Path(__file__).resolve().parents[2]
BUILD = ROOT / "bench" / "build"
BENCH = ROOT / "out" / "bench" / "audit_bench"
PROGRAM = ROOT / "crates" / "trace_cli" / "out" / "trace_cli"
WHY = ROOT / "crates" / "why" / "out" / "why"
SEED = "histogram"
ROUNDS = 9
# entries, and how often a run prints and reads them
CASES = [(10_000, 100), (100_000, 10), (1_000_000, 1)]
LINES = ["{} start {}", "{} load {:08x} {} {:08x}", "{} store {:08x} {} {:08x}", "{} hurt {}", "{} restart",
         "{} publish", "{} commit"]


class Cost(NamedTuple):
    """The processor seconds of a program, and the most memory that it held, in kilobytes."""

    seconds: float
    most: int


def image_of() -> str:
    """The image whose histories `audit_bench` reads, as its source has it."""
    found = re.search(r'const IMAGE: &str =\s*"(.*?)";', (ROOT / "bench/audit/program/src/main.rt.txt").read_text(),
                      re.S)
    assert found, "main.rt.txt has no image"
    return found[1].replace("\\n", "\n")


IMAGE = image_of()


def trace_of(entries: list[Entry]) -> str:
    """The image and the trace below it."""
    lines = "".join(LINES[kind].format(by, *numbers) + "\n" for by, kind, *numbers in entries)
    return f"{IMAGE}trace 4\n{lines}"


def text_rates(file: pathlib.Path, count: int, size: int, times: int) -> list[float]:
    """Megabytes per second of printing and of reading."""
    with open(file, "rb") as stdin:
        done = subprocess.run([BENCH, str(times), "text"], stdin=stdin, capture_output=True, text=True)
    assert done.returncode == 0 and done.stdout == f"{count} entries\n{size} bytes\n", (done.stdout, done.stderr)
    return [size * times / int(taken) * 1e3 for taken in re.findall(r"(\d+) ns", done.stderr)]


def measured(file: pathlib.Path, *command: str | pathlib.Path) -> tuple[str, Cost]:
    """What a program prints, and what it costs."""
    with open(file, "rb") as stdin:
        done = subprocess.run(["/usr/bin/time", "-f", "%U %S %M", *command], stdin=stdin, capture_output=True,
                              text=True)
    assert done.returncode == 0, (done.stdout, done.stderr)
    user, system, most = done.stderr.split()
    return done.stdout, Cost(float(user) + float(system), int(most))


def audit(file: pathlib.Path, count: int, homefree: int) -> Cost:
    """What an audit costs."""
    printed, cost = measured(file, PROGRAM, "audit")
    assert printed == f"legal {count} {homefree}\n", printed
    return cost


def explain(file: pathlib.Path, violations: int, homefree: int) -> Cost:
    """What a report costs."""
    printed, cost = measured(file, WHY)
    told = sum(line.startswith("hurt ") for line in printed.splitlines())
    total = re.search(r"^total epochs \d+ committed (\d+) useful \d+ rollbacks (\d+) ", printed, re.M)
    assert total and (told, *map(int, total.groups())) == (violations, homefree, violations), (told, total)
    return cost


def main() -> None:
    subprocess.run([BUILD, "audit"], check=True)
    print("  entries     MB    MB/s printed    MB/s read    audit, s    audit, MB    why, s    why, MB    audit to why")
    with tempfile.TemporaryDirectory() as folder:
        for count, times in CASES:
            entries, homefree = history(count, SEED)
            text = trace_of(entries)
            size = len(text) - len(IMAGE)
            records, traced = pathlib.Path(folder, "records"), pathlib.Path(folder, "trace")
            records.write_bytes(encoded(entries))
            traced.write_text(text)
            rates = [text_rates(records, count, size, times) for _ in range(ROUNDS)]
            violations = sum(entry.kind == HURT for entry in entries)
            both = [(audit(traced, count, homefree), explain(traced, violations, homefree)) for _ in range(ROUNDS)]
            printed, read = (statistics.median(column) for column in zip(*rates))
            (seconds, most), (longer, more) = (
                (statistics.median(cost.seconds for cost in runs), max(cost.most for cost in runs))
                for runs in zip(*both))
            print(f"{count:9,}{size / 1e6:7.1f}{printed:16.0f}{read:13.0f}{seconds:12.3f}{most / 1024:13.1f}", end="")
            print(f"{longer:10.3f}{more / 1024:11.1f}{f'{seconds / longer:.2f}' if seconds >= 0.1 else '-':>16}")


if __name__ == "__main__":
    main()
