#!/usr/bin/env python3
"""Tables what tools/loops-of makes of the programs of a folder: how many of each one's loops are the same, refused, not
entered by the run, or wrong; how often each reason was given; and the processor seconds.

Usage: tests/loops_table.py FOLDER

Each file of C or C++ in the folder is a program, and so is each folder in it, with all sources that lie there. Options
of tools/loops-of stand in a file `options` beside the sources, or in NAME.options beside NAME.c; paths in them are from
the folder on. It fetches nothing. `tests/run` doesn't run it. It ends with 1 where a loop is wrong.
"""

import re
import resource
import shlex
import sys
import tempfile
from collections import Counter
from pathlib import Path

from common import called

TOOL = Path(__file__).resolve().parents[1] / "tools" / "loops-of"
KINDS = {"same": r" same:", "refused": r" refused ", "not entered": r" not entered$", "wrong": r" (WRONG|DIFFERENT) "}
ENDINGS = (".c", ".cc", ".cpp")
Program = tuple[str, list[Path], list[str]]                 # its name, its sources and its options


def programs_of(folder: Path) -> list[Program]:
    """The programs of a folder."""
    found = []
    for path in sorted(folder.iterdir()):
        options = path / "options" if path.is_dir() else path.with_suffix(".options")
        sources = sorted(one for one in (path.iterdir() if path.is_dir() else [path]) if one.suffix in ENDINGS)
        words = shlex.split(options.read_text()) if options.is_file() else []
        if sources:
            found.append((path.stem, [one.relative_to(folder) for one in sources], words))
    return found


def processor_seconds() -> float:
    """Those of all that this has called."""
    used = resource.getrusage(resource.RUSAGE_CHILDREN)
    return used.ru_utime + used.ru_stime


def tabled(folder: Path, name: str, sources: list[Path], options: list[str]) -> tuple[Counter[str], list[str]]:
    """How many loops of a program are of each kind, and the lines of those that aren't the same."""
    began = processor_seconds()
    with tempfile.TemporaryDirectory() as out:
        done = called([TOOL, "--loop", "all", "--out", out, *options, *sources], cwd=folder)
    lines = done.stdout.splitlines()
    counts = Counter(kind for line in lines for kind, form in KINDS.items() if re.search(form, line))
    told = [line for line in lines if not re.search(f"{KINDS['same']}|{KINDS['not entered']}", line)]
    print(f"{name:28}" + "".join(f"{counts[kind]:12}" for kind in KINDS) + f"{processor_seconds() - began:9.0f} s",
          flush=True)
    return counts, told if lines else [done.stderr.strip() or "no loops"]


def reason_of(line: str) -> str | None:
    """Why a loop is refused, without its place and its numbers."""
    found = re.search(r" refused (?:\S+:\d+: )?(.*)", line)
    return re.sub(r"\d+", "N", found[1]) if found else None


def main() -> int:
    if len(sys.argv) != 2 or not Path(sys.argv[1]).is_dir():
        print("usage: tests/loops_table.py FOLDER", file=sys.stderr)
        return 2
    folder, total = Path(sys.argv[1]), Counter[str]()
    told: list[str] = []
    print(f"{'program':28}" + "".join(f"{kind:>12}" for kind in KINDS))
    for name, sources, options in programs_of(folder):
        counts, lines = tabled(folder, name, sources, options)
        total += counts
        told += [f"{name}: {line}" for line in lines]
    print(f"{'all':28}" + "".join(f"{total[kind]:12}" for kind in KINDS))
    for reason, count in Counter(filter(None, map(reason_of, told))).most_common():
        print(f"refused {count:4} {reason}")
    print("\n".join(told))
    return 1 if total["wrong"] else 0


if __name__ == "__main__":
    sys.exit(main())
