#!/usr/bin/env python3
"""Tests that what tests leave out is told: by tests/run, over stubs in the place of the tests; and by
tests/packages.py, whose packages the pages install.

Usage: tests/left_out.py

Nothing has to be built. Exits with 1 where a check failed.
"""

import os
import re
import shutil
import sys
import tempfile
from collections.abc import Iterator
from pathlib import Path

from common import ROOT, Check, Script, called, differs, there

# The last lines of tests/run: what stubs say, what is left out, how many fail, and its status, also with --strict.
LINES: list[tuple[str, dict[str, str], str, int, int, int]] = [
    ("nothing is left out", {}, "0 left out", 0, 0, 0),
    ("two", {"why.py": "echo 'left out: why, since it is away'",
             "view.py": "echo 'left out: a page; two, since $(nothing)'; echo 3 checks passed"},
     "2 left out: why; a page; two", 0, 0, 1),
    ("one, and one fails", {"plot.py": "echo 'left out: plots, since a is away, since b is'", "gain.py": "exit 3"},
     "1 left out: plots", 1, 1, 1),
]


def stubs(folder: Path, says: dict[str, str]) -> Path:
    """A folder with tests/run, and in the place of each test a program that says something."""
    shutil.copy(ROOT / "tests" / "run", folder)
    for name in re.findall(r'"([\w/]+\.py)"', (ROOT / "tests" / "run").read_text(encoding="utf-8")):
        path = folder / name
        path.parent.mkdir(exist_ok=True)
        path.write_text(f"#!/bin/sh\n{says.get(path.name, 'echo 1 checks passed, 0 failed')}\n")
        path.chmod(0o755)
    return folder / "run"


def runs() -> Iterator[Check]:
    """(what it shows, what is wrong or None)"""
    for name, says, wanted, failed, status, strictly in LINES:
        with tempfile.TemporaryDirectory() as folder:
            program = stubs(Path(folder), says)
            for words, right in ((list[str](), status), (["--strict"], strictly)):
                done = called([program, *words, "false", "seq"])
                ends = f"\n{wanted}\n{done.stdout.count('== ') - failed} passed, {failed} failed\n"
                good = done.stdout.endswith(ends) and done.returncode == right and done.stdout.count("== ") > 20
                yield (f"tests/run {' '.join(words)}: {name}",
                       None if good else f"{done.stdout[-200:]!r}, {done.returncode}")


def spelled() -> Iterator[Check]:
    """Each test that leaves something out says so by the one function, which has that spelling."""
    for path in sorted([*(ROOT / "tests").glob("*.py"), *(ROOT / "tests" / "model").glob("*.py")]):
        for line in path.read_text(encoding="utf-8").splitlines():
            if re.search(r"print\(.*(left out: |(?i:skipped))",
                         line) and path.name not in ("common.py", Path(__file__).name):
                yield f"{path.name}: {line.strip()[:70]}", "isn't left_out(WHAT, WHY) of common.py"
    said = called([sys.executable, "-c", "from common import left_out; left_out('two; three', 'why, as told')"],
                  cwd=ROOT / "tests").stdout
    yield "what left_out prints", differs(said, "left out: two; three, since why, as told\n")


def packages() -> Iterator[Check]:
    """What is missing is said, and the README installs all."""
    program = ROOT / "tests" / "packages.py"
    whole = called([program])
    with tempfile.TemporaryDirectory() as folder:
        for name in ("env", "python3"):
            Path(folder, name).symlink_to(sys.executable if name == "python3" else there(shutil.which(name)))
        bare = called([program], env={**os.environ, "PATH": folder})
    right = whole.returncode == bare.returncode == 0 and bare.stdout.startswith("not installed: chromium "
                                                                                "chromium-driver clang csmith ")
    yield "tests/packages.py", None if right else f"{whole}, {bare}"
    command = bare.stdout.rpartition(". ")[2].split()
    told = re.search(r"(?m)^apt-get install (?:.*\\\n)*.*$", (ROOT / "README.md").read_text(encoding="utf-8"))
    yield ("README.md installs all of them",
           None if told and told[0].replace("\\\n", " ").split() == command else f"{told and told[0]!r}, not {command}")


def main() -> int:
    script = Script()
    script.run(runs, spelled, packages)
    return script.ended()


if __name__ == "__main__":
    sys.exit(main())
