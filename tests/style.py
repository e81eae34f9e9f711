#!/usr/bin/env python3
"""Tests the style of the Python here as pyproject.toml has it: lines of so many columns, and what ruff says.

Usage: tests/style.py [--only WORD]

Nothing has to be built. Without ruff, which Debian 12 hasn't, what it says is left out, and a line says so; the columns
are looked at here. Exits with 1 where a check failed.
"""

import shutil
import sys
import tomllib
from collections.abc import Iterator
from functools import partial
from pathlib import Path
from typing import Any

from common import ROOT, Check, Script, called, called_well, left_out

FOLDERS = ("bench", "examples", "tests", "tools")
# By these words a line says itself that it is longer.
KNOWN = "# noqa: E501"


def files() -> list[Path]:
    """The Python here: modules, and programs that have no suffix."""
    listed = called_well(["git", "ls-files", "-z", "--cached", "--others", "--exclude-standard", *FOLDERS], cwd=ROOT)
    found = [ROOT / name for name in listed.split("\0") if name and (ROOT / name).is_file()]
    return [it for it in found if it.suffix == ".py" or not it.suffix and is_program(it)]


def is_program(path: Path) -> bool:
    return b"python3" in path.read_bytes().partition(b"\n")[0]


def too_long(path: Path, most: int) -> list[int]:
    """The numbers of the lines that are longer."""
    lines = path.read_text(encoding="utf-8").splitlines()
    return [number for number, line in enumerate(lines, 1) if len(line) > most and not line.endswith(KNOWN)]


def columns(settings: dict[str, Any]) -> Iterator[Check]:
    """The lines of each file; and the check finds one here, of few columns."""
    for path in files():
        found = too_long(path, settings["line-length"])
        yield f"the lines of {path.relative_to(ROOT)}", f"too long: {found}" if found else None
    yield "a line that is too long", None if too_long(Path(__file__), 100) else "isn't found"


def by_ruff(program: str) -> Iterator[Check]:
    """What ruff says of all files; and it refuses a name that nothing defines."""
    done = called([program, "check", "--no-cache", "--quiet", *files()], cwd=ROOT)
    yield "ruff", f"{done.stdout}{done.stderr}" if done.returncode else None
    done = called([program, "check", "--no-cache", "--quiet", "--stdin-filename", "wrong.py", "-"], "wrong\n", cwd=ROOT)
    yield "a name that nothing defines", None if "F821" in done.stdout else f"{done}"


def main() -> int:
    script = Script()
    settings: dict[str, Any] = tomllib.loads((ROOT / "pyproject.toml").read_text(encoding="utf-8"))["tool"]["ruff"]
    script.run(partial(columns, settings))
    program = shutil.which("ruff")
    if program:
        script.run(partial(by_ruff, program))
    else:
        left_out("the style of Python by ruff", "it is not installed")
    return script.ended()


if __name__ == "__main__":
    sys.exit(main())
