#!/usr/bin/env python3
"""Tests that the types of the Python in tools/, tests/ and bench/ hold, by mypy, as pyproject.toml says.

Usage: tests/typed.py

Nothing has to be built. Without Debian's mypy all is left out, and a line says so. Exits with 1 where a check failed.
"""

import shutil
import sys
import tempfile
import tomllib
from collections.abc import Iterator
from functools import partial
from pathlib import Path

from common import ROOT, Check, Script, called, left_out

# A function without types, and a field that isn't there: each has to be found.
WRONG = "from loops import read_image\n\n\ndef size(text):\n    return read_image(text).length\n"


class Checker:
    """Calls of mypy. What it learns in one it needs not learn again in the next."""

    def __init__(self, program: str, room: Path) -> None:
        self.words, self.room = [program, "--cache-dir", str(room / "cache")], room

    def says(self, *words: str | Path) -> str | None:
        """What is wrong with packages or files, or None."""
        done = called([*self.words, *words], cwd=ROOT)
        return (done.stdout + done.stderr).strip() or f"status {done.returncode}" if done.returncode else None

    def as_module(self, program: Path) -> Path:
        """A copy of a program that has a name of its own among modules, of which a call takes many."""
        copy = self.room / f"{'_of_'.join(reversed(program.relative_to(ROOT).parts)).replace('-', '_')}.py"
        shutil.copy(program, copy)
        return copy


def packages() -> list[str]:
    """The packages of tools/, each with those below it."""
    project = tomllib.loads((ROOT / "pyproject.toml").read_text(encoding="utf-8"))
    told: list[str] = project["tool"]["setuptools"]["packages"]
    return [name for name in told if "." not in name]


def programs(folder: str) -> list[Path]:
    """The programs below a folder that are Python and have no suffix."""
    files = sorted(path for path in (ROOT / folder).rglob("*") if path.is_file() and not path.suffix)
    return [path for path in files if b"python3" in path.read_bytes().partition(b"\n")[0]]


def modules(folder: str) -> list[Path]:
    """The modules and scripts below a folder."""
    return sorted((ROOT / folder).rglob("*.py"))


def tools(checker: Checker) -> Iterator[Check]:
    """The package, each program and module beside it, and one that is wrong."""
    yield "packages", checker.says(*(word for name in packages() for word in ("-p", name)))
    beside = [*sorted((ROOT / "tools").glob("*.py")), *map(checker.as_module, programs("tools"))]
    yield "the programs and modules of tools/", checker.says(*beside)
    wrong = checker.room / "wrong.py"
    wrong.write_text(WRONG, encoding="utf-8")
    said = checker.says(*beside, wrong) or ""
    yield "a wrong program is refused", None if "[no-untyped-def]" in said and "[attr-defined]" in said else repr(said)


def scripts(checker: Checker) -> Iterator[Check]:
    """The modules and programs of tests/, and those of bench/."""
    for folder in ("tests", "bench"):
        yield f"the modules and programs of {folder}/", checker.says(
            "--follow-imports", "silent", *modules(folder), *map(checker.as_module, programs(folder)))


def main() -> int:
    script = Script()
    program = shutil.which("mypy")
    if program is None:
        left_out("types", "mypy is not installed")
        return 0
    with tempfile.TemporaryDirectory() as folder:
        checker = Checker(program, Path(folder))
        script.run(partial(tools, checker), partial(scripts, checker))
    return script.ended()


if __name__ == "__main__":
    sys.exit(main())
