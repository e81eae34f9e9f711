#!/usr/bin/env python3
"""The commands that the pages print: each block with lines `$ COMMAND` is run, and has to print what stands below.

Usage: tests/pages.py [COMMAND ..]

COMMAND is a command of `trace_cli` that ends with the word `seq`, as for the other tests; `why`, `replay` and `gain`
are the programs that were built beside it. Without it those of this tree are tested. A command with nothing below it
has to end well and to say nothing on standard error. The commands of a page are run in one new folder, in which the
tree's folders are found by their names; the word `--unproved` of ./trace_cli is dropped, since the program is there. A
line of a block that begins as a command does, and has no `$ `, is told as failed. What NOT_RUN names is left out. So is
what calls a program that isn't built, what makes an image where tools/image-of lacks something or no gcc for RISC-V is
installed, and what reads a file that so wasn't made. A line says each that is left out. Exits with 1 where a check
failed.
"""
import functools
import os
import re
import shutil
import subprocess
import sys
import tempfile
from collections.abc import Iterator
from functools import partial
from pathlib import Path

from common import ROOT, TOO_LONG, Check, Script, called, called_bytes
from packages import has_module

# A command, and what stands below it.
Command = tuple[str, str]
COMPILER = "riscv64-unknown-elf-gcc"
SECONDS = 120
PAGES = ["README.md", "CONTRIBUTING.md", "docs/**/*.md", "examples/*.md", "tests/*.md", "bench/**/*.md",
         "crates/*/README.md"]
FOLDERS = ["bench", "docs", "examples", "tests", "tools"]
# How a command begins that is this project's own.
OWN = re.compile(r"(?m)^(?:\./|tools/|tests/|bench/|\.ci/).*")
PROGRAMS = ["why", "replay", "gain", "depends"]
# The programs that a tool calls.
TOOLS = {"named": ["why"], "picture": ["why"], "view": ["why", "replay"], "verdict": PROGRAMS,
         "study": ["why", "replay", "gain", "snakemake"]}
MODULES = {"plot": ["matplotlib"], "study": ["jsonschema", "matplotlib"]}
# Commands that no test runs, with the reason.
NOT_RUN = {
    ".ci/run": "runs for an hour, and this test with the others",
    "bench/": "measures speed, and needs rustc and valgrind",
}


def blocks(page: Path) -> Iterator[tuple[int, str, list[Command]]]:
    """The fenced blocks of a page: for each the line where it begins, what stands above its first command, and its
    commands with what they print."""
    text = page.read_text(encoding="utf-8")
    for found in re.finditer(r"(?ms)^```\w*\n(.*?)^```", text):
        above, *commands = re.split(r"(?m)^\$ ", found[1])
        yield text.count("\n", 0, found.start()) + 2, above, [it.partition("\n")[::2] for it in commands]


def programs(command: list[str]) -> dict[str, Path]:
    """The built programs by their names, where they are there."""
    if not command:
        return {name: ROOT / name for name in ["trace_cli", *PROGRAMS]}
    given = Path(command[0]).resolve()
    crates = given.parents[2] if len(given.parents) > 2 else given.parent
    beside = {name: crates / name / "out" / name for name in PROGRAMS}
    return {"trace_cli": given} | {name: path for name, path in beside.items() if path.is_file()}


@functools.cache
def can_compile() -> bool:
    """Whether tools/image-of finds what it needs."""
    done = called_bytes([sys.executable, ROOT / "tools" / "image-of", ROOT / "examples" / "c" / "histogram.c"])
    return done.returncode == 0


@functools.cache
def can_outline() -> bool:
    """Whether tools/loops-of finds what it needs. It has built its plug-in then."""
    done = called_bytes([sys.executable, ROOT / "tools" / "loops-of", ROOT / "examples" / "programs" / "heat.c"])
    return done.returncode == 0


def lacks(command: str, found: dict[str, Path]) -> str | None:
    """What a command needs that isn't there, or None."""
    needs = [name for name in PROGRAMS if re.search(rf"\./{name}\b", command)]
    needs += [name for tool, names in TOOLS.items() if f"tools/{tool} " in command for name in names]
    for name in needs:
        if not (name in found if name in PROGRAMS else shutil.which(name)):
            return f"the program {name}"
    module = next((name for tool, names in MODULES.items() for name in names if f"tools/{tool} " in command
                   and not has_module(name)), None)
    if module:
        return f"the Python module {module}"
    if "image-of" in command and not can_compile():
        return "what tools/image-of needs"
    if "loops-of" in command and not can_outline():
        return "what tools/loops-of needs"
    needed = [COMPILER] if "image-of" in command else ["clang", "ld.lld"] if command.startswith("clang") else []
    return next((one for one in needed if not shutil.which(one)), None)


def not_run(command: str) -> str | None:
    """Why no test runs a command, or None."""
    return next((f"{name}, which {reason}" for name, reason in NOT_RUN.items() if command.startswith(name)), None)


def files_of(command: str) -> set[str]:
    """The files that a command makes."""
    return set(re.findall(r"(?:>|-o) *([\w.]+)", command))


def left_out(commands: list[Command], found: dict[str, Path], unmade: set[str]) -> tuple[str | None, set[str]]:
    """Why the commands of a block are left out, or None; and the files that aren't there after them."""
    kept_back = next(filter(None, (not_run(it) for it, _ in commands)), None)
    missing = next(filter(None, (lacks(it, found) for it, _ in commands)), None)
    if not missing:
        missing = next((f"the file {name}" for it, _ in commands for name in sorted(unmade)
                        if re.search(rf"(?<![\w.]){re.escape(name)}\b", it)), None)
    reason = (f"not run: {kept_back}" if kept_back else missing
              and f"left out: commands of pages, since {missing} isn't there")
    return reason, unmade | set().union(*(files_of(it) for it, _ in commands)) if reason else unmade


def furnish(room: Path, found: dict[str, Path]) -> None:
    """Lays out the folder in which a page's commands are run."""
    for name in FOLDERS:
        (room / name).symlink_to(ROOT / name)
    for name, path in found.items():
        script = room / name
        script.write_text(f'#!/bin/sh\n[ "$1" != --unproved ] || shift\nexec "{path}" "$@"\n', encoding="utf-8")
        script.chmod(0o755)


def failure_of(command: str, wanted: str, room: str) -> str | None:
    """Why a command isn't what its page says, or None."""
    ran = called(["bash", "-c", command], seconds=SECONDS, cwd=room, stdin=subprocess.DEVNULL,
                 env={**os.environ, "LOOPS_PROGRAMS": str(room)})
    if ran.returncode == TOO_LONG:
        return f"is still running after {SECONDS} seconds"
    if wanted and ran.stdout != wanted:
        return f"prints {ran.stdout[:500]!r}"
    if not wanted and (ran.returncode or ran.stderr):
        return f"ends with status {ran.returncode}, and says {ran.stderr[:200]!r}"
    return None


def tried(page: Path, found: dict[str, Path], told: set[str]) -> Iterator[Check]:
    """Each command of a page; what was left out is added to what is told."""
    name = page.relative_to(ROOT)
    unmade: set[str] = set()
    with tempfile.TemporaryDirectory(prefix="pages-") as folder:
        furnish(Path(folder), found)
        for line, above, commands in blocks(page):
            yield from ((f"{name}, line {line}: {it}", "has no `$ `") for it in OWN.findall(above))
            reason, unmade = left_out(commands, found, unmade)
            told |= {reason} if reason else set()
            for command, wanted in [] if reason else commands:
                yield f"{name}, line {line}: {command}", failure_of(command, wanted, folder)


def pages(found: dict[str, Path], told: set[str]) -> Iterator[Check]:
    """The commands of each page."""
    for page in sorted(page for form in PAGES for page in ROOT.glob(form)):
        yield from tried(page, found, told)


def main() -> int:
    script = Script()
    told: set[str] = set()
    script.run(partial(pages, programs(script.words[:-1] if script.words[-1:] == ["seq"] else script.words), told))
    for it in sorted(told):
        print(it)
    return script.ended("commands")


if __name__ == "__main__":
    sys.exit(main())
