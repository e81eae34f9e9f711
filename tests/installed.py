#!/usr/bin/env python3
"""The package as `pip install .` puts it into an empty environment: each command prints its help, and makes what the
tool of the tree makes.

Usage: tests/installed.py [--only WORD] [COMMAND ..]

COMMAND is a command of `trace_cli` that ends with the word `seq`, as for the other tests; the other programs are those
that were built beside it. The wheel is made from a copy of the sources, as `pip install .` makes it, but without the
network, and the copy is gone when the commands run. What calls programs that aren't built is left out, and so is what
needs packages of Debian that aren't installed; all of it is where no Python here has pip, setuptools, wheel and venv.
Exits with 1 where a check failed.
"""

import os
import re
import shutil
import subprocess
import sys
import tempfile
from collections.abc import Iterator
from functools import cached_property, partial
from pathlib import Path

from common import Check, ROOT, Script, beside, called, called_well, differs, left_out

PROGRAMS = ("trace_cli", "why", "replay", "gain", "depends")
GAIN = ("store {} cores {} steps {} gain {}.00 useful 432 lost 0 dropped 0 waiting 0 idle 0 restarts 0 true 0 silent 0 "
        "false 0 buffer 0 nothomefree 0 noway 0 orbfull 0 orbbusy 0\n")
GAINS = "".join(GAIN.format(store, cores, 432 // cores, cores) for store in ("plain", "caches") for cores in (1, 4))
PLAN = ('cores = [2]\nstores = ["plain"]\nschedules = ["seeded"]\nseeds = [1, 2]\ngain = 2\n[loops]\ncounter = '
        '"counter.image"\n')
HAS_ALL = ("import importlib.util, sys; names = 'ensurepip pip setuptools venv wheel'.split(); "
           "sys.exit(not all(map(importlib.util.find_spec, names)))")
# What a study makes that is the same each time; its manifest has the commit of a tree.
TABLES = ("runs.csv", "pairs.csv", "gains.svg")


def python() -> str | None:
    """A Python that can make a wheel and an environment without the network, or None."""
    pythons = [it for it in (sys.executable, "/usr/bin/python3") if Path(it).is_file()]
    return next((it for it in pythons if not called([it, "-c", HAS_ALL]).returncode), None)


class Environment:
    """An environment that has the package alone, and a folder of programs."""

    def __init__(self, room: Path, by: str, command: list[str]) -> None:
        self.room, self.bin, self.programs = room, room / "environment" / "bin", room / "programs"
        source = room / "source"
        shutil.copytree(ROOT / "tools", source / "tools", symlinks=True, ignore=shutil.ignore_patterns("__pycache__"))
        shutil.copy(ROOT / "pyproject.toml", source)
        pip = ["-m", "pip", "--no-input", "--disable-pip-version-check"]
        called_well([by, *pip, "wheel", "--no-build-isolation", "--no-index", "--no-deps", "--wheel-dir", str(room),
                     "."], cwd=source)
        # without a pip of its own, which takes longer to install than all else: this one installs into it
        called_well([by, "-m", "venv", "--without-pip", str(room / "environment")])
        wheel = str(next(room.glob("*.whl")))
        called_well([by, *pip, "--python", str(self.bin / "python"), "install", "--no-index", "--no-deps", wheel])
        shutil.rmtree(source)
        self.programs.mkdir()
        for name in PROGRAMS:
            found = Path(command[0]).resolve() if name == "trace_cli" else beside(command, name)
            if found and found.is_file():
                (self.programs / name).symlink_to(found)

    @cached_property
    def variables(self) -> dict[str, str]:
        """What both kinds of tools find. The plug-in for LLVM is the one that the tree keeps, where it has it."""
        return {"PATH": f"{self.bin}:/usr/bin:/bin", "HOME": str(self.room), "LOOPS_PROGRAMS": str(self.programs),
                "XDG_CACHE_HOME": str(ROOT / "out")}

    def call(self, path: Path | str, *words: str, given: str = "") -> subprocess.CompletedProcess[str]:
        """A call from a folder that has nothing of the tree."""
        return called([str(path), *words], given, cwd=self.room, env=self.variables)

    def differs(self, name: str, *words: str, given: str = "") -> str | None:
        """How what a command prints differs from what the tool of the tree does; a failure of both is one too."""
        one, other = self.call(self.bin / command_of(name), *words,
                               given=given), self.call(ROOT / "tools" / name, *words, given=given)
        if other.returncode or not other.stdout:
            return f"tools/{name} ended with {other.returncode}: {other.stderr}"
        return differs((one.stdout, one.stderr, one.returncode), (other.stdout, other.stderr, other.returncode))

    def lacks(self, *names: str) -> list[str]:
        """Which of these programs aren't built."""
        return [name for name in names if not (self.programs / name).is_file()]


def command_of(name: str) -> str:
    """The command of a tool of the tree."""
    return name if name.startswith("loops-") else f"loops-{name}"


def tools() -> list[str]:
    """The tools that are commands, as the tree calls them."""
    return sorted(path.stem.replace("_", "-") for path in (ROOT / "tools" / "loops" / "commands").glob("[a-z]*.py"))


def helps(environment: Environment) -> Iterator[Check]:
    """Each command is there, and prints its help; no other command has come."""
    there = {path.name for path in environment.bin.iterdir() if path.name.startswith("loops")}
    yield "the commands", differs(there, {command_of(name) for name in tools()})
    for name in tools():
        done = environment.call(environment.bin / command_of(name), "--help")
        right = done.stdout.startswith(f"usage: {command_of(name)} ") and (done.stderr, done.returncode) == ("", 0)
        yield f"{command_of(name)} --help", None if right else f"got {done}"


def alone(environment: Environment) -> Iterator[Check]:
    """What needs no program."""
    found = environment.call(environment.bin / "python", "-c", "import loops; print(loops.__file__)")
    yield "where the package is", None if found.stdout.startswith(str(environment.room)) else f"got {found}"
    image = (ROOT / "examples" / "counter.image").read_text()
    yield "an image as JSON", environment.differs("json", given=image)
    yield "the schema", environment.differs("json", "--schema")
    (environment.room / "gains.txt").write_text(GAINS)
    yield "gains as a table", environment.differs("plot", "--csv", "counter=gains.txt")


def with_debians(environment: Environment) -> Iterator[Check]:
    """What needs packages of Debian."""
    example, program = str(ROOT / "examples" / "c" / "histogram.c"), str(ROOT / "examples" / "programs" / "heat.c")
    for name, words in (("plot", ["counter=gains.txt"]), ("image-of", ["-g", example]), ("loops-of", [program])):
        told = environment.call(ROOT / "tools" / name, *words).stderr
        if "installed" in told:
            left_out(f"{command_of(name)} in an environment", told.strip().splitlines()[-1])
        else:
            yield f"{command_of(name)} {' '.join(Path(it).name for it in words)}", environment.differs(name, *words)


def with_programs(environment: Environment) -> Iterator[Check]:
    """What calls programs."""
    traced = (ROOT / "examples" / "traces" / "waits.trace").read_text()
    image = ROOT / "examples" / "histogram.image"
    rows: list[tuple[str, list[str], list[str], str]] = [
        ("picture", ["why"], [], traced), ("named", ["why"], ["--say"], traced),
        ("view", ["why", "replay"], [], traced),
        ("verdict", ["why", "replay", "gain"], [str(image)], "")]
    for name, needs, words, given in rows:
        lacks = environment.lacks(*needs)
        if lacks:
            left_out(f"{command_of(name)} in an environment",
                     f"{' and '.join(lacks)} isn't built beside the program that is tested")
        else:
            yield command_of(name), environment.differs(name, *words, given=given)
    if environment.lacks("trace_cli"):
        left_out("loops-trace in an environment", "there is no program to be tested")
    else:
        done = environment.call(environment.bin / "loops-trace", str(image), "2")
        right = done.stdout.startswith(image.read_text() + "trace 2\n") and (done.stderr, done.returncode) == ("", 0)
        yield "loops-trace", None if right else f"got {done}"


def study(environment: Environment) -> Iterator[Check]:
    """A study in which jobs are processes of their own, with a plot."""
    lacks = [*environment.lacks("trace_cli", "why", "replay", "gain"),
             *([] if shutil.which("snakemake", path="/usr/bin") else ["snakemake"])]
    if lacks:
        left_out("loops-study in an environment", f"{' and '.join(lacks)} isn't there")
        return
    shutil.copy(ROOT / "examples" / "counter.image", environment.room)
    (environment.room / "plan.toml").write_text(PLAN)
    done = {out: environment.call(path, "plan.toml", "--out", out, "--jobs", "1", "--chunk", "1")
            for out, path in (("one", environment.bin / "loops-study"), ("other", ROOT / "tools" / "study"))}
    wrong = [one.stderr for one in done.values() if one.returncode]
    if any(re.search(r"(jsonschema|matplotlib) is not installed", it) for it in wrong):
        left_out("loops-study in an environment", "python3-jsonschema or python3-matplotlib isn't installed")
        return
    yield "loops-study", wrong[0] if wrong else None
    for name in TABLES if not wrong else ():
        made_by = [(environment.room / out / name).read_bytes() for out in done]
        yield f"{name} of loops-study", None if made_by[0] == made_by[1] else "is not that of tools/study"


def main() -> int:
    script = Script()
    by = python()
    if by is None:
        left_out("the installed package", "no Python here has pip, setuptools, wheel and venv")
        return 0
    with tempfile.TemporaryDirectory() as folder:
        environment = Environment(Path(os.path.realpath(folder)), by, script.command())
        script.run(*[partial(part, environment) for part in (helps, alone, with_debians, with_programs, study)])
    return script.ended()


if __name__ == "__main__":
    sys.exit(main())
