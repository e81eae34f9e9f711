#!/usr/bin/env python3
"""The archive that tools/release makes: what it has, and that its programs run where the kit isn't installed.

Usage: tests/release.py [--only WORD] [COMMAND ..]

COMMAND is a command of `trace_cli` that ends with the word `seq`, as for the other tests; `why`, `replay`, `gain` and
`depends` are the programs that were built beside it. The archive is made of these and of this tree, and unpacked in an
empty folder. There the commands run that the README begins with, on a PATH without the kit's `rt`. All of it is left
out where a program isn't built, or git doesn't know the tree. Exits with 1 where a check failed.
"""

import hashlib
import os
import re
import shutil
import subprocess
import sys
import tarfile
import tempfile
from collections.abc import Iterator
from functools import partial
from pathlib import Path

from common import ROOT, Check, Row, Script, beside, called, comparing, differs, left_out

PROGRAMS = ("trace_cli", "why", "replay", "gain", "depends")
# A command of the README's section that says how the program is tried
COMMAND = re.compile(r"(?m)^\$ (\S.*)$")
MAKE = [str(ROOT / "tools" / "release")]


def given(command: list[str], room: Path) -> list[str | Path] | None:
    """The words for tools/release that name the programs of a command: none for those of the tree. None where one isn't
    built."""
    if Path(command[0]).resolve() == ROOT / "trace_cli":
        return None if any(called([ROOT / name, "--is-built"]).returncode for name in PROGRAMS) else []
    room.mkdir()
    for name in PROGRAMS:
        path = Path(command[0]) if name == "trace_cli" else beside(command, name)
        if path is None:
            return None
        shutil.copy(path, room / name)
    return ["--programs", room]


class Release:
    """An archive, and the folder into which it is unpacked."""

    def __init__(self, room: Path, programs: list[str | Path]) -> None:
        self.first, self.second = (called([*MAKE, *programs, room / folder]) for folder in ("first", "second"))
        self.archives = [Path(done.stdout.strip()) for done in (self.first, self.second)]
        self.folder = room / "unpacked"
        if not self.first.returncode:
            with tarfile.open(self.archives[0]) as archive:
                archive.extractall(self.folder)
            self.folder = next(self.folder.iterdir())
        # The programs that a command of the README calls, and not the kit's
        self.path = "/usr/bin:/bin"
        self.variables = {"PATH": self.path, "HOME": str(room)}

    def call(self, command: str) -> subprocess.CompletedProcess[str]:
        """What a command prints in the unpacked tree."""
        return called(["bash", "-c", f"set -o pipefail; {command}"], cwd=self.folder, env=self.variables)


def made(release: Release) -> Iterator[Check]:
    """It is made, twice with the same bytes."""
    yield "made", differs((release.first.returncode, release.first.stderr), (0, ""))
    one, other = (hashlib.sha256(path.read_bytes()).hexdigest() for path in release.archives)
    yield "the same bytes", differs(one, other)
    yield "the kit isn't on the path", differs(shutil.which("rt", path=release.path), None)


def whole(release: Release) -> Iterator[Check]:
    """It has the tree, the programs, and what it is made of."""
    done = release.call("sha256sum --check --quiet SHA256SUMS")
    yield "the digests", differs((done.stdout, done.returncode), ("", 0))
    listed = {line[66:] for line in (release.folder / "SHA256SUMS").read_text(encoding="utf-8").splitlines()}
    there = {str(path.relative_to(release.folder)) for path in release.folder.rglob("*")
             if path.is_file() and not path.is_symlink()}
    yield "each file has one", differs(there - listed, {"SHA256SUMS"})
    kept = set(called(["git", "-C", str(ROOT), "ls-files"]).stdout.splitlines())
    yield "the tree", differs({name for name in kept if not os.path.lexists(release.folder / name)}, set())
    says = (release.folder / "RELEASE").read_text(encoding="utf-8").splitlines()
    yield "what it is made of", differs([line.split()[0] for line in says], ["version", "commit", "kit", "tests"])
    head = called(["git", "-C", str(ROOT), "rev-parse", "HEAD"]).stdout.strip()
    yield "the commit", differs(says[1].split()[1], head)
    if shutil.which("help2man"):
        pages = {path.name for path in (release.folder / "man" / "man1").iterdir()}
        yield "the pages of man", differs({f"{name}.1" for name in PROGRAMS} - pages, set())
    else:
        left_out("the pages of man", "help2man isn't installed")


@comparing
def runs(release: Release) -> Iterator[Row]:
    """The first commands of the README, and each program's version."""
    text = (release.folder / "README.md").read_text(encoding="utf-8")
    report = release.call("./trace_cli seq < examples/histogram.image").stdout
    yield "the report", report.splitlines()[:1], ["end done 16"]
    for command in COMMAND.findall(text[text.index("## Try it"):text.index("## Your own loop")]):
        done = release.call(command)
        right = done.stdout.startswith("legal ") if "audit" in command else done.stdout.startswith(report)
        yield command, (done.returncode, right), (0, True)
    for name in PROGRAMS:
        version = release.call(f"./{name} --version").stdout.splitlines()
        yield f"{name} --version", version[:1], [f"{name} (speculative-loops) {release.folder.name.rpartition('-')[2]}"]
    for command in ("./gain 2 < examples/counter.image", "./depends 2 < examples/counter.image",
                    "./replay even caches 2 < examples/counter.image",
                    "tools/trace examples/counter.image 2 | ./why"):
        done = release.call(command)
        yield command, (done.returncode, done.stdout != ""), (0, True)


def main() -> int:
    script = Script()
    if called(["git", "-C", ROOT, "rev-parse", "HEAD"]).returncode:
        left_out("the archive of a release", "git doesn't know this tree")
        return script.ended()
    with tempfile.TemporaryDirectory() as room:
        programs = given(script.command(), Path(room, "programs"))
        if programs is None:
            left_out("the archive of a release", "a program isn't built for these sources")
            return script.ended()
        release = Release(Path(room), programs)
        script.run(partial(made, release))
        if not release.first.returncode:
            script.run(partial(whole, release), partial(runs, release))
    return script.ended()


if __name__ == "__main__":
    sys.exit(main())
