"""What earlier runs on this machine saw refused, or a misfit: a note of each wrong body, named by a checksum of all
that its trial reads."""
import contextlib
import functools
import hashlib
import json
import os
import stat
import sys
import tempfile
from collections.abc import Iterable
from typing import NamedTuple

from checks import PARTS
from crates import Crates, Kit

HERE = os.path.dirname(os.path.realpath(__file__))
# What a check reads of the kit; of a built library the sums in its `format` stand for its other files.
OF_KIT = ("KIT-ID", "bin", "c", "logic_built", "toolchain", "rattle/logic", "rattle/antt")
OF_LIBRARY = ("format", "toolchain")
# The most notes that are kept: those that were longest unused go.
MOST = 20_000


class Mark(NamedTuple):
    """What tells whether the file at a path was changed or took another's place."""

    path: str
    inode: int
    size: int
    nanoseconds: int


Marks = tuple[Mark, ...]


def files_below(place: str) -> list[str]:
    """The files at a path: the file itself, or all in the folder, in order."""
    if os.path.isfile(place):
        return [place]
    return sorted(f"{at}/{name}" for at, _, names in os.walk(place)
                  for name in names if "__pycache__" not in at.split("/"))


def sum_of(parts: object) -> str:
    """A checksum of values of which each prints whole."""
    return hashlib.sha256(repr(parts).encode()).hexdigest()


def sum_of_files(top: str, paths: Iterable[str]) -> str:
    """A checksum of files: of the path of each below `top`, and of its bytes."""
    whole = hashlib.sha256()
    for path in paths:
        with open(path, "rb") as it:
            whole.update(f"{os.path.relpath(path, top)} {hashlib.sha256(it.read()).hexdigest()}\n".encode())
    return whole.hexdigest()


def marks(paths: Iterable[str]) -> Marks:
    """The marks of those files that are there."""
    found: list[Mark] = []
    for path in paths:
        with contextlib.suppress(OSError):
            of = os.stat(path)
            found.append(Mark(path, of.st_ino, of.st_size, of.st_mtime_ns))
    return tuple(found)


def marks_of_library(library: str) -> Marks:
    return marks(path for part in OF_LIBRARY for path in files_below(f"{library}/{part}"))


@functools.lru_cache(maxsize=None)
def sum_of_library(library: str, _marks: Marks) -> str:
    """A checksum of a built library, which is read once for each marks of it."""
    return sum_of_files(library, files_below(library))


class Reading:
    """All that the trials of one crate read but for the edits: the scripts, the kit, the crate's files, and the
    libraries below it as they were built."""

    def __init__(self, kit: Kit, crates: Crates, name: str) -> None:
        self.folder, self.libraries = crates.folder(name), {it: crates.library(it) for it in crates.below(name)}
        self.marks = self.marks_now()
        uses = [(it, crates.uses[it]) for it in [*crates.below(name), name]]
        built = [(it, sum_of_library(path, marks_of_library(path))) for it, path in self.libraries.items()]
        own = sum_of_files(self.folder, self.own_files())
        own_scripts = sum_of_files(crates.top, scripts(crates.top))
        self.sum = sum_of((sys.version, own_scripts, sum_of_kit(kit), uses, built, own))

    def own_files(self) -> list[str]:
        return [path for part in PARTS for path in files_below(f"{self.folder}/{part}")]

    def marks_now(self) -> tuple[Marks, list[Marks]]:
        return marks(self.own_files()), [marks_of_library(it) for it in self.libraries.values()]

    def holds(self) -> bool:
        """Whether no file of the crate or of the libraries was changed since the reading began."""
        return self.marks == self.marks_now()


def scripts(top: str) -> list[str]:
    """The scripts that say what a refusal is."""
    own = [f"{HERE}/{it}" for it in sorted(os.listdir(HERE)) if it == "run" or it.endswith(".py")]
    return [*own, f"{top}/tools/crates.py"]


def sum_of_kit(kit: Kit) -> str:
    """A checksum of what the kit is called, and of its files."""
    return sum_of((kit.identity(), marks_of_kit(kit.folder)))


@functools.lru_cache(maxsize=None)
def marks_of_kit(folder: str) -> list[tuple[str, int, int, int]]:
    """What tells one kit from another of the same name: its files, and the mode, size and time of each."""
    libraries = [f"rlibs/{name}/{part}" for name in sorted(os.listdir(f"{folder}/rlibs")) for part in OF_LIBRARY]
    # These have no names, since a checksum is made of them as they print.
    found: list[tuple[str, int, int, int]] = []
    for part in (*OF_KIT, *libraries):
        for path in files_below(f"{folder}/{part}"):
            of = os.stat(path)
            found.append((os.path.relpath(path, folder), of.st_mode, of.st_size, of.st_mtime_ns))
    return found


class Refusals:
    """The notes of this machine. They lie beside what `rt ci` keeps, in a folder that nobody else may read or write;
    where there is no such folder nothing is taken and nothing kept. A run that takes nothing (`anew`) keeps what it
    sees all the same."""

    def __init__(self, kit: Kit, anew: bool = False) -> None:
        self.anew, self.folder = anew, own_folder(f"{os.path.dirname(kit.folder)}/rattle-kept/wrong-bodies")

    def name(self, reading: Reading, edit: str, text: str) -> str:
        """The name of the note on an edit with this text."""
        return sum_of((reading.sum, edit, text))

    def of(self, name: str) -> str | None:
        """What was said of the edit of this name, or None."""
        if not self.folder or self.anew:
            return None
        try:
            with open(f"{self.folder}/{name}", encoding="utf-8") as it:
                note: dict[str, object] = json.load(it)
            why = note["why"]
            if note["sum"] != sum_of((name, why)) or not isinstance(why, str):
                return None
            os.utime(f"{self.folder}/{name}")
            return why
        except (OSError, ValueError, KeyError, TypeError):
            return None

    def keep(self, name: str, why: str) -> None:
        """Notes what was said of the edit of this name. The note is written apart and then renamed, so that nobody
        meets half of it."""
        if not self.folder:
            return
        with contextlib.suppress(OSError), tempfile.NamedTemporaryFile(
                "w", prefix="new-", dir=self.folder, delete=False, encoding="utf-8") as it:
            json.dump({"why": why, "sum": sum_of((name, why))}, it)
            it.close()
            os.replace(it.name, f"{self.folder}/{name}")

    def shrink(self) -> None:
        """Takes away the notes that were longest unused, past the most that are kept, and what runs that were killed
        left."""
        if not self.folder:
            return
        with contextlib.suppress(OSError):
            found = sorted(os.scandir(self.folder), key=lambda it: it.stat().st_mtime)
            gone = [it for it in found if it.name.startswith("new-")]
            for it in [*gone, *found[: max(0, len(found) - MOST)]]:
                os.unlink(it.path)


def own_folder(path: str) -> str | None:
    """The folder at this path, made where it isn't there, or None where it can't be or others may write to it."""
    try:
        os.makedirs(path, 0o700, exist_ok=True)
        of = os.lstat(path)
    except OSError:
        return None
    is_own = stat.S_ISDIR(of.st_mode) and of.st_uid == os.geteuid() and not of.st_mode & 0o077
    return path if is_own else None
