"""Calls of the programs: `trace_cli`, `why`, `replay`, `gain` and `depends`."""

import argparse
import os
import subprocess
import tempfile
from collections.abc import Generator, Iterator, Sequence
from dataclasses import dataclass, field
from functools import cache
from pathlib import Path

from .conflicts import Conflicts, Part, iter_conflicts, read_conflicts
from .dependences import Dependences, read_dependences
from .gains import Gains, read_gains
from .images import Image
from .runs import Output, Survey, Trace, Traced, Verdict, read_output, read_survey, read_verdict
from .steps import Steps, read_steps
from .stores import USUAL
from .texts import text_in, text_out

# Statuses with which a program has printed its answer: the loop is done or exited, or an epoch faulted.
ENDED = (0, 1)
ILLEGAL = 4
# The wrapper's own status where it can't build
NOT_BUILT = 126
MAY_BUILD = "LOOPS_BUILD"
TREE = Path(__file__).resolve().parents[2]
# Whether that is the tree of the project: a package that is installed stands in none, and takes nothing from where it
# is
IN_TREE = (TREE / "trace_cli").is_file() and TREE / "tools" / "loops" == Path(__file__).resolve().parent


class Stopped(Exception):
    """A program that refused its input or was stopped: its status, and the line that it wrote."""

    def __init__(self, status: int, line: str):
        super().__init__(line.rstrip())
        self.status, self.line = status, line


def folder() -> Path:
    """Where the programs are: the folder that LOOPS_PROGRAMS names, or the tree that this file stands in."""
    return Path(os.environ.get("LOOPS_PROGRAMS", TREE))


class Build(argparse.Action):
    """What `--build` does: programs that aren't built may be built, by this process and by those that it starts."""

    def __call__(self, parser: argparse.ArgumentParser, given: argparse.Namespace, values: str | Sequence[str] | None,
                 option: str | None = None) -> None:
        allow_builds()


def allow_builds() -> None:
    """Lets programs of the tree be built from here on."""
    os.environ[MAY_BUILD] = "1"


def add_build(parser: argparse.ArgumentParser) -> None:
    """The option by which a tool builds programs. Without it none does, since a build takes minutes."""
    parser.add_argument("--build", action=Build, nargs=0,
                        help="proves and builds the programs first where they aren't built, which takes minutes")


@cache
def built(program: str | Path) -> str:
    """Where a program itself is. A wrapper of the tree builds it first, where it has to and may, and says on standard
    error how far that is."""
    if Path(program).resolve() != TREE / "trace_cli":
        return str(program)
    if (not os.environ.get(MAY_BUILD)
        and subprocess.run([str(program), "--is-built"], stdin=subprocess.DEVNULL, check=False).returncode):
        name = Path(program).name
        raise Stopped(NOT_BUILT,
                      f"{name} isn't built for these sources: {program} --built proves and builds it, which takes "
                      "minutes, and so does --build here\n")
    done = subprocess.run([str(program), "--built"], stdin=subprocess.DEVNULL, stdout=subprocess.PIPE, check=False)
    if done.returncode:
        raise Stopped(done.returncode, f"{Path(program).name} is not built\n")
    return text_in(done.stdout).removesuffix("\n")


def is_there(program: Path) -> bool:
    """Whether a program can be called at once: it is built, or a wrapper of the tree may build it."""
    if program.resolve() != TREE / "trace_cli":
        return program.is_file()
    return (bool(os.environ.get(MAY_BUILD))
            or subprocess.run([str(program), "--is-built"], stdin=subprocess.DEVNULL, check=False).returncode == 0)


def call(program: str | Path, words: list[str], text: str, right: tuple[int, ...] = ENDED) -> str:
    """What a program prints on an input; Stopped where its status is none of those, or it isn't there."""
    try:
        done = subprocess.run([built(program), *words], input=text_out(text), capture_output=True, check=False)
    except OSError as wrong:
        raise Stopped(127, f"{program}: {wrong.strerror}; LOOPS_PROGRAMS names the folder of the programs\n") from None
    if done.returncode not in right:
        raise Stopped(done.returncode, text_in(done.stderr or done.stdout))
    return done.stdout.decode("ascii")


def iter_call(program: str | Path, words: list[str], source: Path,
              right: tuple[int, ...] = ENDED) -> Generator[str, None, None]:
    """The lines that a program prints on a file, one after another, without their line feeds. After the last one
    Stopped as `call` has it."""
    with tempfile.TemporaryFile() as errors, source.open("rb") as given:
        try:
            running = subprocess.Popen([built(program), *words], stdin=given, stdout=subprocess.PIPE, stderr=errors)
        except OSError as wrong:
            raise Stopped(127,
                          f"{program}: {wrong.strerror}; LOOPS_PROGRAMS names the folder of the programs\n") from None
        with running:
            try:
                yield from (line.decode("ascii").removesuffix("\n") for line in running.stdout or ())
            except GeneratorExit:       # its further lines aren't wanted
                running.kill()
                raise
        if running.returncode not in right:
            errors.seek(0)
            raise Stopped(running.returncode,
                          text_in(errors.read()) or f"{Path(program).name} ended with status {running.returncode}\n")


@dataclass
class Programs:
    """The programs of a folder. An input is an image or its text, as it stands in a file; a store is its word, as
    `caches:sets=64,ways=4`."""
    folder: Path = field(default_factory=folder)
    why_command: str | Path | None = None           # in the place of the folder's `why`

    def seq(self, image: Image | str) -> Output:
        """The loop in order."""
        return read_output(call(self.folder / "trace_cli", ["seq"], text_of(image)))

    def run(self, image: Image | str, cores: int) -> Output:
        """The loop on threads, with its trace."""
        return read_output(call(self.folder / "trace_cli", ["run", "--cores", str(cores), "--trace"], text_of(image)))

    def audit(self, traced: Traced | str) -> Verdict:
        """Whether a trace is legal."""
        return read_verdict(call(self.folder / "trace_cli", ["audit"], text_of(traced), (0, ILLEGAL)))

    def why(self, traced: Traced | str, store: str | None = None, attempts: bool = False) -> Conflicts:
        """Which conflicts rolled back; with `attempts` also all attempts. The store is that of the run: without it the
        caches are those of the image's version."""
        return read_conflicts(self.why_text(text_of(traced), store, attempts))

    def why_text(self, text: str, store: str | None = None, attempts: bool = False) -> str:
        """The same as it is printed."""
        return call(self.why_command or self.folder / "why", why_words(store, attempts), text, (0,))

    def replay(self, image: Image | str, store: str, cores: int, turns: list[int]) -> Output:
        """The loop by a schedule, the cores whose turns are taken one after another."""
        text = ended(text_of(image)) + " ".join(["turns", *map(str, turns)]) + "\n"
        return read_output(call(self.folder / "replay", [store, str(cores)], text))

    def retrace(self, traced: Traced | str, store: str) -> Output:
        """The turns of a trace, taken again; Stopped where they make another history."""
        return read_output(call(self.folder / "replay", [store], text_of(traced)))

    def even(self, image: Image | str, store: str, cores: int) -> Output:
        """The loop at even speed, with the schedule."""
        return read_output(self.even_text(image, store, cores))

    def even_text(self, image: Image | str, store: str, cores: int) -> str:
        """The same as it is printed."""
        return call(self.folder / "replay", ["even", store, str(cores)], text_of(image))

    def seeded(self, image: Image | str, seed: int, store: str, cores: int) -> Output:
        """The loop by the schedule that is drawn from a seed."""
        return read_output(call(self.folder / "replay", ["seeded", str(seed), store, str(cores)], text_of(image)))

    def steps(self, text: str, store: str, cores: int | None = None) -> Steps:
        """A run turn by turn, with what changed: that of the lines of turns below an image, for so many cores, or of a
        trace below it."""
        return read_steps(call(self.folder / "replay", steps_words(store, cores), text))

    def step_lines(self, source: Path, store: str, cores: int | None = None) -> Generator[str, None, None]:
        """The lines of the same, of an input that stands in a file; `iter_steps` reads the turns from them."""
        return iter_call(self.folder / "replay", steps_words(store, cores), source)

    def iter_why(self, source: Path, store: str | None = None, attempts: bool = False) -> Iterator[Part]:
        """What `why` says of a trace that stands in a file, line by line."""
        words = why_words(store, attempts)
        return iter_conflicts(iter_call(self.why_command or self.folder / "why", words, source, (0,)))

    def gain(self, image: Image | str, cores: int, *stores: str, held: bool = False, waits: Sequence[int] = (),
             limits: bool = False, costs: str | None = None, evens: bool = False) -> Gains:
        """What the loop gains on up to so many cores over these stores; without any over `caches` and `plain`. With
        `held` also what it gains where each load waits for what earlier epochs store in order. The loads at the
        addresses of `waits` wait until their epoch is the first. With `limits` also what its dependences allow. Turns
        cost what `costs` says, as `bus=10`. With `evens` also up to which cost of each action it gains."""
        words = [str(cores), *stores, *["--held"] * held]
        words += ["--wait", *(f"{pc:08x}" for pc in waits)] if waits else []
        words += ["--limits"] * limits + ([] if costs is None else ["--costs", costs]) + ["--even-at"] * evens
        return read_gains(call(self.folder / "gain", words, text_of(image)))

    def has_depends(self) -> bool:
        """Whether `depends` can be called."""
        return is_there(self.folder / "depends")

    def depends(self, image: Image | str, cores: int, *stores: str) -> Dependences:
        """What the loop depends on in order, and whether anything can roll back on up to so many cores."""
        return read_dependences(call(self.folder / "depends", [str(cores), *stores], text_of(image)))

    def replay_all(self, image: Image | str, store: str, cores: int, turns: int) -> Survey:
        """Every schedule of so many turns."""
        return read_survey(call(self.folder / "replay", ["all", store, str(cores), str(turns)], text_of(image), (0,)))


def why_words(store: str | None, attempts: bool = False) -> list[str]:
    """The words of `why`: where a store's word has no keys, it explains as without."""
    return ([] if store is None or store in USUAL else [store]) + ["--attempts"] * attempts


def steps_words(store: str, cores: int | None) -> list[str]:
    return ["steps", store] + ([] if cores is None else [str(cores)])


def text_of(given: Image | Traced | str) -> str:
    return given if isinstance(given, str) else given.text()


def ended(text: str) -> str:
    """A text whose last line is ended."""
    return text if text.endswith("\n") else text + "\n"


def with_trace(text: str, trace: Trace) -> str:
    """The text of an image with a trace below it: what `audit` and `why` read."""
    return ended(text) + trace.text()
