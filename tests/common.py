"""What the test scripts share: the word `--only`, calls that end, where programs are, and how results are told.

A script has parts, functions that yield checks: each a name, and what is wrong or None.

    script = Script()
    script.run(rows, partial(examples, folder))
    return script.ended()

With `--only WORD` those parts run whose name has the word. Where there is none all run, and the checks count whose name
has it.
"""

import contextlib
import multiprocessing
import os
import subprocess
import sys
import tempfile
from collections.abc import Callable, Iterable, Iterator, Mapping, Sequence
from functools import cache, wraps
from importlib import import_module
from pathlib import Path
from typing import IO, Any, ParamSpec, TypeVar

# A check: what it shows, and what is wrong or None
Check = tuple[str, str | None]
Part = Callable[[], Iterable[Check]]
# What it shows, what there is, and what there has to be
Row = tuple[str, object, object]
Words = ParamSpec("Words")
Thing = TypeVar("Thing")
ROOT = Path(__file__).resolve().parent.parent
# A called program takes at most so many seconds; one that takes longer is ended, and has the status that `timeout`
# gives.
SECONDS, TOO_LONG = 600, 124
FORK = multiprocessing.get_context("fork")


class Script:
    """A run of a test script: its words, which checks it is for, and how many passed."""

    def __init__(self, words: Sequence[str] | None = None) -> None:
        self.only, self.words = only_of(list(sys.argv[1:] if words is None else words))
        self.passed = self.failed = 0
        self.parts: list[str] = []

    def command(self) -> list[str]:
        """The command that is tested: its last word is `seq`."""
        return self.words or [str(ROOT / "trace_cli"), "seq"]

    def run(self, *parts: Part) -> None:
        """Runs parts, and tells at once what is wrong."""
        names = [name_of(part) for part in parts]
        self.parts += names
        by_part = self.only is not None and any(self.only in name for name in names)
        for name, part in zip(names, parts):
            if not by_part or str(self.only) in name:
                for check, wrong in part():
                    self.take(check, wrong, by_part)

    def take(self, check: str, wrong: str | None, wanted: bool = False) -> None:
        """Counts a check, and tells of it where it failed."""
        if self.only is not None and not wanted and self.only not in check:
            return
        self.passed += wrong is None
        self.failed += wrong is not None
        if wrong is not None:
            print(f"FAILED {check}: {wrong}", flush=True)

    def ended(self, unit: str = "checks") -> int:
        """Tells how many checks passed and failed; the status of the script."""
        if self.only is not None and not self.passed + self.failed:
            print(f"no check has {self.only!r} in its name, nor has one of the parts {', '.join(self.parts)}",
                  file=sys.stderr)
            return 2
        print(f"{self.passed} {unit} passed, {self.failed} failed")
        return 1 if self.failed else 0


def only_of(words: list[str]) -> tuple[str | None, list[str]]:
    """The word of `--only` at the beginning of the command line, and the words without it."""
    return (words[1], words[2:]) if words[:1] == ["--only"] and len(words) > 1 else (None, words)


def name_of(part: Part) -> str:
    """The name of a part, also of one that has its arguments already."""
    return str(getattr(getattr(part, "func", part), "__name__", ""))


def left_out(what: str, why: str) -> None:
    """Tells of what is left out; tests/run counts these lines."""
    print(f"left out: {what}, since {why}", flush=True)


def kept(folder: Path, name: str, given: bytes, wrong: str) -> str:
    """What is wrong with a drawn input, which is kept as a file of this name."""
    folder.mkdir(parents=True, exist_ok=True)
    path = folder / name
    path.write_bytes(given)
    return f"{wrong}\n  kept as {path}"


def to_first_failure(checks: Iterable[Check]) -> Iterator[Check]:
    """The checks up to the first one that fails."""
    for check, wrong in checks:
        yield check, wrong
        if wrong is not None:
            return


def differs(got: object, wanted: object) -> str | None:
    """How something differs from what it has to be, or None."""
    return None if got == wanted else f"got {got!r}\n  wanted {wanted!r}"


def comparing(rows: Callable[Words, Iterator[Row]]) -> Callable[Words, Iterator[Check]]:
    """Makes a part of a function of rows."""
    @wraps(rows)
    def part(*words: Words.args, **named: Words.kwargs) -> Iterator[Check]:
        return ((name, differs(got, wanted)) for name, got, wanted in rows(*words, **named))
    return part


def there(value: Thing | None) -> Thing:
    """What has to be there."""
    if value is None:
        raise ValueError("nothing is there")
    return value


def called(words: Sequence[str | bytes | Path], given: str | None = None, seconds: float = SECONDS,
           **options: Any) -> subprocess.CompletedProcess[str]:
    """What a program makes of an input. Its status is TOO_LONG where it didn't end."""
    streams: dict[str, Any] = {"stdout": subprocess.PIPE, "stderr": subprocess.PIPE, **options}
    try:
        return subprocess.run(words, input=given, text=True, timeout=seconds, check=False, **streams)
    except subprocess.TimeoutExpired as late:
        return subprocess.CompletedProcess(words, TOO_LONG, text_of(late.stdout),
                                           text_of(late.stderr) + told_late(seconds))


def called_bytes(words: Sequence[str | bytes | Path], given: bytes | None = None, seconds: float = SECONDS,
                 **options: Any) -> subprocess.CompletedProcess[bytes]:
    """The same in bytes."""
    streams: dict[str, Any] = {"stdout": subprocess.PIPE, "stderr": subprocess.PIPE, **options}
    try:
        return subprocess.run(words, input=given, timeout=seconds, check=False, **streams)
    except subprocess.TimeoutExpired as late:
        return subprocess.CompletedProcess(words, TOO_LONG, late.stdout or b"",
                                           (late.stderr or b"") + told_late(seconds).encode())


def told_late(seconds: float) -> str:
    return f"no end after {seconds:g} seconds\n"


def text_of(data: bytes | str | None) -> str:
    return data.decode("utf-8", "replace") if isinstance(data, bytes) else data or ""


def called_well(words: Sequence[str | bytes | Path], given: str | None = None, **options: Any) -> str:
    """What a program prints that a test needs. It has to end well."""
    done = called(words, given, **options)
    if done.returncode:
        raise OSError(f"{' '.join(map(str, words))} ended with {done.returncode}: {done.stdout}{done.stderr}")
    return done.stdout


@cache
def main_of(tool: str) -> Callable[[], int]:
    """The `main` that the file of a tool calls. At its import one reads by which name it is called."""
    words, sys.argv = sys.argv, [tool]
    if str(ROOT / "tools") not in sys.path:
        sys.path.insert(0, str(ROOT / "tools"))
    main: Callable[[], int] = import_module(f"loops.commands.{tool.replace('-', '_')}").main
    sys.argv = words
    return main


def imported(*modules: str) -> None:
    """Imports what a tool imports late, so that not each call of it does. What isn't installed is left to the tool."""
    for name in modules:
        with contextlib.suppress(ImportError):
            import_module(name)


def called_tool(tool: str, *words: str | Path, given: str = "", cwd: str | Path = ".",
                env: Mapping[str, str] | None = None, seconds: float = SECONDS) -> subprocess.CompletedProcess[str]:
    """What a tool makes of an input, as `called` with its file. Here it is a child of this process, which imports it
    once, so that no Python has to begin for each call."""
    main = main_of(tool)
    with tempfile.TemporaryFile() as stdin, tempfile.TemporaryFile() as stdout, tempfile.TemporaryFile() as stderr:
        stdin.write(given.encode())
        stdin.seek(0)
        child = FORK.Process(target=as_tool, args=(main, [tool, *map(str, words)], (stdin, stdout, stderr), cwd, env))
        child.start()
        child.join(seconds)
        status = TOO_LONG if child.exitcode is None else child.exitcode
        child.kill()
        child.join()
        said = [(stream.seek(0), text_of(stream.read()))[1] for stream in (stdout, stderr)]
    return subprocess.CompletedProcess([tool, *words], status, said[0],
                                       said[1] + (told_late(seconds) if status == TOO_LONG else ""))


def as_tool(main: Callable[[], int], words: list[str], streams: Sequence[IO[bytes]], cwd: str | Path,
            env: Mapping[str, str] | None) -> None:
    """Is the tool, with these words, standard streams, folder and environment."""
    for number, stream in enumerate(streams):
        os.dup2(stream.fileno(), number)
    sys.stdin = open(0, encoding="utf-8", closefd=False)
    os.chdir(cwd)
    if env is not None:
        os.environ.clear()
        os.environ.update(env)
    sys.argv = words
    sys.exit(main())


def beside(command: Sequence[str], name: str) -> Path | None:
    """The program of this name that belongs to the command that is tested: the link of the tree, or what was built
    beside it; None where it isn't there."""
    given = Path(command[0]).resolve()
    if given == ROOT / "trace_cli":
        return ROOT / name
    folder = given.parents[2] / name / "out" if len(given.parents) > 2 else given.parent
    found = folder / name if (folder / name).is_file() else given.with_name(name)
    return found if found.is_file() else None
