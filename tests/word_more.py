#!/usr/bin/env python3
"""Shows that a word more on a line that is printed is proved at once: tests/word_more.py [--only WORD] [CRATE ..]

For each kind of lines of `why`, of `replay steps` and of `gain` in turn it adds ` x N` to the definition of the line
and to the function that writes it, two places in all, and checks the whole crate, over what the check of the crate as
it is has kept, as after an edit. It prints whether that is proved, and the seconds of one processor that the check
took. The libraries below are those that `rt ci` or `rt check` left. It isn't part of tests/run, since it takes some
minutes. Exits with 1 where a line is not proved.
"""
import resource
import shutil
import subprocess
import sys
import tempfile
from collections.abc import Iterator
from dataclasses import dataclass
from functools import partial
from pathlib import Path
from typing import NamedTuple

from common import ROOT, Check, Script, called

sys.path.insert(0, str(ROOT / "tools"))
sys.dont_write_bytecode = True

from crates import CannotCheck, Crates, Kit  # noqa: E402

# A check of a crate takes at most so many seconds.
LONGEST = 3600


@dataclass(frozen=True)
class Form:
    """How a crate says ` x N`, in a definition and in code, and the text at the end of a line in code, before which it
    goes."""

    in_definition: str
    in_code: str
    end_in_code: str


@dataclass(frozen=True)
class Line:
    """A kind of lines: where it is defined and by what name, where the function is that writes it, and a number of each
    to add."""

    form: Form
    definition: str
    name: str
    source: str
    function: str
    term: str
    value: str


END = 'codes "\\n"'
LABELLED = Form('named (codes " x ") {} ++ ', 'push_named(text, b" x ", {})?;\n    ', 'push_text(text, b"\\n")')
NUMBERED = Form('number (codes " x ") {} ++ ', 'push_number(text, b" x ", {})?;\n    ',
                'text.extend_from_slice(b"\\n")')
ADDED = Form('codes " x " ++ decimal {} ++ ', 'text.extend_from_slice(b" x ")?;\n    push_number(text, {})?;\n    ',
             'text.extend_from_slice(b"\\n")')
MADE = Form('codes " x " ++ decimal {} ++ ',
            'text.extend_from_slice(b" x ")?;\n    trace_text::push_number(&mut text, {})?;\n    ',
            'text.extend_from_slice(b"\\n")')
LINES = {
    "conflict_text": [
        Line(LABELLED, "specs/Lines.antt", "hurt_line", "src/lines.rt", "push_hurt", "f.lost", "found.lost as u128"),
        Line(LABELLED, "specs/Lines.antt", "also_line", "src/further.rt", "push_also", "place", "place as u128"),
        Line(LABELLED, "specs/Lines.antt", "later_by", "src/lines.rt", "push_later", "place", "found.place as u128"),
        Line(LABELLED, "specs/Lines.antt", "vain_by", "src/lines.rt", "push_vain", "place", "found.place as u128"),
        Line(LABELLED, "specs/Lines.antt", "moot_by", "src/lines.rt", "push_moot", "place", "found.place as u128"),
        Line(LABELLED, "specs/Ends.antt", "cancel_line", "src/ends.rt", "push_cancelled", "e.done", "e.done as u128"),
        Line(LABELLED, "specs/Ends.antt", "open_line", "src/ends.rt", "push_open", "o.done", "running.done as u128"),
        Line(LABELLED, "specs/AllAttempts.antt", "attempt_line", "src/attempts.rt", "push_attempt", "a.done",
             "a.done as u128"),
        Line(LABELLED, "specs/Report.antt", "epoch_line", "src/sums.rt", "push_epoch", "e.0", "epoch as u128"),
        Line(LABELLED, "specs/Report.antt", "pair_line", "src/parts.rt", "push_pair", "p.sum.count",
             "sum.sum.count as u128"),
        Line(LABELLED, "specs/Report.antt", "line_text", "src/parts.rt", "push_line", "e.0", "line as u128"),
        Line(LABELLED, "specs/Report.antt", "pc_text", "src/parts.rt", "push_pc", "pc", "pc as u128"),
        Line(LABELLED, "specs/Report.antt", "kind_text", "src/sums.rt", "push_kind", "sum.count", "sum.count as u128"),
        Line(LABELLED, "specs/Report.antt", "total_text", "src/sums.rt", "push_total", "epochs", "epochs as u128"),
    ],
    "turn_steps": [
        Line(ADDED, "specs/Turns.antt", "turn_line", "src/turns.rt", "push_turn", "core", "core"),
        Line(MADE, "specs/Turns.antt", "attempt_line", "src/cores.rt", "attempt_line", "core", "core"),
        Line(MADE, "specs/Turns.antt", "hart_line", "src/cores.rt", "hart_line", "core", "core"),
        Line(MADE, "specs/Places.antt", "way_line", "src/ways.rt", "way_line", "core", "core"),
        Line(MADE, "specs/Places.antt", "orb_line", "src/orbs.rt", "orb_line", "core", "core"),
        Line(MADE, "specs/Rows.antt", "at_text", "src/committed_row.rt", "at_line", "(16 * row)", "row.address(0)"),
        Line(MADE, "specs/Rows.antt", "kept_text", "src/kept_row.rt", "kept_line", "core", "core"),
    ],
    "gain": [Line(NUMBERED, "specs/Text.antt", "line_text", "src/text.rt", "push_line", "cores", "cores as u64")],
}


class NotThere(Exception):
    """A line of the table that the sources don't have."""


def with_word(text: str, begins: str, end: str, word: str) -> str:
    """The text with a word before the last `end` of the item that begins so, which a blank line or a brace at the
    margin ends."""
    start = text.find(begins)
    stop = min((it for it in (text.find("\n\n", start), text.find("\n}\n", start)) if it >= 0), default=len(text))
    at = text.rfind(end, start, stop)
    if start < 0 or at < 0:
        raise NotThere(f"{begins!r} with {end!r}")
    return text[:at] + word + text[at:]


def changed(crate: Path, line: Line) -> None:
    """Adds the word to the definition of a line and to its function."""
    for file, begins, end, word in (
        (line.definition, f"pub {line.name} :", END, line.form.in_definition.format(line.term)),
        (line.source, f"fn {line.function}(", line.form.end_in_code, line.form.in_code.format(line.value)),
    ):
        path = crate / file
        path.write_text(with_word(path.read_text(encoding="utf-8"), begins, end, word), encoding="utf-8")


class Checked(NamedTuple):
    """Why a crate isn't proved, or None; and the seconds of one processor."""

    wrong: str | None
    seconds: float


class Checks:
    """Checks of one crate in a folder of their own, which keep what earlier ones checked."""

    def __init__(self, kit: Kit, crates: Crates, name: str, folder: Path) -> None:
        self.folder, self.own = folder, Path(crates.folder(name))
        self.words = [kit.checker, "check", *crates.words(name, kit), kit.logic(), "--jobs=1",
                      f"--incremental={folder / 'kept'}"]

    def check(self, line: Line | None = None) -> Checked:
        """Checks the crate as it is, or with a word more on a line."""
        crate = self.folder / "crate"
        shutil.rmtree(crate, ignore_errors=True)
        for part in ("src", "specs", "proofs"):
            shutil.copytree(self.own / part, crate / part)
        if line:
            changed(crate, line)
        before = resource.getrusage(resource.RUSAGE_CHILDREN)
        ran = called(self.words, seconds=LONGEST, cwd=crate, stdin=subprocess.DEVNULL, errors="replace")
        used = resource.getrusage(resource.RUSAGE_CHILDREN)
        return Checked(refusal_of(ran.stdout.splitlines(), ran.returncode),
                       used.ru_utime + used.ru_stime - before.ru_utime - before.ru_stime)


def refusal_of(said: list[str], status: int) -> str | None:
    """What a checker that ended with this status said of what isn't proved, or None."""
    if status == 0:
        return None
    return next((it for it in said if "not proved" in it or "no proof" in it or "error" in it),
                "".join(said[-1:]) or f"status {status}")


def of_crate(kit: Kit, crates: Crates, name: str) -> Iterator[Check]:
    """A crate as it is, and with a word more on each of its lines; how long each check takes is told."""
    with tempfile.TemporaryDirectory(prefix="word-more-") as folder:
        checks = Checks(kit, crates, name, Path(folder))
        for line in (None, *LINES[name]):
            check = f"{name}: {line.name if line else 'as it is'}"
            wrong, seconds = checks.check(line)
            print(f"{check}: {wrong or 'proved'}, {seconds:.0f} s", flush=True)
            yield check, wrong


def main() -> int:
    script = Script()
    try:
        kit, crates = Kit(), Crates(str(ROOT), "out/rlib")
        script.run(*(partial(of_crate, kit, crates, name) for name in script.words or LINES))
    except (CannotCheck, NotThere, KeyError) as error:
        print(f"tests/word_more.py: {error}", file=sys.stderr)
        return 2
    return script.ended("lines")


if __name__ == "__main__":
    sys.exit(main())
