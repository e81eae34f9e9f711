"""One check of a crate with other texts in some of its files, and what it says of the functions that it was asked
for."""
import contextlib
import os
import re
import shutil
import subprocess
import tempfile
from collections.abc import Iterable, Sequence
from dataclasses import dataclass, field
from typing import NamedTuple

from crates import Crates, Kit
from edits import Texts, renamed
from sources import Function

PARTS = ("src", "specs", "proofs")
TOLD = re.compile(r"fn ([^ ]+): (proved|not proved|no proof|could not tell)")
AT_SOURCE = re.compile(r"note: (src/\S+?\.rt):(\d+):\d+: (.*)")
AT_ANSWER = re.compile(r"(?:\./)?proofs/(\S+)/(?:Answers|Invariants|Proof)\.antt:\d+:\d+: error: (?:`([^`]*)`: )?(.*)")
GOAL = re.compile(r"\(`([^`]+)`\)")
UNPROVED = re.compile(r"not proved|not shown|does not hold")
FALSE_GOAL = "allow values at which this goal is false"
# A tactic in an answer says so of a goal where it found values at which all holds that is known there, and the goal
# fails; or where it met no limit.
NO_CONSEQUENCE = re.compile("the goal does not follow|Every way was tried")
# Where an answer would fit but for one place: the terms there. Some are other values for sure: two numbers, Bools or
# variants; two fields of one thing; or a term and what a number makes of it.
PLACE = re.compile(r"differ(?: only)? where one has `([^`]*)` \(expected\)(?:, right after `[^`]*`)?,? "
                   r"and the other has `([^`]*)`")
VALUE = re.compile(r"\d+|mathlib\.Core\.Bool\.(?:true|false)|Rattle\.[\w.]+\.TheVariants\.\w+")
FIELD = re.compile(r"(?!Rattle\.)([\w.-]+)\.\w+")
OPERATOR_FIRST = re.compile(r"(?:Prim\.Native\.Nat\.)?◌([-+*/%])◌ (\S+) (\S+)")
MADE_OF = re.compile(r"\((\S+) (?:[-+] [1-9]|[*/%] (?!1\)))\d*\)")
# What a tactic gave up says nothing: the goal may hold.
GAVE_UP = "gave up at one of its limits"
# A mistake in a function's answers, as long as there is one, keeps the checker from offering proof files, which takes
# it as long as a few proofs. What it says of the function's goals stays the same.
MISTAKES_NAME = "nothing-has-this-name"
MISTAKE = f"\n\nmistake : {MISTAKES_NAME}\nmistake = {MISTAKES_NAME}\n"
# A proof that stands open: what calls the function rests on what it promises. The checker prints what is open, which is
# short so.
OPEN = (
    "use Rattle.{path}.Statement.{{statement}}\n\nopen_at : {{A : Type 2}} → A\nopen_at = ?\n\n"
    "pub {name}_spec : {{M : Type 1}} → statement M\n{name}_spec = open_at\n"
)


@dataclass
class Said:
    """What a check said: its lines, the functions that it told of, its status, and the seconds of one processor that it
    took."""

    lines: list[str] = field(default_factory=list)
    told: dict[str, str] = field(default_factory=dict)
    status: int = 0
    seconds: float = 0.0


class TwinPaths(NamedTuple):
    """The path of a twin, and that of the function whose twin it is."""

    twin: str
    of: str


class Asked(NamedTuple):
    """A function that a check was asked for: its path, the file in which it stands, and where it stands there."""

    path: str
    file: str
    function: Function


class Messages(NamedTuple):
    """What a check said at a function: the messages in its own answers, and those on its goals."""

    answers: list[re.Match[str]]
    goals: list[re.Match[str]]


class Verdict(NamedTuple):
    """Whether a check refuses a function, and the message by which it does or doesn't."""

    is_refused: bool
    message: str


def check(kit: Kit, crates: Crates, name: str, texts: Texts, functions: set[str], others: set[str], kept: str,
          twins: Iterable[TwinPaths] = (), bare: Iterable[str] = (), offers: bool = False) -> Said:
    """Checks these functions of a crate with these texts of its files, over what earlier checks left in the folder
    `kept`. A twin of a function has its proof files. Those in `bare` have no answers. Without offers of such files no
    function is told as proved: each has a mistake in its answers. The proofs of the crate's others stand open."""
    with tempfile.TemporaryDirectory(prefix="wrong-bodies-", ignore_cleanup_errors=True) as room:
        for part in PARTS:
            if os.path.isdir(f"{crates.folder(name)}/{part}"):
                shutil.copytree(f"{crates.folder(name)}/{part}", f"{room}/{part}")
        for pair in twins:
            copy_proofs(room, pair.twin, pair.of)
        for path, text in texts.items():
            os.makedirs(os.path.dirname(f"{room}/{path}"), exist_ok=True)
            with open(f"{room}/{path}", "w", encoding="utf-8") as it:
                it.write(text)
        open_proofs(room, name, others)
        take_answers(room, bare)
        if not offers:
            add_mistakes(room, functions)
        words = [kit.checker, "check", *crates.words(name, kit), kit.logic(), "--jobs=1", f"--incremental={kept}"]
        words += [*["--allow-holes"] * bool(others), *[f"--only={it}" for it in sorted(functions)]]
        return said_by(words, room, {f"{name}::{it}" for it in functions})


def copy_proofs(room: str, twin: str, of: str) -> None:
    """Gives a twin the proof files of its function, in which they name what is made of that by its path."""
    there, here = (f"{room}/proofs/{it.replace('::', '/')}" for it in (of, twin))
    for name in os.listdir(there) if os.path.isdir(there) else ():
        with open(f"{there}/{name}", encoding="utf-8") as it:
            text = it.read()
        os.makedirs(here, exist_ok=True)
        with open(f"{here}/{name}", "w", encoding="utf-8") as it:
            it.write(renamed(text, twin, of))


def open_proofs(room: str, name: str, functions: Iterable[str]) -> None:
    """Gives each function of a crate, and the cycle of one that calls itself, a proof by hand that stands open."""
    for function in functions:
        *above, own = function.split("::")
        own = f"+{own}" if os.path.isdir("/".join([room, "proofs", *above, f"+{own}"])) else own
        folder = "/".join([room, "proofs", *above, own])
        shutil.rmtree(folder, ignore_errors=True)
        os.makedirs(folder)
        with open(f"{folder}/Proof.antt", "w", encoding="utf-8") as it:
            it.write(OPEN.format(path=".".join([name, "proofs", *above, own]), name=own))


def take_answers(room: str, functions: Iterable[str]) -> None:
    """Takes the answers of functions away, so that tactics alone judge their goals."""
    for function in functions:
        *above, own = function.split("::")
        for folder in (own, f"+{own}"):
            with contextlib.suppress(FileNotFoundError):
                os.remove("/".join([room, "proofs", *above, folder, "Answers.antt"]))


def add_mistakes(room: str, functions: Iterable[str]) -> None:
    """Adds a mistake to the answers of each function that has no proof by hand, alone or with others of a cycle."""
    for function in functions:
        *above, own = function.split("::")
        folder = "/".join([room, "proofs", *above])
        if os.path.isdir(f"{folder}/+{own}") or os.path.isfile(f"{folder}/{own}/Proof.antt"):
            continue
        os.makedirs(f"{folder}/{own}", exist_ok=True)
        with open(f"{folder}/{own}/Answers.antt", "a", encoding="utf-8") as it:
            it.write(MISTAKE)


def said_by(words: Sequence[str], folder: str, functions: set[str]) -> Said:
    """Runs a check until it has told of these functions; what would follow are offers of proof files."""
    said = Said()
    with subprocess.Popen(words, cwd=folder, stdin=subprocess.DEVNULL, stdout=subprocess.PIPE, stderr=subprocess.STDOUT,
                          text=True, errors="replace") as ran:
        assert ran.stdout
        for line in ran.stdout:
            told = TOLD.match(line)
            if told:
                said.told[told[1]] = told[2]
            said.lines.append(line.rstrip("\n"))
            if functions <= said.told.keys() and line.startswith("help: write "):
                ran.kill()
                break
        _, status, used = os.wait4(ran.pid, 0)
        ran.returncode = os.waitstatus_to_exitcode(status)
    said.status, said.seconds = ran.returncode, used.ru_utime + used.ru_stime
    return said


def own_messages(said: Said, asked: Asked, alone: bool = False) -> Messages:
    """The messages at a function: those in its own answers, and those on its goals, at its own lines. Where it was
    tried alone these are all on goals, since one may stand at a clause of the trait."""
    *above, _ = asked.path.split("::")
    function = asked.function
    own = {"/".join([*above, it]) for it in (function.name, f"+{function.name}", f"+{function.cycle}")}
    answers = [it for it in map(AT_ANSWER.match, whole_messages(said))
               if it and it[1] in own and MISTAKES_NAME not in it[0]]
    goals = [it for it in map(AT_SOURCE.match, said.lines) if it and UNPROVED.search(it[3])]
    return Messages(answers, [it for it in goals if alone or it[1] == asked.file
                              and function.first <= int(it[2]) <= function.last])


def whole_messages(said: Said) -> list[str]:
    """The lines of a check, each with those below it that go on with it."""
    messages: list[str] = []
    for line in said.lines:
        if line.startswith("  ") and messages:
            messages[-1] += " " + line.strip()
        else:
            messages.append(line)
    return messages


def is_of_another_value(message: str) -> bool:
    """Whether a message says that an answer would fit but for one value, which is another one."""
    return any(is_another(one, other) or is_another(other, one) for one, other in PLACE.findall(message))


def is_another(one: str, other: str) -> bool:
    """Whether two terms are other values for sure."""
    field_of_one, field_of_other = FIELD.fullmatch(one), FIELD.fullmatch(other)
    written = OPERATOR_FIRST.sub(r"\2 \1 \3", one)
    made = MADE_OF.fullmatch(written if written.startswith("(") else f"({written})")
    are_values = VALUE.fullmatch(one) and VALUE.fullmatch(other)
    are_fields = field_of_one and field_of_other and field_of_one[1] == field_of_other[1]
    return one != other and bool(are_values or are_fields or made and made[1] == other)


def verdict(said: Said, asked: Asked, bare: bool = False, alone: bool = False,
            by_answers: bool = False) -> Verdict | None:
    """Whether a check refuses a function, and the message by which; or None, where it says nothing of it. It refuses it
    by a goal that is false, or that doesn't follow; by one for which tactics that met no limit found no proof, if its
    answers are there, and it has none that was rejected; or by an answer that would fit but for one value, which is
    another one. Where only answers were looked at, what is said of goals and of other answers says nothing."""
    answers, goals = own_messages(said, asked, alone)
    rejected = {it[2] for it in answers}
    for it in [] if by_answers else goals:
        goal = GOAL.search(it[3])
        if FALSE_GOAL in it[3] or not bare and GAVE_UP not in it[3] and not (goal and goal[1] in rejected):
            return Verdict(True, it[0])
    for it in answers:
        if NO_CONSEQUENCE.search(it[0]) or is_of_another_value(it[0]):
            return Verdict(True, it[0])
    return None if by_answers else next((Verdict(False, it[0]) for it in [*answers, *goals]), None)
