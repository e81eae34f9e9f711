#!/usr/bin/env python3
"""Tests tests/wrong-bodies/run, which tries wrong bodies on the prover: a small repository with one crate, and edits
that have to be told as refused, and others, one in each form that says nothing of a contract, that have to be told as
not refused. In another crate with one edit its refusal has to be kept, and the edit be tried again where anything that
was read has changed by a byte.

Usage: tests/wrong_bodies.py

Needs the command `rt` of the Rattle kit, and is left out without it. It takes about three minutes. Exits with 1 where a
check failed.
"""
import contextlib
import json
import os
import re
import shutil
import sys
import tempfile
from collections.abc import Iterator, Sequence
from functools import partial
from pathlib import Path

from common import Check, Script, called, called_well, differs, left_out

TOP = Path(__file__).resolve().parent.parent
sys.path[:0] = [str(TOP / "tests/wrong-bodies"), str(TOP / "tools")]
sys.dont_write_bytecode = True

from checks import is_another  # noqa: E402
from edits import Sources, batches_of, in_twin, read_edit, searching_nothing  # noqa: E402

SOURCE = """\
//! Numbers one after the other.
#![tactic(auto)]
ghost use Rattle.std.specs.Prelude.{◌≡◌, ◌+◌, ◌<◌};

/// The number after `n`.
pub fn next(n: u32) -> u32
    requires { n < 100 }
    ensures { result ≡ n + 1 }
{
    // one more
    n + 1
}

/// The number two after `n`.
pub fn next_but_one(n: u32) -> u32
    requires { n < 99 }
    ensures { result ≡ n + 2 }
{
    let one = next(n);
    next(one)
}

/// The number two after `n`, by two steps.
pub fn two_steps_on(n: u32) -> u32
    requires { n < 99 }
    ensures { result ≡ n + 2 }
{
    // step by step
    let middle = next(n);
    next(middle)
}

/// The number three after `n`.
pub fn next_but_two(n: u32) -> u32
    requires { n < 98 }
    ensures { result ≡ n + 3 }
{
    let after = next(n);
    next_but_one(after)
}

/// The number two after `n`, at once.
pub fn two_after(n: u32) -> u32
    requires { n < 99 }
    ensures { result ≡ n + 2 }
{
    n + 2
}

/// The same, in brackets.
pub fn two_at_once(n: u32) -> u32
    requires { n < 99 }
    ensures { result ≡ n + 2 }
{
    (n + 2)
}

/// The number four after `n`.
pub fn four_after(n: u32) -> u32
    requires { n < 97 }
    ensures { result ≡ n + 4 }
{
    next(three_after(n))
}

/// The number five after `n`.
pub fn five_after(n: u32) -> u32
    requires { n < 96 }
    ensures { result ≡ n + 5 }
{
    // by four
    next(next(three_after(n)))
}

/// The number three after `n`, in a body that no edit changes.
fn three_after(n: u32) -> u32
    requires { n < 98 }
    ensures { result ≡ n + 3 }
{
    n + 3
}

/// Whether a number is at least another one, below a head of several lines that no edit changes.
pub fn is_at_least(
    number_that_is_looked_at_first_of_these: u32,
    number_that_it_has_to_be_at_the_least: u32,
) -> bool {
    number_that_it_has_to_be_at_the_least <= number_that_is_looked_at_first_of_these
}

/// The same, by steps with longer names.
pub fn number_that_comes_two_steps_after_another_number(n: u32) -> u32
    requires { n < 99 }
    ensures { result ≡ n + 2 }
{
    let number_that_comes_one_step_after_it = next(n);
    next(number_that_comes_one_step_after_it)
}

/// A size.
#[derive(Clone, Copy)]
pub enum Size {
    Small,
    Large,
}

/// How many there are of a size.
pub fn count_of(size: Size) -> u32
    ensures small { size ≡ Size.Small → result ≡ 1 }
    ensures large { size ≡ Size.Large → result ≡ 2 }
{
    // by its name
    match size {
        Size::Small => 1,
        Size::Large => 2,
    }
}

/// What follows a number.
pub trait Count {
    /// A number after `n`.
    fn after(&self, n: u32) -> u32
        requires { n < 100 }
        ensures { n < result };
}

/// Counts by one.
#[derive(Drop)]
pub struct Ones {
    pub made: u32,
}

impl Count for Ones {
    fn after(&self, n: u32) -> u32
        requires { n < 100 }
        ensures { result ≡ 1 + n }
    {
        // the one after
        1 + n
    }
}

/// Counts by four.
#[derive(Drop)]
pub struct Fours {
    pub made: u32,
}

impl Count for Fours {
    fn after(&self, n: u32) -> u32 {
        4 + n
    }
}

/// The number two after `n`, by a proof that names each step.
pub fn two_by_steps(n: u32) -> u32
    requires { n < 99 }
    ensures { result ≡ 1 + (1 + n) }
{
    let first = one_after(n);
    one_after(first)
}

/// The number one after `n`.
fn one_after(n: u32) -> u32
    requires { n < 100 }
    ensures { result ≡ 1 + n }
{
    1 + n
}

/// A law: one and one is two.
pub fn ones_make_two()
    ensures { 1 + 1 ≡ 2 }
{}
"""
ANSWERS = """\
use Rattle.std.proofs.Common.{arith}
use Rattle.steps.proofs.next_but_one.Goals as goal

two-steps : goal.returns
two-steps c = let one = c.next-one.ensures in let two = c.next.ensures in omega (arith, one, two)

pub returns : goal.returns
returns = two-steps
"""
STEPS_ANSWERS = """\
use Rattle.std.proofs.Common.{◌∙◌, ◌+◌, ap}
use Rattle.steps.proofs.two_by_steps.Goals as goal

pub returns : goal.returns
returns c = c.one_after.ensures ∙ ap (λ k. 1 + k) c.one_after-first.ensures
"""
PROOF = "proofs/next_but_one/Answers.antt"


def own_answers(function: str) -> list[str]:
    """The lines of an edit that make a proof file of a function that has none."""
    return [
        f"file: proofs/{function}/Answers.antt",
        "new: use Rattle.std.proofs.Common.{arith}",
        f"new: use Rattle.steps.proofs.{function}.Goals as goal",
        "new: ",
        "new: pub returns : goal.returns",
        "new: returns c = omega arith",
    ]


IMPORT = "ghost use Rattle.std.specs.Prelude.{◌≡◌, ◌+◌, ◌<◌};"
WITH_LESS = "ghost use Rattle.std.specs.Prelude.{◌≡◌, ◌+◌, ◌<◌, ◌≤◌};"
LONG_NAME = "number_that_comes_two_steps_after_another_number"
LONG_STEP = "number_that_comes_one_step_after_it"
# Where a step has another name, `two-steps` names one that isn't there, and `returns` depends on it, "which was
# rejected". What has to be proved in a function's place has a function of its own, so that one check tries all of it.
# Name of an edit: its pairs of old and new text, and of a file that isn't the source, or a line; and what has to be
# told of it.
# An old and a new text, and where it isn't the usual one, the file; or a line
Pair = tuple[str, ...] | str
EDITS: dict[str, tuple[Sequence[Pair], str]] = {
    "next_is_two_more": ([("    n + 1", "    n + 2")], "refused: "),
    "next_but_one_adds_the_limit": ([("    next(one)", "    next(one) + 1")], "refused: "),
    "next_changes_nothing": ([("    n + 1", "    n + 1")], "FAILED, BAD EDIT: it changes nothing"),
    "next_changes_a_comment": ([("// one more", "// plus one")], "FAILED, NOT REFUSED by a message at next: proved"),
    "two_steps_on_with_answers_changes_a_comment": (
        [("// step by step", "// step for step")], "FAILED, NOT REFUSED by a message at two_steps_on: proved"),
    "next_breaks_another_function": ([("result ≡ n + 1 }", "n < result }")],
                                     "FAILED, NOT REFUSED by a message at next: proved"),
    "next_of_a_text_that_is_not_there": ([("    n + 7", "    n + 1")],
                                         "FAILED, BAD EDIT: a text of it stands in src/lib.rt 0 times"),
    "next_but_one_renames_a_step": (
        [("let one = next(n);\n    next(one)", "let first = next(n);\n    next(first)")],
        "misfit: ./proofs/next_but_one"),
    "a_step_with_a_long_name_is_renamed": (
        [(f"let {LONG_STEP} = next(n);\n    next({LONG_STEP})", "let first = next(n);\n    next(first)")],
        f"FAILED, misfit: ./proofs/{LONG_NAME}"),
    "a_step_with_a_long_name_is_renamed_in_its_answers_too": (
        [(f"let {LONG_STEP} = next(n);\n    next({LONG_STEP})", "let first = next(n);\n    next(first)"),
         (f"c.next-{LONG_STEP}.ensures", "c.next-first.ensures", f"proofs/{LONG_NAME}/Answers.antt")],
        f"FAILED, NOT REFUSED by a message at {LONG_NAME}: proved"),
    "next_but_one_is_wrong_with_answers_that_fit": (
        [("let one = next(n);\n    next(one)", "let first = next(n);\n    next(first) + 1"),
         ("c.next-one.ensures", "c.next-first.ensures", PROOF)], "refused: "),
    "next_but_one_with_the_answers_of_another": (
        [("    next(one)", "    next(one) + 1"),
         (f"c.next-{LONG_STEP}.ensures", "c.next.ensures", f"proofs/{LONG_NAME}/Answers.antt")],
        "FAILED, BAD EDIT: it changes a proof of a function that it doesn't change"),
    "two_by_steps_is_right_by_one_step_more": (
        [("    one_after(first)", "    one_after(first + 1 - 1)")], "FAILED, misfit: ./proofs/two_by_steps"),
    "two_by_steps_is_three": ([("    one_after(first)", "    one_after(first) + 1")], "refused: ./proofs/two_by_steps"),
    "two_by_steps_is_three_without_answers": ([("    one_after(first)", "    one_after(first) + 1"), "without answers"],
                                              "refused: note: src/lib.rt:"),
    "two_by_steps_is_right_without_answers": (
        [("    one_after(first)", "    one_after(first + 1 - 1)"), "without answers"],
        "FAILED, NOT REFUSED by a message at two_by_steps: proved"),
    "after_of_the_trait_is_the_same": ([("        4 + n", "        n")], "refused: "),
    "next_but_two_is_right_over_a_broken_one": (
        [("    next_but_one(after)", "    next(next_but_one(n))")],
        "FAILED, NOT REFUSED by a message at next_but_two: proved"),
    "next_but_two_beside_a_change_that_is_taken_back": (
        [("    n + 1", "    (n) + 1"), ("    next_but_one(after)", "    next(after)"), ("    (n) + 1", "    n + 1")],
        "refused: "),
    "two_after_has_the_text_that_next_is_given": ([("    n + 2", "    n + 3")], "refused: "),
    "two_after_is_four_by_answers_of_its_own": ([*own_answers("two_after"), ("    n + 2", "    n + 4")],
                                                "refused: ./proofs/two_after"),
    "two_at_once_is_right_by_answers_of_its_own": (
        [*own_answers("two_at_once"), ("    (n + 2)", "    1 + n + 1")],
        "FAILED, NOT REFUSED by a message at two_at_once: proved"),
    "two_after_with_a_line_that_takes_no_place": (["file: src/lib.rs", "new: // two more", ("    n + 2", "    n + 5")],
                                                  "FAILED, BAD EDIT: a line 'new:' stands before any"),
    "four_after_is_five_after": ([("    next(three_after(n))", "    next(three_after(n)) + 1")], "refused: "),
    "four_after_promises_five": ([("    ensures { result ≡ n + 4 }", "    ensures { result ≡ n + 5 }")], "refused: "),
    "four_after_promises_less_by_another_import": (
        [(IMPORT, WITH_LESS), ("    ensures { result ≡ n + 4 }", "    ensures { result ≤ n + 3 }")], "refused: "),
    "four_after_promises_more_by_another_import": (
        [(IMPORT, WITH_LESS), ("    ensures { result ≡ n + 4 }", "    ensures { n + 3 ≤ result }")],
        "FAILED, NOT REFUSED by a message at four_after: proved"),
    "count_of_promises_less_by_the_same_import": (
        [(IMPORT, WITH_LESS), ("    ensures large { size ≡ Size.Large → result ≡ 2 }",
                               "    ensures large { size ≡ Size.Large → result ≤ 1 }")], "refused: "),
    "five_after_over_one_that_is_not_proved_changes_a_comment": (
        [("// by four", "// by 4")], "FAILED, NOT REFUSED by a message at five_after: proved"),
    "four_after_in_a_twin_is_right": (
        [("    next(three_after(n))", "    next((three_after(n)))")],
        "FAILED, NOT REFUSED by a message at four_after: proved"),
    "after_is_two_more": ([("        1 + n", "        2 + n")], "refused: "),
    "after_is_three_more": ([("        1 + n", "        3 + n")], "refused: "),
    "after_in_a_twin_changes_a_comment": ([("// the one after", "// 1 after")],
                                          "FAILED, NOT REFUSED by a message at OnesCount::after: proved"),
    "count_of_large_is_three": ([("Size::Large => 2,", "Size::Large => 3,")], "refused: "),
    "count_of_small_is_three": ([("Size::Small => 1,", "Size::Small => 3,")], "refused: "),
    "count_of_small_in_a_twin_of_one_arm_is_right": (
        [("Size::Small => 1,", "Size::Small => (1),")], "FAILED, NOT REFUSED by a message at count_of: proved"),
    "ones_make_three_by_law": ([("    ensures { 1 + 1 ≡ 2 }", "    ensures { 1 + 1 ≡ 3 }")], "refused: "),
    "next_but_one_is_wrong_by_its_answers": ([("    next(one)", "    next(one) + 3"), "by answers"],
                                             "refused: ./proofs/next_but_one"),
    "next_but_one_is_right_by_its_answers": (
        [("    next(one)", "    (next(one))"), "by answers"],
        "FAILED, NOT REFUSED by a message at next_but_one: proved"),
    "two_after_is_six_by_answers_that_it_has_not": ([("    n + 2", "    n + 6"), "by answers"],
                                                    "refused: note: src/lib.rt:"),
    "next_is_three_more_and_known_as_a_misfit": ([("    n + 1", "    n + 3")],
                                                 "FAILED, NO MISFIT: misfits.txt has it, refused: "),
    "the_head_of_the_file": ([("//! Numbers one", "//! Numbers, one")], "FAILED, BAD EDIT: it changes no function"),
}


# Heads of functions, and what they are where no tactic searches.
HEADS = [
    ("/// One.\npub fn one() -> u32 {", "/// One.\n#[tactic(none)] pub fn one() -> u32 {"),
    ("    /// One, of fn one.\n    #[inline]\n    fn one(\n        of: u32,\n    ) -> u32",
     "    /// One, of fn one.\n    #[inline]\n    #[tactic(none)] fn one(\n        of: u32,\n    ) -> u32"),
    ("#[tactic(auto, unfolding(specs::A::a,\n    specs::B::b))]\npub(crate) fn one() {",
     "#[tactic(none)]\n\npub(crate) fn one() {"),
]

# What is left of a body with one wrong arm in a twin: neither the other arms nor remarks.
ONE_ARM = ["    match size {", "        Size::Large => 3,", "        _ => count_of(size),", "    }", "}"]

# The edits that change more than bodies and further imports.
OF_CONTRACTS = {"next_breaks_another_function", "four_after_promises_five", "count_of_promises_less_by_the_same_import",
                "four_after_promises_less_by_another_import", "four_after_promises_more_by_another_import",
                "ones_make_three_by_law"}

# What has to be told of the right body of each edit that brings answers.
RIGHT = {
    "a_step_with_a_long_name_is_renamed_in_its_answers_too":
        f"FAILED, NOT PROVED with its answers: ./proofs/{LONG_NAME}",
    "next_but_one_is_wrong_with_answers_that_fit": "FAILED, NOT PROVED with its answers: ./proofs/next_but_one",
    "next_but_one_with_the_answers_of_another": "FAILED, BAD EDIT: it changes a proof of a function that it doesn't",
    "two_after_is_four_by_answers_of_its_own": "proved with its answers",
    "two_at_once_is_right_by_answers_of_its_own": "proved with its answers",
}

# Two terms at the one place at which an answer doesn't fit, and whether they are other values for sure.
TERMS = [
    ("1", "2", True),
    ("1", "1", False),
    ("mathlib.Core.Bool.true", "mathlib.Core.Bool.false", True),
    ("Rattle.steps.specs.declared.Size.TheVariants.Small", "Rattle.steps.specs.declared.Size.TheVariants.Large", True),
    ("Rattle.steps.specs.Words.small", "Rattle.steps.specs.Words.large", False),
    ("c.args.n", "c.args.m", True),
    ("c.args.n", "c.next.result", False),
    ("c.args.n", "(Prim.Native.Nat.◌/◌ c.args.n 2)", True),
    ("c.args.n", "(Prim.Native.Nat.◌/◌ c.args.n 1)", False),
    ("c.args.n", "Prim.Native.Nat.◌/◌ c.args.n 2", True),
    ("c.args.n", "Prim.Native.Nat.◌/◌ c.args.n 1", False),
    ("(c.next.result + 1)", "c.next.result", True),
    ("(c.next.result + 1 - 1)", "c.next.result", False),
    ("(c.next.result + 0)", "c.next.result", False),
]
# The list of those that are known to be misfits, of which one isn't there.
KNOWN = ["next_but_one_renames_a_step", "next_is_three_more_and_known_as_a_misfit", "next_of_an_edit_that_is_not_there"]

# A crate over another one, and its edit.
LOW = """\
//! The number one.
#![tactic(auto)]
ghost use Rattle.std.specs.Prelude.{◌≡◌};

/// One.
pub fn one() -> u32
    ensures { result ≡ 1 }
{
    1
}
"""
# Its edits, of which the second has a twin, and doesn't compile; and what has to be told of each.
LOW_EDITS: dict[str, tuple[Sequence[Pair], str]] = {
    "one_is_two": ([("    1", "    2")], "refused: "),
    "one_of_another_type": ([("    1", "    true")],
                            "FAILED, DOES NOT COMPILE: src/lib.rt:9:5: error[mismatched-types]"),
}
OVER = """\
//! The number two.
#![tactic(auto)]
ghost use Rattle.std.specs.Prelude.{◌≡◌};
ghost use Rattle.over.specs.Two.{two};

use low::one;

/// Two.
pub fn next_to_one() -> u32
    ensures { result ≡ two }
{
    one() + 1
}
"""
TWO = """\
-- The number two.
use Rattle.std.specs.Prelude.{ℕ}

abbrev pub two : ℕ
two = 2
"""
OVER_ANSWERS = """\
use Rattle.std.proofs.Common.{arith}
use Rattle.over.proofs.next_to_one.Goals as goal

pub returns : goal.returns
returns c = let one = c.one.ensures in omega (arith, one)
"""
OVER_EDIT = [("    one() + 1", "    one() + 2")]
# Edits of functions that no other crate calls, of which the second doesn't fit the source.
INNER: dict[str, tuple[str, Sequence[Pair]]] = {
    "over": ("next_to_one_is_four", [("    one() + 1", "    one() + 3")]),
    "low": ("one_of_no_text", [("    one and more", "    2")]),
}
NOTES = "rattle-kept/wrong-bodies"


def write(path: Path, text: str) -> Path:
    path.parent.mkdir(parents=True, exist_ok=True)
    path.write_text(text)
    return path


def edit_text(pairs: Sequence[Pair]) -> str:
    """The lines of an edit; a pair of several lines is one pair for each line, and a third part is its file. What isn't
    a pair is a line."""
    lines = [it for it in pairs if isinstance(it, str)]
    for old, new, *file in (it for it in pairs if not isinstance(it, str)):
        lines += [f"file: {it}" for it in file or ["src/lib.rt"]]
        for before, after in zip(old.split("\n"), new.split("\n")):
            lines += [f"old: {before}", f"new: {after}"]
    return "\n".join(lines) + "\n"


def repository(top: Path) -> None:
    """Lays out a repository with the crate `steps`, its edits and the tool."""
    called_well(["git", "init", "--quiet", str(top)])
    write(top / "crates.txt", "steps:\nlow:\nover: low\n")
    write(top / "crates/low/src/lib.rt", LOW)
    write(top / "crates/over/src/lib.rt", OVER)
    write(top / "crates/over/specs/Lib.antt", "pub mod Two\n")
    write(top / "crates/over/specs/Two.antt", TWO)
    write(top / "crates/over/proofs/next_to_one/Answers.antt", OVER_ANSWERS)
    write(top / "tests/wrong-bodies/over/next_to_one_is_three.edit", edit_text(OVER_EDIT))
    for crate, (name, inner) in INNER.items():
        write(top / f"tests/wrong-bodies/{crate}/inner/{name}.edit", edit_text(inner))
    write(top / "crates/steps/src/lib.rt", SOURCE)
    write(top / "crates/steps/proofs/next_but_one/Answers.antt", ANSWERS)
    write(top / "crates/steps/proofs/two_by_steps/Answers.antt", STEPS_ANSWERS)
    for name, step in ((LONG_NAME, LONG_STEP), ("two_steps_on", "middle")):
        answers = ANSWERS.replace("next_but_one", name).replace("next-one", f"next-{step}")
        write(top / f"crates/steps/proofs/{name}/Answers.antt", answers)
    write(top / "tests/wrong-bodies/misfits.txt", "".join(f"steps/{it}\n" for it in KNOWN))
    for crate, edits in (("steps", EDITS), ("low", LOW_EDITS)):
        for name, (pairs, _) in edits.items():
            write(top / f"tests/wrong-bodies/{crate}/{name}.edit", edit_text(pairs))
    for file in [*(TOP / "tests/wrong-bodies").glob("*.py"), TOP / "tests/wrong-bodies/run", TOP / "tools/crates.py"]:
        (top / file.relative_to(TOP)).parent.mkdir(parents=True, exist_ok=True)
        shutil.copy(file, top / file.relative_to(TOP))


def kit_of_its_own(folder: Path) -> str:
    """A folder with links to all that the kit has, beside which nothing is kept yet, and an `rt` that names it, as that
    of the kit does, by its page and its KIT-ID: the path on which it stands."""
    rt = shutil.which("rt")
    page = Path(called_well(["rt", "doc"]).strip())
    (folder / "kit").mkdir()
    for it in page.parent.iterdir():
        (folder / "kit" / it.name).symlink_to(it)
    write(folder / "bin/rt",
          f'#!/bin/sh\ncase $1 in\ndoc) echo {folder}/kit/{page.name} ;;\nversion) cat {folder}/kit/KIT-ID ;;\n'
          f'*) exec {rt} "$@" ;;\nesac\n').chmod(0o755)
    return f"{folder}/bin:{os.environ['PATH']}"


def told(top: Path, path: str, *words: str) -> tuple[dict[str, str], list[str], int]:
    """What the tool prints of each edit, its lines and its status."""
    ran = called([top / "tests/wrong-bodies/run", *words], env={**os.environ, "PATH": path})
    return dict(re.findall(r"(?m)^\w+/(\w+): (.*)$",
                           ran.stdout)), ran.stdout.splitlines() or [ran.stderr], ran.returncode


@contextlib.contextmanager
def changed(path: Path, aside: Path) -> Iterator[None]:
    """A time in which a file has a line feed more, or what a crate promises is written otherwise; meanwhile it lies
    aside. One of the kit is a link."""
    path.rename(aside)
    text = aside.read_bytes()
    path.write_bytes(text.replace(b"result", b"(result)", 1) if path.parts[-3:] == ("low", "src", "lib.rt") else text
                     + b"\n")
    path.chmod(aside.stat().st_mode)
    yield
    aside.rename(path)


def what_is_read(top: Path, folder: Path) -> list[Path]:
    """The files that a trial of the edit of the crate `over` reads, one of each kind."""
    scripts = [*sorted((top / "tests/wrong-bodies").glob("*.py")), top / "tests/wrong-bodies/run",
               top / "tools/crates.py"]
    crate = [top / "crates/over" / it for it in ("src/lib.rt", "specs/Two.antt", "proofs/next_to_one/Answers.antt")]
    return [top / "tests/wrong-bodies/over/next_to_one_is_three.edit", *crate, folder / "kit/KIT-ID", *scripts]


def keeping(top: Path, folder: Path, path: str) -> Iterator[tuple[str, str, str]]:
    """What is told of the edit of `over`, with what has to be told: of trials that find a refusal kept, and of those
    that may not take it."""
    notes = folder / NOTES
    yield "first", tried(top, path), "tried"
    yield "again", tried(top, path), "kept"
    for it in what_is_read(top, folder):
        with changed(it, folder / "aside"):
            yield f"{it.relative_to(folder)} changed", left(top, path), "1 to be tried, 0 kept"
    yield "with each as it was", left(top, path), "0 to be tried, 1 kept"
    yield "with --inner", left(top, path, "--inner"), "1 to be tried, 1 kept"
    with changed(top / "crates/low/src/lib.rt", folder / "aside"):
        yield "the crate below changed", tried(top, path), "tried"
    write(top / "crates.txt", (top / "crates.txt").read_text().replace("over: low", "over: low hex"))
    yield "a line of crates.txt changed", left(top, path), "1 to be tried, 0 kept"
    write(top / "crates.txt", (top / "crates.txt").read_text().replace("over: low hex", "over: low"))
    yield "with --anew", left(top, path, "--anew"), "1 to be tried, 0 kept"
    for it in notes.iterdir():
        note = json.loads(it.read_text())
        it.write_text(json.dumps({**note, "why": note["why"] + "."}))
    yield "with notes of another text", left(top, path), "1 to be tried, 0 kept"
    notes.chmod(0o755)
    yield "with notes that others can read", left(top, path), "1 to be tried, 0 kept"


def tried(top: Path, path: str) -> str:
    """Whether the edit of `over` was tried, or a note taken; what was told, where that is neither."""
    said, lines, status = told(top, path, "over")
    why = said.get("next_to_one_is_three", "nothing")
    for word, start, counts in (("tried", "refused: ", "1 tried, 0 kept"),
                                ("kept", "kept, refused: ", "0 tried, 1 kept")):
        if (why.startswith(start) and lines[-2].startswith(counts) and lines[-1] == "1 refused, 0 failed"
            and status == 0):
            return word
    return "\n".join(lines)


def left(top: Path, path: str, *words: str) -> str:
    """The last line of what is told of the edits that would be tried."""
    return told(top, path, "--left", *words, "over")[1][-1]


def of_another_type(top: Path, path: str) -> Iterator[tuple[str, str, str]]:
    """What is told of two edits of which one doesn't compile, with what has to be told."""
    said, lines, _ = told(top, path, "--built", "low")
    yield from ((name, said.get(name, "nothing"), wanted) for name, (_, wanted) in LOW_EDITS.items())
    yield "one that isn't tried, and doesn't fit", said.get(INNER["low"][0], "nothing"), "FAILED, BAD EDIT: "
    yield "the last line beside one that doesn't compile", lines[-1], "1 refused, 2 failed"


def right_bodies(top: Path, path: str) -> Iterator[tuple[str, str, str]]:
    """What is told of right bodies with the answers of edits, with what has to be told, and which of them are kept."""
    said, lines, status = told(top, path, "--built", "--right", "steps")
    for name in sorted(said.keys() | RIGHT.keys()):
        yield f"{name}, the right body", said.get(name, "nothing"), RIGHT.get(name, "no line")
    yield "the last line of right bodies", lines[-1], "2 proved, 3 failed"
    yield "the status of right bodies", str(status), "1"
    yield "right bodies that are kept", told(top, path, "--right", "--left", "steps")[1][-1], "2 to be tried, 2 kept"


def of_a_small_crate(folder: Path) -> Iterator[Check]:
    """What is told of each edit of a small crate, and what is kept."""
    top = folder / "repository"
    repository(top)
    path = kit_of_its_own(folder)
    said, lines, status = told(top, path, "--built", "steps")
    noted = told(top, path, "--left", "steps")[1][-1]
    told_of = {name: wanted for name, (_, wanted) in EDITS.items()} | {KNOWN[-1]: "FAILED, NO EDIT: misfits.txt has it"}
    counts = [sum(wanted.startswith(word) for wanted in told_of.values()) for word in ("refused", "FAILED", "misfit")]
    all_kept = sum(any(word in wanted for word in ("refused: ", "misfit: ")) for wanted in told_of.values())
    for name, got, wanted in [
            *((name, said.get(name, "nothing"), wanted) for name, wanted in told_of.items()),
            ("the last line", lines[-1], f"{counts[0]} refused, {counts[1]} failed"),
            ("the third line from the end", lines[-3:][0], f"{counts[2]} misfits"), ("the status", str(status), "1"),
            ("what is kept of these", noted.partition(", ")[2], f"{all_kept} kept"), *right_bodies(top, path),
            *of_another_type(top, path), *keeping(top, folder, path)]:
        yield name, None if got.startswith(wanted) else f"got {got!r}, wanted {wanted!r}"


def together(folder: Path) -> Iterator[Check]:
    """How many of the edits stand in each list of those that are tried together: each has its function's place or a
    twin, also one that changes a contract, an import or answers."""
    repository(folder)
    sources, edits = Sources(str(folder / "crates/steps")), []
    for name, (pairs, told_of) in EDITS.items():
        if "BAD EDIT" not in told_of:
            edits.append(read_edit(name, edit_text(pairs), sources))
    tried = list(batches_of(edits, sources))
    yield "the edits in lists", differs([len(it) for it in tried], [len(edits)])
    (one_arm,) = (in_twin(it, sources, 1) for it in edits if it.name == "count_of_large_is_three")
    yield "a twin of one arm", differs(
        one_arm and one_arm.twin and one_arm.twin.text.split("\n")[-len(ONE_ARM):], ONE_ARM)
    yield "edits of contracts, each in a twin", differs(
        {it.name for batch in tried for it in batch if it.twin and not it.in_bodies}, OF_CONTRACTS)


def terms() -> Iterator[Check]:
    """Which terms are told to be others."""
    for one, other, wanted in TERMS:
        yield f"{one} and {other}", differs(is_another(one, other) or is_another(other, one), wanted)


def heads() -> Iterator[Check]:
    """What is written where no tactic searches: each line stays where it is."""
    for head, wanted in HEADS:
        yield f"no search in {head!r}", differs(searching_nothing(head, "one"), wanted)


def main() -> int:
    script = Script()
    if not shutil.which("rt"):
        left_out("wrong bodies of a small crate", "the command rt of the Rattle kit isn't installed")
        return 0
    with tempfile.TemporaryDirectory() as name:
        script.run(partial(of_a_small_crate, Path(name)), partial(together, Path(name, "together")), terms, heads)
    return script.ended()


if __name__ == "__main__":
    sys.exit(main())
