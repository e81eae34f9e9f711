#!/usr/bin/env python3
"""Tells each lemma that nothing reaches, and each answer that a further word breaks: tests/lemmas.py [FOLDER]

A definition in a file of proofs/ is reached where a source, a definition in specs/, or an answer, an invariant or a
proof of a function names it, or a definition that is itself reached. Names are compared and not what they stand for:
one that is named anywhere counts as reached wherever it stands. So what is told is never needed, and `rt check` still
decides. A function that puts the parts of a line together by the lemma `joined` has no answers, since these count the
parts. FOLDER has the crates; without it they are those of this repository. Exits with 1 where something is told.
"""
import re
import sys
from collections.abc import Iterator
from dataclasses import dataclass, field
from functools import partial
from pathlib import Path

from common import ROOT, Check, Script

TOKEN = re.compile(r"[^\s(){}\[\],;⟨⟩\"]+")
PARTS = re.compile(r"::|[.◌]")
KINDS = r"(?:(?:pub|abbrev|unfoldable|private|opaque|data|record|codata) +)*"
HEAD = re.compile(rf"{KINDS}([^\s(){{}}:=,;]+)")
IN_MODULE = re.compile(rf" *{KINDS}([^\s(){{}}:=,;]+) :")
MODULE = re.compile(r" *module\b")
IMPORT = re.compile(r"(?:pub )?(?:use|mod)\b")
DIRECTIVE = re.compile(r"(?:infix\w*|syntax|open|#)")
OF_FUNCTIONS = ("Answers.antt", "Invariants.antt", "Proof.antt")
JOINS = re.compile(r"#\[tactic\([^\]]*Joining::joined[^\]]*\)\]\n"
                   r"(?: *(?:#\[|///).*\n)* *(?:pub(?:\([^)]*\))? )?fn (\w+)")


@dataclass
class Definition:
    """A definition of a file of proofs/: its name, the number of its first line, how many lines it has, and the words
    in them."""

    file: Path
    name: str
    line: int
    lines: int = 0
    words: set[str] = field(default_factory=set)


def words_of(line: str) -> set[str]:
    """The words of a line, and the parts of those that are paths or operators."""
    found = set(TOKEN.findall(line))
    return found | {part for word in found for part in PARTS.split(word)}


def without_remark(line: str, mark: str) -> str:
    return line.partition(mark)[0].rstrip()


def definitions_of(file: Path, roots: set[str]) -> list[Definition]:
    """The definitions of a file, in order; what stands outside of each goes to the roots. Those of a module stand two
    columns further in."""
    found: dict[str, Definition] = {}
    current, margins = None, [0]
    for number, whole in enumerate(file.read_text(encoding="utf-8").split("\n"), 1):
        line = without_remark(whole, "--")
        if not line or IMPORT.match(line):
            continue
        column = len(line) - len(line.lstrip())
        while column < margins[-1]:
            margins.pop()
        if column == margins[-1] and line[column] not in ")}]":
            if MODULE.match(line):
                margins.append(column + 2)
            head = None if MODULE.match(line) or DIRECTIVE.match(line) else (IN_MODULE if column else HEAD).match(line)
            if head or not column or MODULE.match(line):
                current = found.setdefault(head[1], Definition(file, head[1], number)) if head else None
        if current:
            current.lines += 1
            current.words |= words_of(line)
        else:
            roots |= words_of(line)
    return [*found.values()]


def unreached(folder: Path) -> tuple[list[Definition], list[Definition]]:
    """The definitions that nothing reaches, and all."""
    roots: set[str] = set()
    all_of_them = []
    for file in sorted(folder.glob("crates/*/proofs/**/*.antt")):
        if file.name in OF_FUNCTIONS:
            roots |= {it for line in file.read_text(encoding="utf-8").split("\n")
                      for it in words_of(without_remark(line, "--"))}
        elif file.name != "Lib.antt":
            all_of_them += definitions_of(file, roots)
    for file in folder.glob("crates/*/specs/**/*.antt"):
        roots |= {it for line in file.read_text(encoding="utf-8").split("\n")
                  for it in words_of(without_remark(line, "--"))}
    for file in folder.glob("crates/*/src/**/*.rt"):
        roots |= {it for line in file.read_text(encoding="utf-8").split("\n")
                  for it in words_of(without_remark(line, "//"))}
    by_name: dict[str, list[Definition]] = {}
    for it in all_of_them:
        by_name.setdefault(it.name, []).append(it)
    seen: set[str] = set()
    new = roots & by_name.keys()
    while new:
        seen |= new
        new = {word for name in new for it in by_name[name] for word in it.words if word in by_name} - seen
    return [it for it in all_of_them if it.name not in seen], all_of_them


def reached(folder: Path) -> Iterator[Check]:
    """Each definition of the folder's proofs."""
    left, every = unreached(folder)
    for it in every:
        yield f"{it.file.relative_to(folder)}:{it.line}", f"nothing reaches {it.name}" if it in left else None


def joined(folder: Path) -> Iterator[Check]:
    """Each function of the folder that puts the parts of a line together."""
    for file in sorted(folder.glob("crates/*/src/**/*.rt")):
        proofs = folder / Path(*file.relative_to(folder).parts[:2]) / "proofs"
        for function in JOINS.findall(file.read_text(encoding="utf-8")):
            answers = [*proofs.glob(f"**/{function}/Answers.antt")]
            yield (f"{file.relative_to(folder)}: {function}",
                   "it has answers, which a word more on its line breaks" if answers else None)


def main() -> int:
    script = Script()
    folder = Path(script.words[0]) if script.words else ROOT
    script.run(partial(reached, folder), partial(joined, folder))
    return script.ended()


if __name__ == "__main__":
    sys.exit(main())
