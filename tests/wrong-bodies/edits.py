"""Wrong bodies of a crate: what each edit changes, in which functions, and which of them can be tried together."""
import os
import re
from collections.abc import Container, Iterator, Sequence
from dataclasses import dataclass, replace
from typing import NamedTuple

from sources import Function, functions_of, module_of, types_of

# The texts of files by their paths in the crate.
Texts = dict[str, str]
IMPORTS = ("use ", "ghost use ")
CLAUSE = re.compile(r"(?m)^ *(?:requires|ensures)\b")
MUCH = 8  # lines
WITHOUT_ANSWERS = "without answers"
BY_ANSWERS = "by answers"
CONSTANT = re.compile(r" *(?:pub(?:\([a-z ]+\))? )?const fn ")
TACTIC = re.compile(r"#\[tactic\([^\[\]]*\)\]")
REMARK = re.compile(r" *//")
ARM = re.compile(r" *\w+::(\w+)(?: \{[^{}]*\})? => .*")


class BadEdit(Exception):
    """An edit that can't be applied, with the reason."""


@dataclass(frozen=True)
class Change:
    """One pair of an edit: where the text `old` stands once in a file, `new` takes its place. Without an old text it is
    a further line of a proof file, which may not be there."""

    file: str
    old: str
    new: str


@dataclass(frozen=True)
class Twin:
    """A copy of a function as an edit has it, with another name: its text, the path of the function below which it
    stands, how many lines of the body it leaves out, the changes of imports that it needs, and the paths and texts of
    those of its proof files that the edit changes. That of a function of a trait stands below its impl, as a function
    of the type itself."""

    text: str
    of: str
    saved: int = 0
    imports: tuple[Change, ...] = ()
    proofs: tuple[tuple[str, str], ...] = ()


@dataclass(frozen=True)
class Edit:
    """A wrong body: its name, what it changes, the paths of the functions that it changes, whether it changes nothing
    but their bodies, so that no other function can tell, whether it is tried without their answers, and whether these
    alone refuse it. Where the wrong body stands in a twin, the function itself stays right."""

    name: str
    changes: tuple[Change, ...]
    functions: frozenset[str]
    in_bodies: bool
    bare: bool
    by_answers: bool
    twin: Twin | None = None


class Parts(NamedTuple):
    """The text of a function to the line with the brace of its body, and the lines of its body after that."""

    head: str
    body: list[str]


class Sources:
    """The source files of a crate, the functions in them, and the files of its proofs."""

    def __init__(self, folder: str) -> None:
        self.folder, self.texts, self.proofs = folder, texts_in(folder, "src"), texts_in(folder, "proofs")
        self.homes = {name: module_of(path) for path, text in self.texts.items() for name in types_of(text)}
        self.holders = {name for text in self.texts.values() for name in types_of(text, "struct|enum")}

    def path_of(self, file: str, function: Function) -> str:
        """What the checker calls a function, below the crate: a method stands in the module of its type."""
        module = self.homes.get(function.holder, module_of(file))
        return "::".join(filter(None, [module, function.holder, function.name]))

    def functions(self, file: str, text: str) -> dict[str, Function]:
        """The functions of a file with this text, by what the checker calls them."""
        return {self.path_of(file, it): it for it in functions_of(text)}

    def with_bodies(self) -> set[str]:
        """The functions of the crate that have a body."""
        return {path for file, text in self.texts.items()
                for path, it in self.functions(file, text).items() if has_body(it, text)}

    def text_of(self, file: str) -> str | None:
        """The text of a file, which is empty for a proof file that isn't there, or None."""
        return self.texts.get(file, self.proofs.get(file, "" if is_of_proofs(file) else None))

    def is_in_cycle(self, path: str) -> bool:
        """Whether a function calls itself, or others that call it: it has a proof of its cycle."""
        above, _, own = path.replace("::", "/").rpartition("/")
        return os.path.isdir(f"{self.folder}/proofs/{above}/+{own}")


def texts_in(folder: str, part: str) -> Texts:
    """The texts of the files in a part of a crate."""
    texts: Texts = {}
    for at, _, names in os.walk(f"{folder}/{part}"):
        for name in names:
            with open(f"{at}/{name}", encoding="utf-8") as it:
                texts[os.path.relpath(f"{at}/{name}", folder)] = it.read()
    return texts


def is_of_proofs(file: str) -> bool:
    """Whether a path is that of a proof file, which may not be there."""
    return file.startswith("proofs/") and ".." not in file.split("/")


def has_body(function: Function, text: str) -> bool:
    """Whether a function has a body: one of a trait may have none."""
    return text.split("\n")[function.last - 1].rstrip().endswith("}")


def without_bodies(sources: Sources, texts: Texts, functions: Container[str]) -> Texts:
    """The texts of all source files, those in `texts` as they are there, in which these functions have a body that says
    nothing: what calls a function rests on what it promises, but the checker reads the body too."""
    made: Texts = {}
    for file in sources.texts:
        text = texts.get(file, sources.texts[file])
        lines = text.split("\n")
        for path, it in reversed(sources.functions(file, text).items()):
            is_constant = any(CONSTANT.match(line) for line in lines[it.first - 1 : it.body])
            if path in functions and it.body < it.last and not is_constant:
                lines[it.body : it.last - 1] = ["unreachable!()"]
        made[file] = "\n".join(lines)
    return {**texts, **made}


def without_search(sources: Sources, texts: Texts, functions: Container[str]) -> Texts:
    """The texts of all source files, those in `texts` as they are there, in which no tactic searches for a goal of
    these functions that has no answer. Each line stays where it is."""
    made: Texts = {}
    for file in sources.texts:
        text = texts.get(file, sources.texts[file])
        lines = text.split("\n")
        for path, it in sources.functions(file, text).items():
            if path in functions:
                head = "\n".join(lines[it.first - 1 : it.body])
                lines[it.first - 1 : it.body] = searching_nothing(head, it.name).split("\n")
        made[file] = "\n".join(lines)
    return {**texts, **made}


def searching_nothing(head: str, name: str) -> str:
    """The text of a function to the line with the brace of its body, where tactics search for nothing."""
    found = TACTIC.search(head)
    if found:
        return head.replace(found[0], "#[tactic(none)]" + "\n" * found[0].count("\n"))
    return re.sub(rf"(?m)^( *)(?=(?:[a-z][^\n]* )?fn {name}\b)", r"\1#[tactic(none)] ", head, count=1)


def changes_of(text: str) -> tuple[Change, ...]:
    """The pairs of an edit's text: lines `file: PATH`, `old: TEXT`, `new: TEXT`. A line `without answers` or `by
    answers` may stand beside them, and below the path of a proof file lines `new: TEXT` alone."""
    file: str | None = None
    old: str | None = None
    found: list[Change] = []
    for line in text.split("\n"):
        if line.startswith("file: "):
            file = line.removeprefix("file: ").strip()
        elif line.startswith("old: "):
            old = line.removeprefix("old: ")
        elif line.startswith("new:"):
            if not file or not old and not is_of_proofs(file):
                raise BadEdit("a line 'new:' stands before any 'file:' or 'old:' line")
            found.append(Change(file, old or "", line.removeprefix("new:").removeprefix(" ")))
            old = None
    if not found:
        raise BadEdit("it has no pair of 'old:' and 'new:'")
    return tuple(found)


def changed(sources: Sources, changes: Sequence[Change], texts: Texts | None = None) -> Texts:
    """The texts of the files that these changes make of the sources, or of `texts` where that has the file."""
    made = dict(texts or {})
    for it in changes:
        text = made.get(it.file, sources.text_of(it.file))
        if text is None:
            raise BadEdit(f"there is no file {it.file}")
        if it.old and text.count(it.old) != 1:
            raise BadEdit(f"a text of it stands in {it.file} {text.count(it.old)} times, and not once")
        made[it.file] = text.replace(it.old, it.new) if it.old else f"{text}{it.new}\n"
    return made


def applied(sources: Sources, edit: Edit, texts: Texts) -> Texts:
    """The texts of the files with an edit, each from `texts` where that has it."""
    if not edit.twin:
        return changed(sources, edit.changes, texts)
    (file,) = sources_of(edit)
    text = texts.get(file, sources.texts[file])
    # others may have made the same change of an import
    for it in edit.twin.imports:
        text = text if it.new in text else changed(sources, [it], {file: text})[file]
    lines = text.split("\n")
    below = sources.functions(file, "\n".join(lines))[edit.twin.of].last
    if edit.twin.text.startswith("impl "):
        below = lines.index("}", below) + 1
    made = "\n".join([*lines[:below], "", edit.twin.text, *lines[below:]])
    return {**texts, file: made, **dict(edit.twin.proofs)}


def sources_of(edit: Edit) -> set[str]:
    """The source files that an edit changes."""
    return {it.file for it in edit.changes if not is_of_proofs(it.file)}


def in_twin(edit: Edit, sources: Sources, number: int) -> Edit | None:
    """The edit with its wrong function in a twin of that, or None where that can't be: the edit changes more than one
    function, its proof files and imports, and that is in a cycle of calls, or one of a trait whose contract stands with
    the trait."""
    if len(edit.functions) != 1 or len(sources_of(edit)) != 1:
        return None
    (file,), (path,) = sources_of(edit), edit.functions
    imports = tuple(it for it in edit.changes if adds_imports(it))
    made = changed(sources, edit.changes)
    text, was = made.pop(file), changed(sources, imports).get(file, sources.texts[file])
    function, right = sources.functions(file, text)[path], sources.functions(file, was)[path]
    head, body = parts_of(text, function)
    if lines_outside(text, function) != lines_outside(was, right) or sources.is_in_cycle(path) or "#[cycle(" in head:
        return None
    twin = replace(function, name=f"{function.name}_twin{number}")
    text = re.sub(rf"\bfn {function.name}\b", f"fn {twin.name}", head, count=1)
    # answers of the edit's own are for the whole body
    kept = (None if made else one_arm(function, head, parts_of(was, right).body, body)) or body
    text, saved = "\n".join([text, *kept]), len(body) - len(kept)
    if function.holder and function.holder not in sources.holders:
        if function.type not in sources.holders or not CLAUSE.search(head):
            return None
        twin, text = replace(twin, holder=function.type), f"impl {function.type} {{\n{text}\n}}"
    own = sources.path_of(file, twin)
    proofs = tuple((proof_file(own, it), renamed(made[it], own, path)) for it in made)
    return replace(edit, functions=frozenset({own}), twin=Twin(text, path, saved, imports, proofs))


def proof_file(function: str, file: str) -> str:
    """The proof file of a function that has the name of another one's."""
    return "/".join(["proofs", *function.split("::"), os.path.basename(file)])


def renamed(text: str, twin: str, of: str) -> str:
    """The text of a proof file of a function as one of its twin: it names what is made of that by its path."""
    return re.sub(rf"\.{re.escape(of.replace('::', '.'))}(?=[.\s])", f".{twin.replace('::', '.')}", text)


def one_arm(function: Function, head: str, right: Sequence[str], wrong: Sequence[str]) -> list[str] | None:
    """The lines of a body that is wrong in one arm of the match that it is, that of a variant: this arm alone, and a
    call of the function for any other value, since what it promises there is what its twin has to. None of any other
    body. Remarks count for nothing."""
    right, wrong = ([it for it in lines if not REMARK.match(it)] for lines in (right, wrong))
    called = re.search(rf"(?m)^(?:pub(?:\(crate\))? )?fn {function.name}\(([^()]*)\)", head)
    arms = [it for it in wrong if re.match(r" {8}[^ }]", it)]
    variants = [it[1] for it in map(ARM.match, arms) if it]
    other = [it for was, it in zip(right, wrong) if was != it]
    is_match = wrong[-2:] == ["    }", "}"] and wrong[0].startswith("    match ") and len(variants) == len(arms)
    is_one_line = len(wrong) == len(right) and len(other) == 1 and other[0].count("{") == other[0].count("}")
    if not (called and is_match and is_one_line and other[0] in arms):
        return None
    if variants.count(variants[arms.index(other[0])]) != 1:
        return None
    given = ", ".join(re.findall(r"(\w+): ", called[1]))
    return [wrong[0], other[0], f"        _ => {function.name}({given}),", *wrong[-2:]]


def parts_of(text: str, function: Function) -> Parts:
    """The parts of a function of this source text."""
    lines = text.split("\n")
    return Parts("\n".join(lines[function.first - 1 : function.body]), lines[function.body : function.last])


def lines_outside(text: str, function: Function) -> list[str]:
    """The lines of a source text but for those of a function."""
    lines = text.split("\n")
    return [*lines[: function.first - 1], *lines[function.last :]]


def read_edit(name: str, text: str, sources: Sources) -> Edit:
    """The edit with this name and text. It changes at least one function; what it changes outside of functions comes
    along."""
    changes, in_bodies = changes_of(text), True
    texts: Texts = {}
    for it in changes:
        before = texts.get(it.file, sources.texts.get(it.file, ""))
        texts = changed(sources, [it], texts)
        if is_of_proofs(it.file):
            continue
        line = before[: before.find(it.old)].count("\n") + 1
        found = [of for of in functions_of(before) if of.first <= line <= of.last]
        in_bodies = in_bodies and (adds_imports(it) or any(stays_inside(it, line, of) for of in found))
    in_sources = [it for it in texts if it in sources.texts]
    functions = {path for it in in_sources for path in changed_functions(sources, it, texts[it])}
    if texts == {file: sources.text_of(file) for file in texts}:
        raise BadEdit("it changes nothing")
    if not functions:
        raise BadEdit("it changes no function")
    if any(is_of_proofs(file) and not any(is_own_proof(file, it) for it in functions) for file in texts):
        raise BadEdit("it changes a proof of a function that it doesn't change")
    words = text.split("\n")
    bare, with_answers = WITHOUT_ANSWERS in words, any(is_of_proofs(it.file) for it in changes)
    return Edit(name, changes, frozenset(functions), in_bodies, bare, BY_ANSWERS in words or with_answers and not bare)


def changed_functions(sources: Sources, file: str, text: str) -> set[str]:
    """The paths of the functions of a file that have other lines in this text than in the sources."""
    was, now = (lines_by_function(sources, file, it) for it in (sources.texts[file], text))
    return {it for it in now if now[it] != was.get(it)}


def is_own_proof(file: str, function: str) -> bool:
    """Whether a file of proofs/ is one of this function, or of its cycle."""
    *above, own = function.split("::")
    return os.path.dirname(file) in ("/".join(["proofs", *above, it]) for it in (own, f"+{own}"))


def lines_by_function(sources: Sources, file: str, text: str) -> dict[str, list[str]]:
    lines = text.split("\n")
    return {path: lines[it.first - 1 : it.last] for path, it in sources.functions(file, text).items()}


def adds_imports(change: Change) -> bool:
    """Whether a change adds names to an import, and takes none away: no function can tell that doesn't use them."""
    old, new = (set(re.findall(r"[^\s{},;]+", it)) for it in (change.old, change.new))
    return change.old.startswith(IMPORTS) and old <= new


def stays_inside(change: Change, line: int, function: Function) -> bool:
    """Whether a change at a line is one of the function's body alone: below its opening brace, or behind it on the same
    line."""
    is_behind = change.old.endswith("{") and change.new.startswith(change.old)
    return line > function.body or line == function.body and is_behind


def answers_of(edit: Edit) -> Edit:
    """The edit without what it changes outside of proof files."""
    return replace(edit, changes=tuple(it for it in edit.changes if is_of_proofs(it.file)))


def once_each(edits: Sequence[Edit]) -> tuple[list[Edit], list[Edit]]:
    """Some of the edits, in which each function is changed once, and the others."""
    chosen: list[Edit] = []
    others: list[Edit] = []
    used: set[str] = set()
    for edit in edits:
        (others if used & edit.functions else chosen).append(edit)
        used |= edit.functions
    return chosen, others


def apart(edits: Sequence[Edit], sources: Sources) -> Iterator[list[Edit]]:
    """The edits in lists in which each function is changed once, in its place, and each text stands once. One that
    changes more than bodies has a list of its own."""
    yield from ([it] for it in edits if not it.in_bodies)
    left = [it for it in edits if it.in_bodies]
    while left:
        some, left = once_each(left)
        texts: Texts = {}
        beside_others: list[Edit] = []
        for edit in some:
            made = made_beside(edit, sources, texts)
            if made is None:
                yield [edit]
            else:
                beside_others.append(edit)
                texts = made
        yield beside_others


def batches_of(edits: Sequence[Edit], sources: Sources) -> Iterator[list[Edit]]:
    """The edits in as few lists as one pass finds: in a list each function is changed once, and each text stands once;
    what can't stand so stands in a twin of its function. So does what changes the function's contract, since nothing
    calls a twin. What changes more than that has a list of its own."""
    alone = [it for it in edits if not it.in_bodies and not in_twin(it, sources, 0)]
    yield from ([it] for it in alone)
    left = [it for it in edits if it not in alone]
    while left:
        batch: list[Edit] = []
        later: list[Edit] = []
        used: set[str] = set()
        texts: Texts = {}
        for edit in left:
            placed, made = beside(edit, sources, texts, used, len(batch))
            if placed:
                used |= placed.functions
                batch.append(placed)
                texts = made
            else:
                later.append(edit)
        yield batch
        left = later


def beside(edit: Edit, sources: Sources, texts: Texts, used: set[str], number: int) -> tuple[Edit | None, Texts]:
    """The edit in its function's place or in a twin, beside others that changed the functions `used`, with the texts
    that they make together; or None, where it can't stand beside them. A twin that is much shorter than the function
    comes first, and what changes more than bodies stands in a twin alone."""
    twin = in_twin(edit, sources, number)
    if edit.in_bodies and not used & edit.functions and not (twin and twin.twin and twin.twin.saved >= MUCH):
        placed = made_beside(edit, sources, texts)
        if placed:
            return edit, placed
    placed = made_beside(twin, sources, texts) if twin else None
    return (twin, placed) if placed else (None, texts)


def made_beside(edit: Edit, sources: Sources, texts: Texts) -> Texts | None:
    """The texts of the files with an edit, each from `texts` where that has it; or None, where a text of it doesn't
    stand once in what others made of a file."""
    try:
        return applied(sources, edit, texts)
    except BadEdit:
        return None
