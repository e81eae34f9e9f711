#!/usr/bin/env python3
"""The pages of this project: reading lists, floors of the crates, links, counts, lines and lengths.

Usage: tests/documents.py [--list]

No sentence may be longer than 40 words, and few runs of nine words may stand on two pages. A crate's page opens with
three sentences: what the crate does, promises and rests on. `docs/reading.md` has to be what `tools/definitions`
writes. The README has to say how many definitions the sentence stands on, and none of them may be of the caches or
their bus. A definition is cited where a clause (`requires` or `ensures`) of an exported function names it, from a file
of `specs/` that the source imports by `ghost use`; each has to be in its file. `--list` prints all of them. The drawing
of docs/architecture.md and the README's list have the crates of crates.txt, by its floors, the list with the titles of
their pages, and each crate names there no crate that nothing of it names. Needs Python 3 alone. Exits with 1 where a
check failed.
"""

import re
import sys
from collections.abc import Iterator
from pathlib import Path

from common import ROOT, Check, Script, called, there

DOCS = ROOT / "docs"
MOST_WORDS = 33_000
LONGEST_LINE = 120
MOST_WORDS_OF_README = 1600
MOST_WORDS_OF_SENTENCE = 40
# So many words in a row are a run; and so many runs may stand on more than one page.
RUN = 9
MOST_SHARED_RUNS = 100
NAME = r"[^\s(){}.,;λ]+"
# A definition: crate, file below specs/ and name
Name = tuple[str, str, str]
# The names that a crate exports, its public modules, and whether it is a program
Exports = tuple[set[str], set[str], bool]


# --- The definitions that contracts cite ------------------------------------

def imports(text: str) -> tuple[dict[str, Name], dict[str, tuple[str, str]]]:
    """The definitions and the modules that a source imports: by the name that it uses, the crate, the file and the name
    there."""
    names: dict[str, Name] = {}
    modules: dict[str, tuple[str, str]] = {}
    for crate, path, what in re.findall(r"ghost use Rattle\.(\w+)\.specs\.([\w.]+?)(?:\.\{([^}]*)\}|(?= as ))", text):
        if path.startswith("declared"):
            continue
        for name in (part.strip() for part in what.split(",")):
            if name:
                names[name] = (crate, path, name)
    for crate, path, alias in re.findall(r"ghost use Rattle\.(\w+)\.specs\.([\w.]+) as (\w+);", text):
        if not path.startswith("declared"):
            modules[alias] = (crate, path)
    return names, modules


def block(text: str, start: int) -> str:
    """The text between the brace at a place and the one that closes it."""
    depth = 0
    for place in range(start, len(text)):
        depth += {"{": 1, "}": -1}.get(text[place], 0)
        if depth == 0:
            return text[start + 1:place]
    return text[start + 1:]


def exports(crate: str) -> Exports:
    """The names that a crate's root file exports, and its public modules."""
    root = next(path for path in ((ROOT / "crates" / crate / "src" / name) for name in ("lib.rt", "main.rt"))
                if path.is_file())
    text = root.read_text()
    names = set()
    for what in re.findall(r"pub use [\w:]+?::(?:\{([^}]*)\}|(?=\w+;))",
                           text) + re.findall(r"pub use [\w:]+::(\w+);", text):
        names |= {part.strip() for part in what.split(",")}
    return names, set(re.findall(r"(?m)^pub mod (\w+);", text)), root.stem == "main"


def owner(text: str, place: int) -> str | None:
    """The type, or the trait, whose function stands at a place; None for a free function."""
    depth_0 = re.findall(r"(?m)^(?:pub(?:\([^)]*\))? )?(impl|trait|fn|struct|enum|mod)\b([^\n]*)", text[:place])
    kind, rest = depth_0[-1] if depth_0 else ("", "")
    if kind == "trait":
        return there(re.match(r"\s*(\w+)", rest))[1]
    if kind == "impl":
        whole = re.sub(r"<[^<>]*(<[^<>]*>[^<>]*)*>", "", rest)
        return there(re.search(r"(\w+)\s*(?:\{|where|$)", whole.split(" for ")[-1]))[1]
    return None


def of_trait(text: str, place: int) -> bool:
    """The function that stands at a place is one of a trait: those of its own that a type keeps to itself are not."""
    kind, rest = re.findall(r"(?m)^(?:pub(?:\([^)]*\))? )?(impl|trait|fn|struct|enum|mod)\b([^\n]*)", text[:place])[-1]
    return kind == "trait" or " for " in rest


def clauses(text: str, module: str, exported: Exports) -> Iterator[str]:
    """The clauses of each exported function."""
    names, modules, is_program = exported
    for found in re.finditer(r"(?m)^( *)((?:pub )?)fn (\w+)", text):
        owned = owner(text, found.start()) if found[1] else None
        in_trait = owned is not None and not found[2] and of_trait(text, found.start())
        if not (found[2] or in_trait) or not (is_program or module in modules or (owned or found[3]) in names):
            continue
        head = text[found.end():]
        end = re.search(rf"(?m)^{found[1]}(\{{|\}})|;\s*$", head)
        head = head[:end.start()] if end else head
        for clause in re.finditer(r"\b(?:requires|ensures)\b\s*\w*\s*(\{)", head):
            yield block(head, clause.start(1))


def cited() -> list[Name]:
    """Each definition that a contract cites: crate, file below specs/ and name."""
    listed = set(listed_crates())
    found = set()
    for source in sorted((ROOT / "crates").glob("*/src/**/*.rt")):
        crate = source.relative_to(ROOT / "crates").parts[0]
        if source.stem == "tests" or "tests" in source.parts:
            continue
        text = source.read_text()
        names, modules = imports(text)
        for clause in clauses(text, source.stem, exports(crate)):
            for word in re.findall(rf"(?:\w+\.)?{NAME}", clause):
                alias, _, name = word.rpartition(".")
                if alias in modules:
                    found.add((*modules[alias], name))
                elif word in names:
                    found.add(names[word])
    return sorted(one for one in found if one[0] in listed and file_of(*one[:2]).is_file())


def file_of(crate: str, path: str) -> Path:
    return ROOT / "crates" / crate / "specs" / (path.replace(".", "/") + ".antt")


def definitions() -> Iterator[Check]:
    """Each definition that a contract cites, and whether it is in its file."""
    for crate, path, name in cited():
        there = re.search(rf"(?m)^ *(?:[a-z]+ )*{re.escape(name)}(?=[ :]|$)", file_of(crate, path).read_text())
        yield f"{crate}: {path}.{name}", None if there else "isn't in its file"


# --- Reading lists -----------------------------------------------------------

def printed(*words: str) -> str:
    return called([sys.executable, ROOT / "tools/definitions", *words]).stdout


def reading() -> Iterator[Check]:
    """The page of reading lists, and what the README says of that of the sentence."""
    page = (DOCS / "reading.md").read_text()
    yield "docs/reading.md", None if page == printed() else "isn't what tools/definitions writes"
    list_of_run = page.partition("## `run_cores`\n")[2].partition("\n## ")[0]
    count = re.search(r"It stands on (\d+ definitions) of (\d+ lines)", list_of_run)
    said = " ".join((ROOT / "README.md").read_text().split())
    yield ("README.md", None if count and all(it in said
                                             for it in count.groups())
           else f"doesn't say {count and count.groups()} of the sentence")
    of_bus = set(re.findall(r"\(\.\./crates/(\w+)/", list_of_run)) & {"spec_bus", "bus_states", "cache_lines", "orb",
                                                                      "spec_states"}
    yield "what the sentence stands on", f"is of the bus: {', '.join(sorted(of_bus))}" if of_bus else None


# --- Floors -------------------------------------------------------------------

def floors() -> list[list[str]]:
    """The crates by floors, the lowest first, as crates.txt has them."""
    parts = re.split(r"(?m)^# .*\n", (ROOT / "crates.txt").read_text())
    return list(filter(None, (re.findall(r"(?m)^(\w+)[^:#\n]*:", part) for part in parts)))


# A line of the README's list of crates: the crate, and the title of its page
LISTED = re.compile(r"(?m)^- \[`(\w+)`\]\(crates/\w+/README\.md\): (.*)$")


def drawn() -> list[list[str]]:
    """The rows of the drawing of the crates, the lowest first: the names in each."""
    drawing = there(re.search(r"(?ms)^```\n(.*?)^```", (DOCS / "architecture.md").read_text()))[1]
    rows, every = [], set(listed_crates())
    for line in drawing.splitlines():
        names = [word for word in re.findall(r"\w+", line) if word in every]
        if names and line[2] != " ":
            rows.append(names)
        elif names:
            rows[-1] += names
    return rows[::-1]


def architecture() -> Iterator[Check]:
    """The drawing, the README's list and the crates' pages have every crate, at its floor."""
    listed, rows = floors(), drawn()
    yield ("the floors of docs/architecture.md",
           None if len(rows) == len(listed) else f"are {len(rows)}, those of crates.txt {len(listed)}")
    for names, row in zip(listed, rows):
        yield (f"the floor of {names[0]} in docs/architecture.md",
               None if sorted(names) == sorted(row) else f"has {row}, in crates.txt {names}")
    table = LISTED.findall((ROOT / "README.md").read_text())
    yield ("the README's list of crates",
           None if [name for name, _ in table] == sum(listed, [])
           else "doesn't have the crates of crates.txt in their order")
    for name, title in table:
        yield f"crates/{name}/README.md", wrong_in_page(ROOT / "crates" / name / "README.md", f"# `{name}`: {title}")


def wrong_in_page(page: Path, title: str) -> str | None:
    """What is wrong in the beginning of a crate's page, which has this title."""
    if not page.is_file():
        return "isn't there"
    paragraphs = page.read_text().split("\n\n")
    if paragraphs[0] != title:
        return f"doesn't begin with {title}"
    opening = list(sentences(paragraphs[1]))
    return None if len(opening) >= 3 else f"opens with {len(opening)} sentences, and not with three"


def named_in(name: str) -> set[str]:
    """The words before `::` or a dot, and behind `use`, of a crate's sources, definitions and proofs: the crates that
    they name, and more."""
    files = (path for part in ("src", "specs", "proofs") for path in (ROOT / "crates" / name / part).rglob("*")
             if path.suffix in (".rt", ".antt"))
    return {word for path in files
            for word in re.findall(r"\b\w+(?=::)|(?<=Rattle\.)\w+|(?<=use )\w+", path.read_text())}


def dependencies() -> Iterator[Check]:
    """Each crate names in crates.txt no crate that nothing of it names. (One that is missing there, the checker
    refuses.)"""
    for name, uses in re.findall(r"(?m)^(\w+)[^:#\n]*:(.*)", (ROOT / "crates.txt").read_text()):
        unnamed = sorted(set(uses.split()) - named_in(name))
        yield f"{name} in crates.txt", f"stands on {', '.join(unnamed)}, which nothing of it names" if unnamed else None


# --- Links and lengths ------------------------------------------------------

def pages() -> list[Path]:
    listed = called(["git", "ls-files", "-z", "--cached", "--others", "--exclude-standard", "*.md"],
                    cwd=ROOT).stdout.split("\0")
    names = [name for name in listed if name and (ROOT / name).is_file()]
    return sorted(ROOT / name for name in names) or sorted(ROOT.glob("**/*.md"))


def anchors(page: Path) -> set[str]:
    """The names of a page's headings, as links write them."""
    heads = re.findall(r"(?m)^#+ +(.+?)\s*$", page.read_text())
    return {re.sub(r"[^\w\- ]", "", head.lower()).replace(" ", "-") for head in heads}


def links() -> Iterator[Check]:
    """Each link of each page that leads into the project."""
    for page in pages():
        text = re.sub(r"(?ms)^ *```.*?^ *```", "", page.read_text())
        for target in re.findall(r"\]\(([^)\s]+)\)", text):
            if re.match(r"[a-z]+:", target):
                continue
            name, _, anchor = target.partition("#")
            place = (page.parent / name) if name else page
            wrong = None if place.exists() else "is dead"
            if not wrong and anchor and place.suffix == ".md" and anchor not in anchors(place):
                wrong = f"has no heading {anchor}"
            yield f"{page.relative_to(ROOT)}: the link {target}", wrong


def lengths() -> Iterator[Check]:
    """The words of the README and of all pages, and the lines that could be wrapped."""
    count = len((ROOT / "README.md").read_text().split())
    yield "README.md", None if count <= MOST_WORDS_OF_README else f"has {count} words, more than {MOST_WORDS_OF_README}"
    count = sum(len(page.read_text().split()) for page in pages())
    yield "all pages", None if count <= MOST_WORDS else f"have {count} words, more than {MOST_WORDS}"
    for page in pages():
        yield from ((f"{page.relative_to(ROOT)}, line {number}", "can be wrapped")
                    for number in too_long(page.read_text()))


def too_long(text: str) -> Iterator[int]:
    """The lines of a page that are too long and could be broken: those of prose, with a space within the length."""
    fenced = False
    for number, line in enumerate(text.splitlines(), 1):
        fenced ^= line.lstrip().startswith("```")
        prose = not fenced and not line.lstrip().startswith(("|", "#", "```"))
        if (prose and len(line) > LONGEST_LINE
            and " " in re.sub(r"^\s*(?:[-*>]|\d+\.)?\s*", "", line)[:LONGEST_LINE - 8]):
            yield number


def blocks(text: str) -> Iterator[str]:
    """The paragraphs, items and headings of a page, each on one line, without targets of links, code and tables."""
    text = re.sub(r"(?ms)^ *```.*?^ *```|^    .*?$|^\|.*?$", "\n\n", text)
    for part in re.split(r"\n\s*\n|\n(?=\s*(?:[-*>#]+|\d+\.)\s)", text):
        words = re.sub(r"\]\([^)]*\)", "]", re.sub(r"^\s*(?:[-*>#]+|\d+\.)\s*", "", part)).split()
        if words:
            yield " ".join(words)


def sentences(text: str) -> Iterator[str]:
    """The sentences of a page."""
    for part in blocks(text):
        yield from re.split(r"(?<=[.!?])[\")*]*\s+", part)


def readable() -> Iterator[Check]:
    """The length of each page's sentences, and how many runs of words stand on more than one page."""
    homes: dict[str, set[Path]] = {}
    for page in pages():
        text = LISTED.sub("", page.read_text())
        longest = max(sentences(text), key=lambda it: len(it.split()), default="")
        count = len(longest.split())
        yield (f"the sentences of {page.relative_to(ROOT)}",
               None if count <= MOST_WORDS_OF_SENTENCE else f"have one of {count} words: {longest}")
        for words in (part.lower().split() for part in blocks(text)):
            for place in range(len(words) - RUN + 1):
                homes.setdefault(" ".join(words[place:place + RUN]), set()).add(page)
    shared = sorted(run for run, found in homes.items() if len(found) > 1)
    yield ("runs of words on two pages", None if len(shared) <= MOST_SHARED_RUNS
           else f"are {len(shared)}, more than {MOST_SHARED_RUNS}: {'; '.join(shared[:20])}")


NUMBERS = ("no one two three four five six seven eight nine ten eleven twelve thirteen fourteen fifteen sixteen "
           "seventeen eighteen nineteen twenty").split()
COUNTED = re.compile(r"\b(?:all|the)\s+(\d[\d,]*|" + "|".join(NUMBERS[2:])
                     + r")\s+(?:[a-z]+\s+)?(crates|test\s+crates|wrong\s+bodies|edits)\b", re.I)
TIMED = re.compile(r"\b(?:\d+|" + "|".join(NUMBERS[2:]) + r")\s+(?:processor\s+)?minutes\b[^.]*\bprocessors?\b", re.I)


def listed_crates() -> list[str]:
    return re.findall(r"(?m)^(\w+)[^:#\n]*:", (ROOT / "crates.txt").read_text())


def true_counts() -> dict[str, int]:
    """How many there are of what pages may count."""
    crates = listed_crates()
    edits = len([*(ROOT / "tests/wrong-bodies").glob("*/*.edit")])
    tests = len([name for name in crates if name.endswith("_tests")])
    return {"crates": len(crates), "test crates": tests, "wrong bodies": edits, "edits": edits}


def counts() -> Iterator[Check]:
    """Each count on a page of what the project has; that of minutes, which no test can know, may stand on one page
    alone."""
    truth, timed = true_counts(), []
    for page in pages():
        if page.name == "CHANGELOG.md":
            continue
        text = page.read_text()
        timed += [page.relative_to(ROOT)] * bool(TIMED.search(text))
        for number, what in COUNTED.findall(text):
            what = re.sub(r"\s+", " ", what.lower())
            count = NUMBERS.index(number.lower()) if number.lower() in NUMBERS else int(number.replace(",", ""))
            wrong = None if count == truth[what] else f"is wrong: there are {truth[what]}"
            yield f"{page.relative_to(ROOT)}: the count {number} {what}", wrong
    yield ("minutes on processors",
           None if len(timed) <= 1 else f"stand on {', '.join(map(str, timed))}: one page is their home")


def main() -> int:
    script = Script()
    if script.words == ["--list"]:
        for name, wrong in definitions():
            print(name, wrong or "")
        return 0
    script.run(definitions, reading, architecture, dependencies, links, lengths, readable, counts)
    return script.ended()


if __name__ == "__main__":
    sys.exit(main())
