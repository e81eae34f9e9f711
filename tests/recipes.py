#!/usr/bin/env python3
"""Compares the recipes of CONTRIBUTING.md with the tree, or with a change that follows one: tests/recipes.py [RECIPE
REVISION [BASE]]

Without words each file that a recipe names has to be there. With the first words of a recipe's title, as `instruction`,
and a revision it tells which of the files that differ there from BASE (where the revision left `main`) the recipe
doesn't name, and which of those that it names are untouched. A file is named by its path, below the crate that was
named last, or below the top; above the first recipe stand those that belong to each. A new file has no name yet: it has
to stand beside one that is named. So does a wrong body beside others, always. Exits with 1 where a file is not there,
or a touched one is not named.
"""
import re
import sys
from collections.abc import Iterator
from functools import partial
from pathlib import Path

from common import ROOT, Check, Script, called_well

TITLE = re.compile(r"(?m)^\*\*(?:An? )?(.*?)\.\*\* ")
NAMED = re.compile(r"`([^`]+)`|\[[^\]]*\]\(([^)]+)\)")


def recipes(page: str) -> tuple[str, dict[str, str]]:
    """What stands above the first recipe, and the text of each recipe by its title."""
    parts = TITLE.split(page.partition("## Five recipes")[2])
    return parts[0], dict(zip(parts[1::2], parts[2::2]))


def files_of(text: str, top: Path) -> list[str]:
    """The files that a recipe names: those of a crate, and those below the top."""
    crate, found = "", []
    for quoted, linked in NAMED.findall(text):
        name = quoted or linked
        if (top / "crates" / name).is_dir():
            crate = name
        elif re.fullmatch(r"[\w./-]+", name) and ("/" in name or re.search(r"\.\w+$", name)) and not name.endswith("/"):
            places = [f"crates/{crate}/{name}", name, f"crates/{name}", f"tests/{name}"]
            found.append(next((it for it in places if (top / it).is_file()), name))
    return found


def touched(revision: str, base: str) -> dict[str, bool]:
    """The files that a revision has otherwise than its base, each with whether it is new there; wrong bodies aside."""
    words = ["git", "-C", str(ROOT), "diff", "--name-status", "--no-renames",
             f"{base}...{revision}" if base == "main" else f"{base}..{revision}"]
    lines = called_well(words).splitlines()
    files = [line.split("\t") for line in lines]
    return {name: how == "A" for how, name in files if not name.startswith("tests/wrong-bodies/")}


def compare(title: str, named: set[str], of_all: set[str], revision: str, base: str) -> int:
    """Tells how a change and a recipe differ; how many files the recipe lacks."""
    changed = touched(revision, base)
    beside = {str(Path(it).parent) for it in named}
    lacks = sorted(it for it, is_new in changed.items() if it not in named | of_all
                   and not (is_new and str(Path(it).parent) in beside))
    for it in lacks:
        print(f"FAILED {title}: the change touches {it}, which the recipe doesn't name")
    for it in sorted(named - changed.keys()):
        print(f"{title}: {it} is untouched")
    print(f"{len(changed) - len(lacks)} checks passed, {len(lacks)} failed")
    return len(lacks)


def named(above: str, found: dict[str, str]) -> Iterator[Check]:
    """Each file that a recipe names is there."""
    for title, text in {"all recipes": above, **found}.items():
        for it in files_of(text, ROOT):
            yield f"{title}: {it}", None if (ROOT / it).is_file() else "isn't there"
    yield "the recipes", None if len(found) == 5 else f"are {len(found)}"


def main() -> int:
    script = Script()
    words = script.words
    above, found = recipes((ROOT / "CONTRIBUTING.md").read_text(encoding="utf-8"))
    if len(words) not in (2, 3):
        script.run(partial(named, above, found))
        return script.ended()
    titles = [it for it in found if it.startswith(words[0])]
    if len(titles) != 1:
        print(f"tests/recipes.py: the recipes are {', '.join(found)}", file=sys.stderr)
        return 2
    of_recipe, of_all = set(files_of(found[titles[0]], ROOT)), set(files_of(above, ROOT))
    return 1 if compare(titles[0], of_recipe, of_all, words[1], words[2] if words[2:] else "main") else 0


if __name__ == "__main__":
    sys.exit(main())
