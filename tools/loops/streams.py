"""Texts of forms that may be long, as JSON that is written while they are read, and back: of a trace, of turns and of
violations one at a time is in memory.

A document is the same to the byte as `to_json` writes it, and a text as `from_json` does.
"""

import json
from collections.abc import Callable, Iterator
from functools import partial
from itertools import takewhile
from pathlib import Path
from typing import Any

from .conflicts import BELOW, Part, Total, iter_conflicts
from .documents import FORMS, VERSION, content_of, form_of_lines, from_json, plain
from .images import Unreadable, read_image
from .pieces import LIST, Items, read_document
from .runs import cores_of, iter_entries, read_output
from .steps import iter_steps
from .texts import iter_lines, iter_split, text_in, text_out

Lines = Callable[[], Iterator[str]]
# The fields of a report of `why` that are lists, and the first words of their lines.
WORDS = {
    "violations": ("hurt", *BELOW), "cancelled": ("cancel",), "open": ("open",), "attempts": ("attempt",),
    "epochs": ("epoch",), "pairs": ("pair",), "lines": ("line",), "instructions": ("pc",), "kinds": ("kind",),
}
# Where the long lists stand in the content of each form.
OUTPUT = {"trace": {"entries": LIST}, "turns": LIST}
LISTS: dict[str, dict[str, Any]] = {
    "traced": {"trace": {"entries": LIST}}, "output": OUTPUT, "steps": {"steps": LIST, "output": OUTPUT},
    "conflicts": dict.fromkeys(WORDS, LIST),
}
# What a document raises that says no text.
WRONG = (ValueError, LookupError, TypeError, AttributeError, RecursionError)


def below(lines: Iterator[str], holds: Callable[[str], bool]) -> Iterator[str]:
    """The lines below the first one of which something holds."""
    any(map(holds, lines))
    return lines


def is_head(line: str) -> bool:
    return cores_of(line) is not None


def trace_of(lines: Lines) -> dict[str, Any] | None:
    """The trace below an image or a report, where there is one."""
    cores = next((cores for cores in map(cores_of, lines()) if cores is not None), None)
    return None if cores is None else {"cores": cores, "entries": Items(lambda: iter_entries(below(lines(), is_head)))}


def above_trace(lines: Lines) -> str:
    return "\n".join(takewhile(lambda line: not is_head(line), lines()))


def traced(path: Path) -> dict[str, Any]:
    """An image with a trace below it."""
    def lines() -> Iterator[str]:
        return (line.removesuffix("\n") for line in iter_lines(path))
    trace = trace_of(lines)
    if trace is None:
        raise Unreadable("no line begins with trace")
    image = read_image(above_trace(lines))
    trace["entries"].check()
    return {"image": image, "trace": trace}


def output_of(lines: Lines) -> dict[str, Any]:
    """What a run prints."""
    trace = trace_of(lines)
    if trace:
        trace["entries"].check()
    told = read_output(above_trace(lines))
    return {"report": told.report, "counts": told.counts, "trace": trace,
            "turns": None if told.turns is None else Items(told.turns.__iter__)}


def output(path: Path) -> dict[str, Any]:
    return output_of(lambda: iter_split(iter_lines(path)))


def steps(path: Path) -> dict[str, Any]:
    """What `replay steps` prints."""
    def lines() -> Iterator[str]:
        return iter_split(iter_lines(path))
    return {"steps": Items(lambda: iter_steps(lines())).check(),
            "output": output_of(lambda: below(lines(), lambda line: line == "end"))}


def conflicts(path: Path) -> dict[str, Any]:
    """The report of `why`."""
    def lines(words: tuple[str, ...]) -> Iterator[str]:
        return (line for line in iter_split(iter_lines(path)) if not words or line.split(" ", 1)[0] in words)

    def parts(words: tuple[str, ...]) -> Iterator[Part]:
        return iter_conflicts(lines(words))
    total = None
    for part in parts(()):
        total = part if isinstance(part, Total) else total
    return {name: Items(partial(parts, words)) for name, words in WORDS.items()} | {"total": total}


LONG: dict[str, Callable[[Path], dict[str, Any]]] = {"traced": traced, "output": output, "steps": steps,
                                                     "conflicts": conflicts}


def iter_json(value: Any, depth: int = 0) -> Iterator[str]:
    """A value as JSON, in parts."""
    gap, mark = "\n" + " " * depth, ""
    if isinstance(value, Items):
        for item in value:
            yield (mark or "[") + gap + " " + json.dumps(plain(item), indent=1).replace("\n", gap + " ")
            mark = ","
        yield gap + "]" if mark else "[]"
    elif isinstance(value, dict):
        for key, one in value.items():
            yield (mark or "{") + f"{gap} {json.dumps(key)}: "
            yield from iter_json(one, depth + 1)
            mark = ","
        yield gap + "}"
    else:
        yield json.dumps(plain(value), indent=1).replace("\n", gap)


def iter_document(path: Path, form: str | None = None) -> Iterator[str]:
    """The document of a text that stands in a file, in parts. What is wrong with the text is raised before the first
    one."""
    name = form or form_of_lines(line.removesuffix("\n") for line in iter_lines(path))
    content = LONG[name](path) if name in LONG else FORMS[name][1]("".join(iter_lines(path)))
    return iter_json({"form": name, "version": VERSION, "content": content})


def iter_text(path: Path) -> Iterator[str]:
    """The text of a document that stands in a file, in parts. What is wrong with it may be raised behind some of
    them."""
    content = content_of(read_document(path, LISTS))
    parts: Iterator[str] = content.parts() if hasattr(content, "parts") else iter([content.text()])
    return parts


def write_text(source: Path, target: Path) -> None:
    """Writes the text of a document that stands in a file to another file. One with which something is wrong is read
    whole, and refused as `from_json` does."""
    try:
        with target.open("wb") as out:
            out.writelines(map(text_out, iter_text(source)))
    except WRONG:
        target.write_bytes(text_out(from_json(text_in(source.read_bytes()))))
