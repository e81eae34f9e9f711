"""Each form as JSON and back: `{"form": NAME, "version": 1, "content": {..}}`, as schema.json beside this file says.

The content is the fields of the form's class by their names. Bytes are hexadecimal digits, addresses and values are
numbers, and what isn't there is null.
"""

import json
import types
from collections.abc import Callable, Iterable
from dataclasses import fields, is_dataclass
from functools import cache
from pathlib import Path
from typing import Any, Union, get_args, get_origin, get_type_hints

from .changes import change_of
from .conflicts import Conflicts, read_conflicts
from .dependences import Dependences, read_dependences
from .gains import Gains, read_gains
from .images import Image, Unreadable, read_image
from .pieces import Items
from .runs import Entry, Output, Survey, Traced, Verdict, read_output, read_survey, read_traced, read_verdict
from .steps import Step, Steps, read_steps
from .stores import is_store

VERSION = 1
# The fields that documents of before may lack
LATER = {"limits", "attempts", "evens", "waits", "order", "busy", "handling", "memory", "queue"}
SCHEMA = Path(__file__).with_name("schema.json")
FORMS: dict[str, tuple[type, Callable[[str], Any]]] = {
    "image": (Image, read_image), "traced": (Traced, read_traced), "output": (Output, read_output),
    "survey": (Survey, read_survey),
    "verdict": (Verdict, read_verdict), "conflicts": (Conflicts, read_conflicts), "gains": (Gains, read_gains),
    "steps": (Steps, read_steps), "dependences": (Dependences, read_dependences),
}
# The words that begin a text, and their forms; a text of another beginning is an image.
BEGINNINGS = {
    "end": "output", "open": "output", "turns": "output", "schedules": "survey", "legal": "verdict",
    "illegal": "verdict", "store": "gains",
    "turn": "steps", "dep": "dependences", "never": "dependences", "from": "dependences", "hurt": "conflicts",
    "cancel": "conflicts", "attempt": "conflicts", "epoch": "conflicts", "total": "conflicts",
}


def form_of(text: str) -> str:
    """The name of a text's form, by its first words."""
    return form_of_lines(text.split("\n"))


def form_of_lines(lines: Iterable[str]) -> str:
    """The same by its lines, of which no more are read than it takes."""
    rest = iter(lines)
    first = next((line for line in rest if line and not line.startswith("#")), "").split(" ")
    if first[:2] == ["open", "epoch"]:
        return "conflicts"
    if first[0] == "open" and is_store(" ".join(first[1:2])):
        return "dependences"
    if first == ["end"]:
        return "steps"
    if first[0] in BEGINNINGS:
        return BEGINNINGS[first[0]]
    if first == [""]:
        raise Unreadable("there is nothing to read")
    return "traced" if any(line.startswith("trace ") for line in rest) else "image"


@cache
def names_of(kind: type) -> tuple[str, ...]:
    """The fields of a class, none where it isn't a record's."""
    return tuple(one.name for one in fields(kind)) if is_dataclass(kind) else ()


@cache
def types_of(kind: type) -> dict[str, Any]:
    """The types of the fields of a record's class."""
    return get_type_hints(kind)


def plain(value: Any) -> Any:
    """A value as JSON has it."""
    if value is None or isinstance(value, (int, str)):
        return value
    if isinstance(value, Step):
        return step_said(value)
    kind: type = type(value)
    names = names_of(kind)
    if names:
        return {name: plain(getattr(value, name)) for name in names}
    if isinstance(value, bytes):
        return value.hex()
    if isinstance(value, dict):
        return {str(key): plain(one) for key, one in value.items()}
    return [plain(one) for one in value] if isinstance(value, list) else value


def step_said(step: Step) -> dict[str, Any]:
    """A turn as JSON has it: what stands at a place now is said as it is printed."""
    return {"turn": step.turn, "core": step.core, "answer": step.answer, "entries": plain(step.entries),
            "changes": {change.place: change.said for change in step.changes}}


def step_made(value: Any) -> Step:
    """The turn that JSON says."""
    return Step(value["turn"], value["core"], value["answer"], made(list[Entry], value["entries"]),
                [change_of(f"{place} {said}".rstrip(" ")) for place, said in value["changes"].items()])


def made(kind: Any, value: Any) -> Any:
    """The value of a type that JSON's says. Of a list that isn't kept, each item is made when it is asked for."""
    if get_origin(kind) in (Union, types.UnionType):
        return None if value is None else made(next(one for one in get_args(kind) if one is not type(None)), value)
    if get_origin(kind) is list:
        part = get_args(kind)[0]
        return (Items(lambda: (made(part, one) for one in value)) if isinstance(value, Items)
                else [made(part, one) for one in value])
    if get_origin(kind) is dict:
        return {get_args(kind)[0](key): one for key, one in value.items()}
    if kind is Step:
        return step_made(value)
    if is_dataclass(kind):
        return kind(**{name: made(one, value[name]) for name, one in types_of(kind).items()
                       if name in value or name not in LATER})
    return bytes.fromhex(value) if kind is bytes else value


def document(text: str, form: str | None = None) -> dict[str, Any]:
    """The document of a text."""
    name = form or form_of(text)
    return {"form": name, "version": VERSION, "content": plain(FORMS[name][1](text))}


def content_of(told: dict[str, Any]) -> Any:
    """What a document says."""
    if told.get("version") != VERSION or told.get("form") not in FORMS:
        raise Unreadable(f"the document is of form {told.get('form')!r}, version {told.get('version')!r}; version "
                         f"{VERSION} is known, of {', '.join(FORMS)}")
    return made(FORMS[told["form"]][0], told["content"])


def to_json(text: str, form: str | None = None) -> str:
    """A text as JSON."""
    return json.dumps(document(text, form), indent=1) + "\n"


def from_json(text: str) -> str:
    """The text that JSON says."""
    told: str = content_of(json.loads(text)).text()
    return told
