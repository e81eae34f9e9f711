"""Writes what the programs take and print as JSON, and reads it back.

Usage: tools/json [--form NAME] [--back] [--schema] < TEXT > NAME.json

Standard input is an image, an image with a trace, or what `trace_cli`, `why`, `replay`, `gain` or `depends` printed;
which of them is seen from its first words. --back writes the text again. --schema prints the JSON schema, of version 1,
in which each field is said. What is of no known form is refused with a line on standard error and status 2. A document
that is refused, or that has its form behind its content, is read whole; of others no long list is in memory.
"""

import argparse
import shutil
import sys
import tempfile
from pathlib import Path

from loops.endings import tool
from loops.documents import FORMS, SCHEMA
from loops.images import Unreadable
from loops.streams import iter_document, write_text
from loops.texts import keep_input
from loops.version import add_version


def write_document(form: str | None) -> None:
    """Writes what is on standard input as JSON; nothing where it is of no known form."""
    with tempfile.TemporaryDirectory(prefix="json-") as room:
        source = Path(room) / "input"
        keep_input(source)
        for part in iter_document(source, form):
            sys.stdout.write(part)
    sys.stdout.write("\n")


def write_back() -> None:
    """Writes the text of the JSON that is on standard input; nothing where it says none."""
    with tempfile.TemporaryDirectory(prefix="json-") as room:
        source, target = Path(room) / "input", Path(room) / "output"
        keep_input(source)
        write_text(source, target)
        with target.open("rb") as text:
            shutil.copyfileobj(text, sys.stdout.buffer)


@tool
def main() -> int:
    parser = argparse.ArgumentParser(description="Writes what the programs take and print as JSON, and reads it back.")
    parser.add_argument("--form", choices=sorted(FORMS), help="the form of the input (seen from its first words)")
    parser.add_argument("--back", action="store_true", help="from JSON to the text")
    parser.add_argument("--schema", action="store_true", help="prints the JSON schema")
    add_version(parser)
    given = parser.parse_args()
    if given.schema:
        sys.stdout.write(SCHEMA.read_text(encoding="utf-8"))
        return 0
    try:
        if given.back:
            write_back()
        else:
            write_document(given.form)
    except (Unreadable, ValueError, KeyError, TypeError, IndexError) as wrong:
        print(f"json: {wrong}", file=sys.stderr)
        return 2
    return 0
