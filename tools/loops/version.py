"""Which version this is: what `--version` says."""

import argparse
import re
from collections.abc import Sequence

from .programs import IN_TREE, TREE

NAME = "speculative-loops"
# The line of pyproject.toml, which ./trace_cli reads too
LINE = re.compile(r'(?m)^version = "([^"]*)"$')


def version() -> str:
    """The version of the tree, or of the package that is installed; `unknown` where it is neither."""
    if IN_TREE and (found := LINE.search((TREE / "pyproject.toml").read_text(encoding="utf-8"))):
        return found[1]
    # Imported where it is asked for: it would take a sixth of each tool's start.
    from importlib.metadata import PackageNotFoundError, metadata
    try:
        return metadata(NAME)["Version"]
    except PackageNotFoundError:
        return "unknown"


class PrintVersion(argparse.Action):
    """Looks the version up only where it is asked for, and ends the tool."""

    def __call__(self, parser: argparse.ArgumentParser, namespace: argparse.Namespace,
                 values: str | Sequence[object] | None, option_string: str | None = None) -> None:
        print(f"{parser.prog} ({NAME}) {version()}")
        parser.exit()


def add_version(parser: argparse.ArgumentParser, *names: str) -> None:
    """The option that prints the version. Its names are `-V` and `--version` unless others are given."""
    parser.add_argument(*(names or ("-V", "--version")), action=PrintVersion, nargs=0, dest=argparse.SUPPRESS,
                        default=argparse.SUPPRESS, help="prints the version")
