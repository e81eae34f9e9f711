"""What a study's folder keeps: rows, each with the digests of that by which it was made, and the images that were run.

A row is found by its work: the digests of the image and of the programs, and what was asked of them. So a row of
another image or of other programs is never taken for one of these, and one that is there isn't made again. The folder
has

    rows/RUN-NUMBER.jsonl    a line for each row, written as soon as it is made
    images/DIGEST.image      the images
"""

import hashlib
import json
from collections.abc import Iterator
from dataclasses import asdict, dataclass, field
from pathlib import Path
from typing import Any

# To be counted up where rows get other fields, or fields another meaning.
FORM = 1
# The programs that each schedule takes; `gain` isn't one, and stands among them as what is asked of an image.
USES = {"even": ("replay", "why"), "held": ("replay", "why"), "seeded": ("replay", "why"),
        "threads": ("trace_cli", "why"), "gain": ("gain",)}

Row = dict[str, Any]


def digest(data: bytes) -> str:
    """SHA-256, in hexadecimal digits."""
    return hashlib.sha256(data).hexdigest()


@dataclass(frozen=True)
class Work:
    """What is asked: a run, or what the image gains on up to so many cores, where it is asked for also where loads
    wait."""
    image: str                                          # the digest of its text
    version: int                                        # as which version of images it is run
    cores: int
    schedule: str                                       # one of USES
    store: str | None = None
    seed: int | None = None
    costs: str | None = None
    held: bool = False                                  # of `gain` alone: a run has its own schedule
    programs: tuple[tuple[str, str], ...] = ()          # each with its digest
    form: int = field(default=FORM)

    def text(self) -> Row:
        """As JSON has it."""
        return asdict(self) | {"programs": dict(self.programs)}

    def says(self) -> str:
        """For people."""
        ways = [f"version {self.version}", self.store, f"{self.cores} cores", self.schedule,
                None if self.seed is None else f"seed {self.seed}", self.costs]
        return f"image {self.image[:12]}, {', '.join(filter(None, ways))}"


def work_of(told: Row) -> Work:
    """The work that JSON says."""
    programs: dict[str, Any] = {"programs": tuple(sorted(told["programs"].items()))}
    return Work(**told | programs)


def line_of(work: Work, row: Row) -> str:
    """The line of a row."""
    return json.dumps({"of": work.text(), **row}, separators=(",", ":")) + "\n"


def rows_in(path: Path) -> Iterator[tuple[Work, Row]]:
    """The rows of a file. A line that was cut off as it was written is none."""
    for line in path.read_text(encoding="utf-8", errors="replace").split("\n")[:-1]:
        try:
            row = json.loads(line)
            work = work_of(row.pop("of"))
            hash(work)
        except (ValueError, TypeError, KeyError, AttributeError):
            continue
        if work.form == FORM:
            yield work, row


class Kept:
    """The folder of a study."""

    def __init__(self, folder: Path):
        self.folder, self.rows, self.images = folder, folder / "rows", folder / "images"

    def begin(self) -> None:
        """Makes what isn't there."""
        for place in (self.rows, self.images):
            place.mkdir(parents=True, exist_ok=True)

    def keep_image(self, text: bytes) -> str:
        """Keeps an image, and gives its digest."""
        name = digest(text)
        path = self.images / f"{name}.image"
        if not path.is_file() or digest(path.read_bytes()) != name:
            path.write_bytes(text)
        return name

    def image(self, name: str) -> bytes:
        """The image of a digest."""
        text = (self.images / f"{name}.image").read_bytes()
        if digest(text) != name:
            raise ValueError(f"{self.images / name}.image isn't the image that was kept there")
        return text

    def all_rows(self) -> dict[Work, Row]:
        """Each row that is there; of two of the same work the first."""
        found: dict[Work, Row] = {}
        for path in sorted(self.rows.glob("*.jsonl")):
            for work, row in rows_in(path):
                found.setdefault(work, row)
        return found

    def next_run(self) -> int:
        """A number that no file of rows has."""
        return 1 + max((int(path.name.partition("-")[0]) for path in self.rows.glob("*-*.jsonl")
                        if path.name.partition("-")[0].isdecimal()), default=0)
