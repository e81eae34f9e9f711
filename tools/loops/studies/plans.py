"""A study's table: which loops run on how many cores, over which stores, by which schedules; and the cells that
follow."""

import itertools
import json
import sys
import tomllib
from argparse import ArgumentTypeError
from collections.abc import Callable, Iterator
from dataclasses import asdict, dataclass, field, replace
from functools import cache
from pathlib import Path
from typing import Any

from loops import Image, Unreadable, read_image
from loops.aparts import named_apart, store_apart
from loops.costs import BadCosts, costs_words
from loops.images import there
from loops.stores import BadStore, asked_by
from loops.texts import shown, text_in

SCHEMA = Path(__file__).with_name("schema.json")
DEBIANS_PACKAGES = "/usr/lib/python3/dist-packages"
# The most bytes of an image that the programs read, and the most cells that are planned.
LONGEST_IMAGE, MOST_CELLS = 33_554_432, 1_000_000
# The schedules in which turns may cost something: at even speed, and the same where loads wait
PACED = ("even", "held")


class BadPlan(ValueError):
    """A table that says no study; the words say where, a line for each place."""


@dataclass(frozen=True)
class Cell:
    """One run. Seeds are of seeded schedules alone, and costs of those at even speed; a run on threads is over the
    caches of the image's version."""
    loop: str
    version: int
    store: str
    cores: int
    schedule: str
    seed: int | None
    costs: str | None
    apart: str | None                   # the variable that lies apart in the store, and the bytes of its pieces


# A store, and what lies apart in it for the plan
Over = tuple[str, str | None]


@dataclass
class Plan:
    """What FILE.toml says."""
    loops: dict[str, str]                                       # a name for each image
    cores: list[int] = field(default_factory=lambda: [1, 2, 4])
    versions: list[int] = field(default_factory=lambda: [1])
    stores: list[str] = field(default_factory=lambda: ["caches", "plain"])
    schedules: list[str] = field(default_factory=lambda: ["even"])
    seeds: list[int] = field(default_factory=lambda: [1])
    held: bool = False                                          # also the runs at even speed in which loads wait
    costs: list[str] = field(default_factory=list)              # at which those are run too, besides at none
    apart: list[str] = field(default_factory=list)              # variables that lie apart in further caches
    gain: int = 0                                               # up to so many cores; 0 asks for no plots
    texts: dict[str, bytes] = field(default_factory=dict)       # the images' own, by the names

    def cells(self) -> list[Cell]:
        """The runs, loops first."""
        return [cell for loop in self.loops for cell in self.cells_of(loop, self.stores_of(loop))]

    def cells_of(self, loop: str, stores: list[Over]) -> Iterator[Cell]:
        """The runs of a loop over these stores."""
        for version, cores, schedule in itertools.product(self.versions, self.cores, self.paces()):
            for (store, apart), seed, costs in itertools.product(*self.ways(schedule, stores)):
                yield Cell(loop, version, store, cores, schedule, seed, costs, apart)

    def stores_of(self, loop: str) -> list[Over]:
        """The stores of a loop: those of the plan, and of caches the same where a variable that it has lies apart."""
        found: list[Over] = [(store, None) for store in self.stores]
        if self.apart:
            image = image_of(self.texts[loop])
            names = {one.name for one in image.variables}
            found += [(there(store_apart(store, named_apart(word), lambda: image)), word)
                      for word in self.apart if named_apart(word).name in names
                      for store in self.stores if store != "plain"]
        return found

    def paces(self) -> list[str]:
        """The schedules, that in which loads wait behind that at even speed."""
        return [one for schedule in self.schedules
                for one in (PACED if schedule == "even" and self.held else [schedule])]

    def ways(self, schedule: str, stores: list[Over]) -> tuple[list[Over], list[int | None], list[str | None]]:
        """Of these stores those of a schedule, its seeds and costs."""
        return ([("caches", None)] if schedule == "threads" else stores,
                [*self.seeds] if schedule == "seeded" else [None], self.all_costs() if schedule in PACED else [None])

    def all_costs(self) -> list[str | None]:
        """At which costs runs at even speed are run: first at none."""
        return [None, *self.costs]

    def count(self) -> int:
        """How many runs there are."""
        ways = [self.ways(schedule, stores) for stores in map(self.stores_of, self.loops) for schedule in self.paces()]
        return (len(self.versions) * len(self.cores)
                * sum(len(stores) * len(seeds) * len(costs) for stores, seeds, costs in ways))

    def text(self) -> dict[str, Any]:
        """The table, without the images' texts."""
        told = asdict(self)
        del told["texts"]
        return told


@cache
def image_of(text: bytes) -> Image:
    """The image of a text, read once."""
    return read_image(text_in(text))


# --- Reading -----------------------------------------------------------------

def validator() -> Any:
    """What holds a table to the schema. A number with a point is no whole number."""
    try:
        import jsonschema
    except ImportError:
        sys.path.append(DEBIANS_PACKAGES)       # where another Python runs than Debian's
        try:
            import jsonschema
        except ImportError:
            raise BadPlan("jsonschema is not installed: Debian's package python3-jsonschema") from None
    base = jsonschema.Draft202012Validator
    whole = base.TYPE_CHECKER.redefine("integer",
                                       lambda checker, value: isinstance(value, int) and not isinstance(value, bool))
    return jsonschema.validators.extend(base, type_checker=whole)(json.loads(SCHEMA.read_text(encoding="utf-8")))


def place_of(path: list[str | int]) -> str:
    """`seeds[0]`, `loops.histogram`."""
    told = "".join(f"[{step}]" if isinstance(step, int) else f".{step if step.isidentifier() else repr(step)}"
                   for step in path)
    return told.removeprefix(".") or "the table"


def short(value: Any) -> str:
    """A value of the table, as it is told in a line."""
    told = json.dumps(value, default=str)
    return told if len(told) <= 80 else told[:77] + "..."


def wrong_places(told: dict[str, Any]) -> list[str]:
    """What the schema finds wrong, a line for each place."""
    lines = []
    for error in validator().iter_errors(told):
        place = place_of(list(error.absolute_path))
        if error.validator == "additionalProperties":
            names = sorted(set(told) - set(error.schema["properties"]))
            lines.append(f"{', '.join(map(short, names))}: no field of the table; there are "
                         f"{', '.join(error.schema['properties'])}")
        elif error.validator == "required":
            lines.append(f"{place}: loops is missing; wanted is {error.schema['properties']['loops']['description']}")
        else:
            lines.append(f"{place}: {short(error.instance)} is refused; wanted is {error.schema['description']}")
    return lines


def wrong_words(field_name: str, words: list[str], check: Callable[[str], object]) -> list[str]:
    """The words of a field that name no store, say no costs or name no variable, a line each."""
    lines = []
    for place, word in enumerate(words):
        try:
            check(word)
        except (BadStore, BadCosts, ArgumentTypeError) as wrong:
            lines.append(f"{field_name}[{place}]: {wrong}")
    return lines


def wrong_fields(told: dict[str, Any]) -> list[str]:
    """What the schema can't say: words of stores and costs, and what is asked of runs that there aren't."""
    lines = wrong_words("stores", told.get("stores", []), asked_by)
    lines += wrong_words("costs", told.get("costs", []), costs_words)
    lines += wrong_words("apart", told.get("apart", []), named_apart)
    if "even" not in told.get("schedules", ["even"]):
        lines += [f'{name}: asked of runs at even speed, and schedules has no "even"' for name in ("held", "costs")
                  if told.get(name)]
    if told.get("apart") and told.get("schedules") == ["threads"]:
        lines.append("apart: a run on threads is over the caches of the image's version, and no others are run")
    return lines


def wrong_aparts(plan: Plan) -> list[str]:
    """The variables that no loop has, and those that can't lie apart in some of the stores, a line each."""
    lines = []
    for place, word in enumerate(plan.apart):
        alone = replace(plan, apart=[word])
        try:
            if all(len(alone.stores_of(loop)) == len(plan.stores) for loop in plan.loops):
                lines.append(f"apart[{place}]: no loop names the variable of {shown(word)}, or none runs over caches")
        except Unreadable as wrong:
            lines.append(f"apart[{place}]: {wrong}")
    return lines


def image_at(path: Path, name: str) -> bytes:
    """The text of an image, which has to be a file and to be read as one."""
    at = f"loops.{name}: {shown(str(path))}"
    if not path.is_file():
        raise BadPlan(f"{at} isn't there, or is no file")
    if path.stat().st_size > LONGEST_IMAGE:
        raise BadPlan(f"{at} is longer than {LONGEST_IMAGE:,} bytes")
    text = path.read_bytes()
    try:
        read_image(text_in(text))
    except Unreadable as wrong:
        raise BadPlan(f"{at}: {wrong}") from None
    return text


def table_of(path: Path) -> dict[str, Any]:
    """What a file of TOML says."""
    try:
        return tomllib.loads(path.read_text(encoding="utf-8"))
    except (tomllib.TOMLDecodeError, UnicodeDecodeError, ValueError) as wrong:
        raise BadPlan(shown(str(wrong))) from None
    except RecursionError:
        raise BadPlan("its brackets stand too deep in one another") from None


def read_plan(path: Path) -> Plan:
    """The plan of a file, with the texts of its images, whose paths are from that file."""
    told = table_of(path)
    lines = wrong_places(told) or wrong_fields(told)
    if lines:
        raise BadPlan("\n".join(lines))
    plan = Plan(**told)
    for name, image in plan.loops.items():
        try:
            plan.texts[name] = image_at(path.parent / image, name)
        except (OSError, ValueError) as wrong:
            raise BadPlan(f"loops.{name}: {shown(str(wrong))}" if not isinstance(wrong, BadPlan)
                          else str(wrong)) from None
    lines = wrong_aparts(plan)
    if lines:
        raise BadPlan("\n".join(lines))
    if plan.count() > MOST_CELLS:
        raise BadPlan(f"there would be {plan.count():,} runs, more than {MOST_CELLS:,}")
    return plan
