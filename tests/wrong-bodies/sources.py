"""The functions of a Rattle source file: where each stands, and what the checker calls it."""
import re
from collections.abc import Sequence
from dataclasses import dataclass
from typing import NamedTuple

FUNCTION = re.compile(r'( *)(?:pub(?:\([a-z ]+\))? )?(?:const )?(?:unsafe )?(?:extern "C" )?fn (\w+)')
HOLDER = re.compile(r"( *)(?:pub(?:\([a-z ]+\))? )?(?:unsafe )?(impl|trait)\b(.*)")
ABOVE = re.compile(r"\s*(?:#\[|//)")
CYCLE = re.compile(r"#\[cycle\((\w+)\)\]")


@dataclass(frozen=True)
class Function:
    """A function of a source file; its lines count from 1 and begin with the comments and attributes above it. The
    lines of its body come after that with the brace, `body`. `type` is that of a plain impl of a trait in which it
    stands."""

    holder: str
    type: str
    name: str
    cycle: str
    first: int
    body: int
    last: int


class Holder(NamedTuple):
    """An impl or a trait in which functions stand: how far it is indented, what the checker puts before them, and the
    type of a plain impl of a trait."""

    indent: int
    name: str
    type: str


# What holds a function at the margin.
NO_HOLDER = Holder(0, "", "")


def functions_of(text: str) -> list[Function]:
    """The functions of a source text that `rt fmt` has laid out, where a body ends at the indentation of its head."""
    lines = text.split("\n")
    found: list[Function] = []
    holders: list[Holder] = []
    for at, line in enumerate(lines):
        while holders and line.rstrip() == " " * holders[-1].indent + "}":
            holders.pop()
        holder, function = HOLDER.match(line), FUNCTION.match(line)
        if holder and not ended_by_itself(line):
            header = header_from(lines, at)
            holders.append(Holder(len(holder[1]), holder_name(holder[2], header), plain_type(header)))
        elif function:
            first = at
            while first > 0 and ABOVE.match(lines[first - 1]):
                first -= 1
            cycle = next((it[1] for it in map(CYCLE.search, lines[first:at]) if it), function[2])
            last = last_line(lines, at, function[1])
            body = line_of_brace(lines, at, last, function[1])
            held = holders[-1] if holders else NO_HOLDER
            found.append(Function(held.name, held.type, function[2], cycle, first + 1, body + 1, last + 1))
    return found


def types_of(text: str, kinds: str = "struct|enum|trait") -> list[str]:
    """The names of the types of these kinds that a source text declares."""
    return re.findall(rf"(?m)^(?:pub(?:\([a-z ]+\))? )?(?:{kinds}) (\w+)", text)


def ended_by_itself(line: str) -> bool:
    """Whether an item that begins on this line ends on it."""
    return line.rstrip().endswith((";", "}")) and line.count("{") == line.count("}")


def last_line(lines: Sequence[str], at: int, indent: str) -> int:
    """The line on which a function ends: that of its last brace, or in a trait that gives it no body the last of its
    clauses."""
    if ended_by_itself(lines[at]):
        return at
    ends, depth = (indent + "}", indent + "{}", indent + ");"), 0
    for it in range(at, len(lines)):
        depth += lines[it].count("{") - lines[it].count("}")
        if it > at and (lines[it].rstrip() in ends or depth == 0 and lines[it].rstrip().endswith("};")):
            return it
    return len(lines) - 1


def line_of_brace(lines: Sequence[str], at: int, last: int, indent: str) -> int:
    """The line with the brace of the body of a function on these lines: it stands alone below clauses, and else at the
    end of the head. Where there is none, the first line."""
    alone = (it for it in range(at, last + 1) if lines[it].rstrip() in (indent + "{", indent + "{}"))
    behind = (it for it in range(at, last + 1) if lines[it].rstrip().endswith("{"))
    return next(alone, next(behind, at))


def header_from(lines: Sequence[str], at: int) -> str:
    """The text of an item from the line at which it begins to the brace of its body."""
    header = ""
    for line in lines[at:]:
        header += line + " "
        if "{" in line:
            break
    return header.partition("{")[0]


def holder_name(kind: str, header: str) -> str:
    """What the checker puts before the functions of an impl or of a trait: of `impl Tr<A> for Ty<B>` it is TyTrA."""
    plain = without_parameters(header.partition(kind)[2]).partition(" where ")[0]
    words: list[list[str]] = [re.findall(r"\w+", it) for it in plain.split(" for ")]
    if kind == "trait":
        return words[0][0]
    *of, own = [it[-1] for it in words]
    given = re.search(rf"\b{of[0]}<([\w:]+)> for ", header) if of else None
    return own + "".join(of) + (given[1].split("::")[-1] if given else "")


def plain_type(header: str) -> str:
    """The type of an impl of a trait that stands at the margin, where neither has parameters; else nothing."""
    plain = re.fullmatch(r"impl [\w:]+ for (\w+) *", header)
    return plain[1] if plain else ""


def without_parameters(text: str) -> str:
    """The text without what stands in angle brackets."""
    kept, depth = "", 0
    for at, it in enumerate(text):
        depth += it == "<"
        kept += it * (depth == 0)
        depth -= it == ">" and text[at - 1] not in "-="
    return kept


def module_of(file: str) -> str:
    """The module that a source file is, as `a::b` for src/a/b.rt, and nothing for a crate's root."""
    inside = file.removeprefix("src/").removesuffix(".rt")
    return "" if inside in ("lib", "main") else inside.removesuffix("/mod").replace("/", "::")
