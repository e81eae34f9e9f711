#!/usr/bin/env python3
"""Tests the words that name stores: the programs and the tools take the same ones, and refuse the same.

Usage: tests/stores.py [COMMAND ..]

COMMAND is a command of `trace_cli` that ends with the word `seq`; `gain`, `replay`, `why` and `depends` are the
programs that were built beside it. Without it those of this repository are tested. Those that aren't built are left
out, and a line says so. Exits with 1 where a check failed.
"""

import re
import sys
from argparse import ArgumentTypeError
from collections.abc import Callable, Iterator
from functools import partial
from pathlib import Path

from common import ROOT, Check, Part, Script, beside, called, differs, left_out

sys.path.insert(0, str(ROOT / "tools"))
sys.dont_write_bytecode = True

from loops import Unreadable, read_image  # noqa: E402
from loops.aparts import named_apart, store_apart  # noqa: E402
from loops.stores import BY_VERSION, KEYS, BadStore, Machine, Store, is_store  # noqa: E402

# A loop of memory that is no whole number of lines of 64 bytes, and one whose memory is; both in version 1.
LOOP = "size {}\nepochs 2\nlimit 50\ncode 83220004938212002320500467800000\n"
ODD, EVEN = LOOP.format(272), LOOP.format(256)
TRACE = "trace 1\n0 start 0\n0 load 00000040 4 00000000\n0 store 00000040 4 00000001\n0 commit\n"
# A word, and of version 1 the machine that it asks for: bytes of a line, sets, ways, lines of a buffer, and what lies
# apart.
TAKEN: dict[str, tuple[int | str, ...]] = {
    "plain": (16, 4, 2, 4), "caches": (16, 4, 2, 4), "caches:line=64": (64, 4, 2, 4), "caches:line=16": (16, 4, 2, 4),
    "caches:line=32": (32, 4, 2, 4), "caches:sets=1": (16, 1, 2, 4), "caches:sets=1024": (16, 1024, 2, 4),
    "caches:ways=1": (16, 4, 1, 4), "caches:ways=16": (16, 4, 16, 4), "caches:ways=3": (16, 4, 3, 4),
    "caches:buffer=1": (16, 4, 2, 1), "caches:buffer=64": (16, 4, 2, 64),
    "caches:sets=64,ways=4,buffer=16": (16, 64, 4, 16), "caches:buffer=16,ways=4,sets=64": (16, 64, 4, 16),
    "caches:line=64,sets=1024,ways=16,buffer=64": (64, 1024, 16, 64),
    "caches:apart=00000040:16:4": (16, 4, 2, 4, "00000040:16:4"),
    "caches:apart=00000000:256:16": (16, 4, 2, 4, "00000000:256:16"),
    "caches:apart=000000fc:4:12": (16, 4, 2, 4, "000000fc:4:12"),
    "caches:line=64,apart=00000040:12:64,ways=1": (64, 4, 1, 4, "00000040:12:64"),
}
REFUSED = [
    "", "cache", "Caches", "caches ", " caches", "caches:", "caches,", "caches:,", "caches:sets", "caches:sets=",
    "caches:=4", "caches:size=4", "caches:sets=4,", "caches:,sets=4", "caches:sets=4,,ways=2", "caches:sets=4 ",
    "caches: sets=4", "caches:sets =4", "caches:sets==4", "caches:sets=4=4", "caches:sets=4:", "caches::sets=4",
    "caches:sets=4;ways=2", "caches:sets=+4", "caches:sets=-4", "caches:sets=04", "caches:sets=0x4", "caches:sets=4.0",
    "caches:Sets=4", "caches:sets=3", "caches:sets=0", "caches:sets=2048", "caches:sets=4294967300",
    "caches:sets=18446744073709551620", "caches:sets=" + "9" * 5000, "caches:sets=4,sets=4",
    "caches:sets=4,ways=2,sets=8", "caches:line=48", "caches:line=8", "caches:line=128", "caches:line=0",
    "caches:ways=17", "caches:ways=0", "caches:buffer=65", "caches:buffer=0", "plain:", "plain:ways=2", "plain:sets=4",
    "caches:plain", "caches:sets=\u0664", "caches\n", "caches:sets=4\n",
    "caches:apart", "caches:apart=", "caches:apart=00000040", "caches:apart=00000040:16",
    "caches:apart=00000040:16:4:4", "caches:apart=00000040:16:", "caches:apart=00000040::4", "caches:apart=:16:4",
    "caches:apart=40:16:4", "caches:apart=000000040:16:4", "caches:apart=0000004A:16:4", "caches:apart=0x000040:16:4",
    "caches:apart=64:16:4", "caches:apart=00000040:10:4", "caches:apart=00000040:016:4", "caches:apart=00000040:16:+4",
    "caches:apart=00000042:16:4", "caches:apart=00000040:18:4", "caches:apart=00000040:16:6",
    "caches:apart=00000040:0:4", "caches:apart=00000040:16:0", "caches:apart=00000040:16:20,line=16",
    "caches:apart=00000040:64:128", "caches:apart=00000040:4294967312:4", "caches:apart=00000040:16:4294967300",
    "caches:apart=00000040:16:4,", "caches:apart=00000040:16:4,apart=00000050:16:4",
    "caches:sets=4:apart=00000040:16:4", "plain:apart=00000040:16:4", "caches:apart=00000040,16,4",
    "caches:apart=00000040=16=4", "caches:APART=00000040:16:4",
]
# Words that fit no memory of 256 bytes, or no line of version 1, though there are images that they fit.
UNFIT = ["caches:apart=000000fc:8:4", "caches:apart=00000100:4:4", "caches:apart=00000000:260:4",
         "caches:apart=fffffffc:4:4", "caches:apart=00000004:4294967292:4", "caches:apart=00000040:16:20"]

# What `--apart` says behind the words of a store, and behind which other words it is refused.
VALUE = "00000040:16:4"
APART = ["--apart", VALUE]
NO_APART = [["--apart"], ["--apart", "00000040:16"], ["--apart", "40:16:4"], ["--apart", f"{VALUE},sets=8"],
            ["--apart", f"{VALUE}:4"], ["--apart", f"apart={VALUE}"], ["--apart", ""], [*APART, *APART], [VALUE],
            ["-apart", VALUE], [f"--apart={VALUE}"]]
# Variables of an image, the store that is named, the variable and the bytes of its pieces, and the store that is meant.
VARIABLES = "# flags 0000003e 5\n# ns::x 00000080 4\n"
MEANT = [(None, "flags:4", "caches:apart=0000003c:8:4"), ("caches", "flags:8", "caches:apart=0000003c:8:8"),
         ("caches:sets=8", "ns::x:16", "caches:sets=8,apart=00000080:4:16"), ("caches:ways=1", None, "caches:ways=1"),
         ("plain", None, "plain"), (None, None, None)]
NOT_MEANT = [("caches", "other:4", "no remark of the image names a variable other"),
             ("plain", "flags:4", "'plain:apart=0000003c:8:4' names no store"),
             ("caches:apart=00000080:4:4", "flags:4", "names no store"), ("caches", "flags:6", "names no store"),
             ("caches:line=16", "flags:20", "names no store")]


def outcome(program: Path, words: list[str], text: str) -> tuple[str, str, int]:
    done = called([program, *words], text)
    return done.stdout, done.stderr, done.returncode


def tools() -> Iterator[Check]:
    """What the package makes of each word."""
    for word, wanted in TAKEN.items():
        machine = Machine.of_word(word)
        apart = (machine.apart.text,) if machine.apart else ()
        yield f"taken: {word}", differs((*machine.sizes.values(), *apart), wanted)
        yield f"as it was given: {word}", differs(Store.of_word(word).word, word)
    for word in REFUSED:
        try:
            yield f"refused: {word[:40]!r}", f"is {Machine.of_word(word)}"
        except BadStore as wrong:
            yield (f"refused: {word[:40]!r}",
                   None if " names no store; one is plain, caches or " in str(wrong) else str(wrong))
    second = Machine.of_word("caches:sets=8", 2)
    yield "what isn't named is the version's", differs((*second.sizes.values(), second.apart), (32, 8, 2, 8, None))
    with_apart = Machine.of_word("caches:apart=00000044:20:8")
    yield ("the places of addresses",
           differs([with_apart.place_of(at, 256) for at in (0x43, 0x44, 0x4b, 0x4c, 0x54, 0x57, 0x58)],
                   [0x43, 256, 263, 272, 288, 291, 0x58]))
    yield ("all of it in words",
           differs([Machine.of_word(one.word) for one in BY_VERSION.values()], [*BY_VERSION.values()]))
    yield ("the set of an address",
           differs([Machine.of_word("caches:line=64,sets=8").set_of(at) for at in (0, 63, 64, 511, 512)],
                   [0, 0, 1, 7, 0]))


def tools_apart() -> Iterator[Check]:
    """What the package makes of a variable that lies apart."""
    image = read_image(VARIABLES + EVEN)
    for store, word, meant in MEANT:
        got = store_apart(store, None if word is None else named_apart(word), lambda: image)
        yield f"{store} with {word} apart", differs(got, meant)
    for given, word, wrong in NOT_MEANT:
        try:
            yield f"{given} with {word} apart", f"is {store_apart(given, named_apart(word), lambda: image)}"
        except Unreadable as told:
            yield f"{given} with {word} apart", None if wrong in str(told) else str(told)
    for word in ("flags", "flags:", ":4", "flags:x", "flags:-4", "flags:04"):
        try:
            yield f"{word!r} is no variable with bytes", f"is {named_apart(word)}"
        except ArgumentTypeError:
            yield f"{word!r} is no variable with bytes", None


def one_home() -> Iterator[Check]:
    """No other file of the package has numbers of a machine."""
    number = re.compile(r"(?i)\b(sets|ways|buffer_?\w*|line_?length)\b['\"]?\s*(=|:)\s*[\[({]?\s*\d|\{16: |\b32: 8\b")
    found = [f"{path.relative_to(ROOT)}: {line.strip()}" for path in sorted((ROOT / "tools" / "loops").rglob("*"))
             if path.suffix in (".py", ".js", ".json", ".html") and path.name != "stores.py"
             and "loops_of" not in path.parts
             for line in path.read_text(encoding="utf-8").splitlines()
             if number.search(re.sub(r"caches:[\w=,]+", "", line))]
    yield "one home of its numbers", "\n".join(found) or None
    yield "the keys", differs(KEYS, ("line", "sets", "ways", "buffer", "apart"))


# Of each program its words over a store, and what it reads.
Calls = dict[str, Callable[[str], tuple[list[str], str]]]
CALLS: Calls = {
    "gain": lambda word: (["2", word], EVEN), "depends": lambda word: (["2", word], EVEN),
    "replay": lambda word: (["even", word, "2"], EVEN),
    "why": lambda word: ([word], EVEN + TRACE),
}
ALL_OF_REPLAY: Calls = {
    "a schedule": lambda word: ([word, "2"], EVEN + "turns 0 1 0\n"),
    "seeded": lambda word: (["seeded", "1", word, "2"], EVEN),
    "threads": lambda word: (["threads", word, "2"], EVEN), "all": lambda word: (["all", word, "2", "3"], EVEN),
    "steps": lambda word: (["steps", word, "2"], EVEN + "turns 0 1 0\n"),
    "a trace": lambda word: ([word], EVEN + TRACE),
}


def program(name: str, path: Path) -> Iterator[Check]:
    """What a program makes of each word."""
    calls = {name: CALLS[name], **(ALL_OF_REPLAY if name == "replay" else {})}
    for called_so, words_of in calls.items():
        for word in TAKEN:
            got = outcome(path, *words_of(word))
            yield (f"{name}, {called_so}, takes {word}",
                   None if got[2] in (0, 1) and got[1] == "" and got[0] else f"got {got}")
        for word in [one for one in REFUSED if "\0" not in one and is_store(one) is False]:
            got = outcome(path, *words_of(word))
            yield f"{name}, {called_so}, refuses {word[:40]!r}", differs(got, ("", "usage\n", 2))
        for word in UNFIT:
            yield f"{name}, {called_so}, refuses {word}", differs(outcome(path, *words_of(word)), ("", "usage\n", 2))
        words, text = words_of("caches:line=64")
        yield (f"{name}, {called_so}, refuses memory of no whole number of lines",
               differs(outcome(path, words, text.replace(EVEN, ODD)), ("", "usage\n", 2)))


def spelled(name: str, path: Path) -> Iterator[Check]:
    """`--apart` is short for the key of each store of caches, and where there is none for such a store."""
    calls = {name: CALLS[name], **(ALL_OF_REPLAY if name == "replay" else {})}
    for called_so, words_of in calls.items():
        # A run on threads is another one each time.
        first = 1 if called_so == "threads" else 0
        for word, meant in (("caches", f"caches:apart={VALUE}"), ("caches:sets=8", f"caches:sets=8,apart={VALUE}")):
            words, text = words_of(word)
            place, wanted = words.index(word), outcome(path, *words_of(meant))[first:]
            alone = [*words[:place], *APART, *words[place + 1:]]
            before = [*words[:place], *APART, *words[place:]]
            for told in ([*words, *APART], before, *([alone] if word == "caches" else [])):
                yield (f"{name}, {called_so}, spells {' '.join(told)}",
                       differs(outcome(path, told, text)[first:], wanted))
        words, text = words_of("caches")
        for further in NO_APART:
            yield (f"{name}, {called_so}, refuses {' '.join(further)!r}",
                   differs(outcome(path, [*words, *further], text), ("", "usage\n", 2)))
        words, text = words_of(f"caches:apart={VALUE}")
        yield f"{name}, {called_so}, has it once", differs(outcome(path, [*words, *APART], text), ("", "usage\n", 2))


def printed(name: str, path: Path) -> Iterator[Check]:
    """The word as it was given, in the lines of `gain` and `depends`, in their order."""
    words = ["caches:ways=2,sets=4", "plain", "caches", "caches:line=16"]
    out = outcome(path, ["2", *words], EVEN)[0]
    place = 1
    found = [line.split(" ")[place] for line in out.splitlines()
             if line.startswith(("store ", "never ", "from ", "open "))]
    yield f"{name} prints the words", differs(list(dict.fromkeys(found)), words)
    if name == "gain":
        lines = [line.partition(" cores ")[2] for line in out.splitlines()]
        yield "caches of the version's size by any words", differs((lines[:2], lines[:2]), (lines[4:6], lines[6:]))


def main() -> int:
    script = Script()
    parts: list[Part] = [tools, tools_apart, one_home]
    for name in CALLS:
        path = beside(script.command(), name)
        if path is None or not path.is_file():
            left_out(f"the words of {name}", "it wasn't built beside the program that is tested")
            continue
        parts += [partial(program, name, path), partial(spelled, name, path),
                  *([partial(printed, name, path)] if name in ("gain", "depends") else [])]
    script.run(*parts)
    return script.ended()


if __name__ == "__main__":
    sys.exit(main())
