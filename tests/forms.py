#!/usr/bin/env python3
"""Tests tools/loops and tools/json: each form that the programs take and print is read, written as it was, and the same
after the way through JSON.

Usage: tests/forms.py [COMMAND ..]

COMMAND is a command of `trace_cli` that ends with the word `seq`; `why`, `replay`, `gain` and `depends` are the
programs that were built beside it. Without it those of this repository are tested. Texts worked by hand are tried
first, which need no program; then all images of examples/, with what the programs print of them. Each document is held
to tools/loops/schema.json where python3-jsonschema is installed. What isn't there is left out, and a line says so.
Exits with 1 where a check failed.
"""

import json
import os
import re
import subprocess
import sys
import tempfile
from collections.abc import Iterator
from functools import partial
from pathlib import Path

from common import ROOT, Check, Script, beside, called, called_tool, differs, left_out, there

sys.path.insert(0, str(ROOT / "tools"))

from loops import Programs, Stopped, pieces, read_conflicts, read_image, with_trace  # noqa: E402
from loops.changes import Copy, Hand, OfAttempt, OfBuffer, OfHart, OfKept, OfMemory, OfWay, Running  # noqa: E402
from loops.conflicts import End  # noqa: E402
from loops.documents import FORMS, SCHEMA, content_of, document, form_of, from_json, to_json  # noqa: E402
from loops.gains import Limit, read_gains  # noqa: E402
from loops.programs import call  # noqa: E402
from loops.runs import read_output  # noqa: E402
from loops.streams import iter_document, iter_text  # noqa: E402
from loops.texts import text_out  # noqa: E402

try:
    from jsonschema import Draft202012Validator, ValidationError
    HAS_SCHEMAS = True
except ImportError:
    HAS_SCHEMAS = False

# What a shell tells of a program that SIGPIPE ends.
UNREAD = 141
TOOLS = ["build", "definitions", "picture", "named", "trace", "json", "image-of", "loops-of", "plot", "verdict",
         "study", "view"]
HURT = ("hurt 4 true epoch 1 try 1 core 1 lost 3 entered 2 since 2 by 0 core 0 cause 5 commit load 3 00000004 store 2 "
        "00000014 at 00000040 4\n"
        "also 4 silent load 3 00000004 store 2 00000014 at 00000080 4\nlater 4 store 7 00000014\nvain 4 hurt\nmoot 4\n")
TOTAL = "total epochs 2 committed 2 useful 8 rollbacks 1 lost 3 cancelled 0 dropped 0 open 0 unsettled 0\n"
GAIN = ("store plain cores 4 steps 108 gain 4.00 useful 432 lost 0 dropped 0 waiting 0 idle 0 restarts 0 true 0 silent "
        "0 false 0 buffer 0 "
        "nothomefree 0 noway 0 orbfull 0 orbbusy 0\n")
LIMITS = "limit cores 1 forward 5 commit 5\nlimit cores 4 forward 3 commit 4\n"
COSTED = GAIN.replace("useful 432", "order 400 busy 304 handling 80 memory 40 queue 8")
EVENS = "even plain cores 4 at 3\neven plain cores 8 at -\n"
EVENED = (GAIN + GAIN.replace("store", "held").replace("waiting 0", "waiting 0 held 2")
          + GAIN.replace("cores 4", "cores 8"))
STEPS = ("turn 0 0 go\nentry 0 start 0\nattempt 0 0 homefree\nhart 0 00000000 0\nturn 1 1 again NoWay\nturn 2 0 over "
         "done 1\n"
         "entry 0 store 00000040 4 00000001\nentry 0 commit\nattempt 0 -\nhart 0 -\norb 0\nline 0 0 0 00000040 M - "
         "00000000 01000000\n"
         "kept 0 00000040 0000 000f 01\nat 00000040 01000000\nend\nend done 1\nat 00000040 "
         "01000000000000000000000000000000\n"
         "counts 0 1 0 1\ntrace 2\n0 start 0\n0 store 00000040 4 00000001\n0 commit\n")
# What these turns change.
CHANGES = [
    [OfAttempt(0, Running(0, "homefree")), OfHart(0, Hand(0, 0))], [],
    [OfAttempt(0, None), OfHart(0, None), OfBuffer(0, ()), OfWay(0, 0, 0, Copy(0x40, "M", False, 0, b"\1\0\0\0")),
     OfKept(0, 0x40, 0, 15, b"\1"), OfMemory(0x40, b"\1\0\0\0")],
]
DEPENDS = ("dep store 00000034 load 00000014 times 12 distance 4 4 at 00000040 13 first 0 4 stored 25 of 27 loaded 5 "
           "of 27\n"
           "from caches 2 epoch 1 load 00000014 by epoch 0 store 00000034\nturns 0 1 1 0 0\nnever plain 4\n")
ATTEMPTS = ("attempt 0 epoch 0 try 1 core 0 done 3 faulted 6 by 0 core 0\n"
            "attempt 1 epoch 1 try 1 core 1 done 2 violated 5 by 0 core 0\n"
            "attempt 2 epoch 2 try 1 core 2 done 0 open\n")
# (form, a text of that form)
TEXTS = [
    ("image",
     "# One.\n#> end done 3\nversion 2\nexit\nsize 64\nepochs 3\nlimit 9\ncode 6780000013000000\nreg 2 0000ff00\nat "
     "00000020 01ff\n"),
    ("traced",
     "size 64\nepochs 3\nlimit 9\ncode 67800000\ntrace 2\n0 start 0\n0 load 00000020 4 00000001\n0 store 00000020 1 "
     "000000ff\n1 start 1\n"
               "0 hurt 1\n0 publish\n0 commit\n1 restart\n1 cancel 2\n1 fault 7 00000004\n"),
    ("output", "end fault 7 6 0000000c\nat 00000040 01000000000000000000000000000000\n"),
    ("output", "end exit 2\n"),
    ("output", "open 3\nat 00000040 01000000000000000000000000000000\ncounts 2 1 1 2\ntrace 2\n0 start 0\n0 commit\n"),
    ("survey", "schedules 256\nover 0\nhistories 9\n"),
    ("survey",
     "schedules 4\nover 4\nhistories 2\nleast 0\nturns 0 0\nmost 1\nturns 0 1\nend done 2\nat 00000040 "
     "01000000000000000000000000000000\n"),
    ("verdict", "legal 9 2\n"),
    ("verdict", "illegal 4 HurtMissing\n"),
    ("conflicts", HURT + "cancel 9 epoch 3 try 1 core 0 lost 4 by 2 core 1\nopen epoch 3 try 2 core 0 done 5\n"
     + TOTAL),
    ("conflicts",
     "hurt 4 other epoch 1 try 1 core 1 lost 3 entered 2 since - by 0 core 0 cause - - load - - store - - at - -\n"
     + TOTAL),
    ("conflicts",
     "hurt 4 buffer epoch 1 try 1 core 1 lost 3 entered 2 since - by 0 core 0 cause 5 load held 3 00000004 asked 2 "
     "00000014 at 00000040 16\n"
                  "epoch 1 rollbacks 1 lost 3\npair asked 00000014 held 00000004 rollbacks 1 lost 3 true 0 silent 0 "
                  "false 0 buffer 1 stale 0 vain 0 later 0 "
                  "distance 1 1 at 00000040 16\nline 00000040 rollbacks 1 lost 3 true 0 silent 0 false 0 buffer 1\npc "
                  "00000004 victim 1 3 causer 0 0\n"
                  "kind buffer rollbacks 1 lost 3\n" + TOTAL),
    ("conflicts", HURT + "open epoch 2 try 1 core 2 done 0\n" + ATTEMPTS + "epoch 1 rollbacks 1 lost 2\n" + TOTAL),
    ("conflicts", ATTEMPTS + TOTAL),
    ("gains", GAIN + "store caches cores 1 full\n" + GAIN.replace("gain 4.00", "gain -")),
    ("gains", GAIN + LIMITS), ("gains", GAIN.replace("waiting 0", "waiting 0 held 3") + "store plain cores 8 full\n"),
    ("gains", COSTED + COSTED.replace("store", "held").replace("waiting 0", "waiting 0 held 2") + LIMITS),
    ("gains", EVENED + EVENS + EVENED + EVENS + LIMITS), ("gains", EVENED + "held plain cores 8 full\n" + EVENS),
    ("gains", "".join(GAIN.replace("plain", word)
                      for word in ("caches:sets=64,ways=4,buffer=16", "caches:line=64", "caches"))),
    ("dependences", DEPENDS.replace("caches", "caches:line=64,buffer=1").replace("never plain", "never caches:sets=1")),
    ("dependences", "open caches:sets=8 2\n"),
    ("steps", STEPS.replace("00000000 01000000\n", "80000000f0000000 " + "01" * 64 + "\n")),
    ("output", "turns 0 1 0\nend done 1\ncounts 0 0 0 1\ntrace 2\n0 start 0\n0 commit\n"),
    ("steps", STEPS),
    ("steps", "end\nopen 0\ncounts 0 0 0 0\ntrace 1\n"),
    ("dependences", DEPENDS),
    ("dependences", "from caches 2 epoch 1 buffer by epoch 0\nturns 0\nopen plain 3\n"),
    ("dependences", "never plain 8\n"),
    ("dependences", "open caches 2\nnever plain 8\n"),
    ("dependences", DEPENDS.partition("\n")[2]),
]
# (form, what isn't of it)
REFUSED = [
    ("image", "size 64\nspeed 3\n"), ("image", "size x\n"), ("traced", "size 64\n"),
    ("traced", "size 64\ntrace 2\n0 begin 0\n"), ("output", "end soon 3\n"),
    ("conflicts", "hurt 4 true epoch 1\n"), ("conflicts", "vain 4 hurt\n"),
    ("conflicts", HURT.replace("vain 4", "vain 5")),
    ("conflicts", ATTEMPTS.replace("faulted 6", "open 6") + TOTAL),
    ("conflicts", ATTEMPTS.replace(" open", " open 9 by 0 core 0") + TOTAL), ("gains", "store caches cores 2 fast\n"),
    ("gains", GAIN + LIMITS.replace("forward 3", "forward -")), ("gains", GAIN + LIMITS + GAIN),
    ("gains", GAIN.replace("waiting 0", "held 3 waiting 0")), ("gains", GAIN.replace("waiting 0", "waiting 0 held -")),
    *(("gains", wrong) for wrong in (
        COSTED.replace("order 400 ", ""), COSTED.replace("order", "useful 3 order"), COSTED.replace(" queue 8", ""),
        EVENS, GAIN + EVENS, EVENED + EVENS.replace("plain", "caches"), EVENED + EVENS.replace("at 3", "at x"),
        EVENED + EVENS + EVENED, EVENS + EVENED, EVENED + LIMITS + EVENS, EVENED.replace("held plain", "even plain"))),
    *(("gains", GAIN.replace("plain", word))
      for word in ("plane", "caches:", "caches:sets=3", "caches:sets=4,sets=4", "plain:ways=2")),
    ("dependences", "never caches:ways=17 4\n"),
    ("steps", STEPS.replace("- 00000000 01000000", "- 000000000000 01000000")),
    ("steps", STEPS.partition("end\n")[0]), ("steps", STEPS.replace("hart 0 -", "heart 0 -")),
    *(("steps", STEPS.replace(right, wrong)) for right, wrong in (
        ("hart 0 00000000 0", "hart 0 0 0"), ("attempt 0 0 homefree", "attempt 0 0"), ("orb 0\n", "orb 0 40\n"),
        ("M - 00000000", "M 00000000"),
        ("0000 000f", "000f"), ("at 00000040 01000000\nend", "at 00000040 0\nend"))),
    ("steps", STEPS.replace("end done 1", "end soon 1")),
    ("dependences", DEPENDS.replace("turns 0 1 1 0 0\n", "")),
    ("dependences", DEPENDS.replace("distance 4", "distances 4")), ("dependences", "never plain\n"),
    ("dependences", "never plain 4\n" + DEPENDS),
]


def wrong_with(form: str, text: str | None) -> str | None:
    """What is wrong with a text's way through its class and through JSON, or None."""
    if text is None:
        return "is refused"
    if form_of(text) != form:
        return f"is taken for {form_of(text)}"
    told = json.loads(json.dumps(document(text)))
    read = FORMS[form][1](text)
    if content_of(told) != read:
        return "is another after JSON"
    if HAS_SCHEMAS:
        found = next(Draft202012Validator(json.loads(SCHEMA.read_text(encoding="utf-8"))).iter_errors(told), None)
        if found is not None:
            return f"isn't as the schema says: {found.message[:200]}"
    if streamed(text) != to_json(text):
        return "is another where it is written while it is read"
    if back(to_json(text)) != text:
        return "isn't written as it was where the document is read in pieces"
    return None if content_of(told).text() == text else "isn't written as it was"


def streamed(text: str) -> str:
    """A text as JSON, by the way that tools/json goes."""
    with tempfile.TemporaryDirectory() as folder:
        source = Path(folder, "text")
        source.write_bytes(text_out(text))
        return "".join(iter_document(source)) + "\n"


def back(told: str) -> str:
    """The text of a document, by the way that tools/json goes."""
    with tempfile.TemporaryDirectory() as folder:
        source = Path(folder, "document")
        source.write_bytes(text_out(told))
        return "".join(iter_text(source))


def turned(value: object) -> object:
    """The same JSON with the keys of each object in the other order."""
    if isinstance(value, dict):
        return {key: turned(one) for key, one in reversed(value.items())}
    return [turned(one) for one in value] if isinstance(value, list) else value


def in_pieces() -> Iterator[Check]:
    """Documents of which few bytes are read at once, in other orders and without blanks. The last text has characters
    of several bytes, and a byte that is no UTF-8."""
    usual = pieces.CHUNK
    texts = [text for _, text in TEXTS] + ["# \u00e9\u20ac\U0001f600\udcff\n" + TEXTS[1][1]]
    for size in (1, 2, 7, 64):
        pieces.CHUNK = size
        wrong = [text for text in texts if back(to_json(text)) != text]
        yield f"{size} bytes at once", f"{wrong[0][:40]!r} is another" if wrong else None
    pieces.CHUNK = usual
    for text in texts:
        told = document(text)
        content = {key: told[key] for key in ("form", "version")} | {"content": turned(told["content"])}
        orders = {"no blanks": json.dumps(told, separators=(",", ":")),
                  "each key at its other end": json.dumps(turned(told), ensure_ascii=False),
                  "the content's keys at their other end": json.dumps(content, indent="\t") + "\r\n"}
        for name, order in orders.items():
            # what a turn changes is said in the order of its keys
            if name == "no blanks" or form_of(text) != "steps":
                yield f"{text[:30]!r}, {name}", None if back(order) == text else "is another"


def refused_back() -> Iterator[Check]:
    """Documents with which something is wrong: nothing is written, and what is said is what Python says of the whole
    document."""
    good = to_json(TEXTS[1][1])
    for name, told, said in (
        ("nothing", "", "Expecting value: line 1 column 1 (char 0)"),
        ("no end", good[:-3],
         f"Expecting ',' delimiter: line {good.count(chr(10)) - 1} column 3 (char {len(good) - 3})"),
        ("more behind its end", good + "{}", f"Extra data: line {good.count(chr(10)) + 1} column 1 (char {len(good)})"),
        ("no comma", good.replace('"cores": 2,', '"cores": 2'), None),
        ("a number that goes on", good.replace('"cores": 2,', '"cores": 2x,'), None),
        ("no width of the last entry", "\n".join(good.rsplit('\n     "width": null,\n', 1)), "'width'"),
        ("an address that is a word", good.replace('"address": 32', '"address": "x"'),
         "Unknown format code 'x' for object of type 'str'"),
        ("half of a surrogate pair", good.replace('"publish"', '"\\ud800"'),
         "'utf-8' codec can't encode character '\\ud800' in position 133: surrogates not allowed"),
    ):
        got = tool("json", told, "--back")
        right = got[0] == "" and got[1].startswith("json: ") and got[2] == 2 and (said is None
                                                                                  or got[1] == f"json: {said}\n")
        yield f"back from a document with {name}", None if right else f"got {got}"
    twice = good.replace('"version": 1,', '"version": 2,\n "version": 1,', 1)
    yield "a key that is said twice", None if tool("json", twice, "--back") == (TEXTS[1][1], "", 0) else "is another"


def tool(name: str, text: str, *words: str) -> tuple[str, str, int]:
    done = called_tool(name, *words, given=text)
    return done.stdout, done.stderr, done.returncode


def by_file(name: str, *words: str) -> tuple[str, str, int]:
    """The same of a tool without an input, called by its file."""
    done = called([ROOT / "tools" / name, *words], "")
    return done.stdout, done.stderr, done.returncode


def unread(name: str, *words: str) -> tuple[str, int]:
    """What a tool says on standard error, and its status, where the reader of its standard output has gone."""
    reader, writer = os.pipe()
    os.close(reader)
    with open(writer, "wb") as nowhere:
        done = called([ROOT / "tools" / name, *words], stdin=subprocess.DEVNULL, stdout=nowhere)
    return done.stderr, done.returncode


def by_hand() -> Iterator[Check]:
    """(what it shows, what is wrong or None)"""
    for form, text in TEXTS:
        yield f"{form}: {text[:30]!r}", wrong_with(form, text)
    for form, text in REFUSED:
        got = tool("json", text, "--form", form)
        right = got[0] == "" and got[1].startswith("json: ") and got[2] == 2
        yield f"refused as {form}: {text[:40]!r}", None if right else f"got {got}"
    got = tool("json", '{"form": "image", "version": 2, "content": {}}', "--back")
    yield "another version", None if got[2] == 2 and "version 1 is known" in got[1] else f"got {got}"
    image = read_image(TEXTS[0][1])
    said_of_image = (image.version, image.exit, image.size, image.registers, image.data[0].data, image.remarks)
    yield ("what an image says",
           differs(said_of_image, (2, True, 64, {2: 0xFF00}, b"\x01\xff", [" One.", "> end done 3"])))
    violation = read_conflicts(TEXTS[9][1]).violations[0]
    said_of_violation = (violation.cause_what, there(violation.victims).pc, violation.also[0].kind,
                         there(violation.later).entry, violation.vain, violation.moot)
    yield "what a violation says", differs(said_of_violation, ("commit", 4, "silent", 7, True, True))
    faulted, _, goes_on = read_conflicts(ATTEMPTS + TOTAL).attempts
    said_of_attempts = (faulted.began, faulted.done, faulted.fate, faulted.end, goes_on.fate, goes_on.end)
    yield "what attempts say", differs(said_of_attempts, (0, 3, "faulted", End(6, 0, 0), "open", None))
    before = json.loads(to_json(HURT + TOTAL))
    del before["content"]["attempts"]
    yield "conflicts of before there were attempts", differs(from_json(json.dumps(before)), HURT + TOTAL)
    steps = FORMS["steps"][1](STEPS)
    said_of_steps = (len(steps.steps), steps.steps[1].answer, steps.steps[2].entries[1].place, steps.steps[1].cause,
                     steps.steps[2].end, steps.output.counts.stores)
    yield "what steps say", differs(said_of_steps, (3, "again NoWay", 2, "NoWay", "done", 1))
    yield "what turns change", differs([step.changes for step in steps.steps], CHANGES)
    gains = read_gains(GAIN + LIMITS)
    yield ("what limits say", differs([gains.limit(4), gains.limit(2), read_gains(GAIN).limits],
                                      [Limit(4, 3, 4), None, []]))
    costed = read_gains(COSTED + EVENS.partition("\n")[0] + "\n")
    yield "what turns cost", differs([costed.runs[0].order, costed.runs[0].queue, costed.runs[0].useful,
                                      costed.evens[0].at], [400, 8, None, 3])
    held = read_gains(EVENED)
    yield "what held runs are", differs([there(held.of(word, 4)).held for word in ("plain", "held plain")], [None, 2])
    before = json.loads(to_json(GAIN))
    del before["content"]["limits"], before["content"]["evens"]
    for later in ("waits", "order", "busy", "handling", "memory", "queue"):
        del before["content"]["runs"][0][later]
    yield "gains of before there were limits", differs(from_json(json.dumps(before)), GAIN)
    told = FORMS["dependences"][1](DEPENDS)
    said_of_dependences = (told.pairs[0].at.length, told.pairs[0].stored.of, told.over("caches").turns,
                           told.over("caches").causer, told.over("plain").verdict)
    yield "what dependences say", differs(said_of_dependences, (13, 27, [0, 1, 1, 0, 0], 0x34, "never"))
    for name in TOOLS:
        out, errors, status = by_file(name, "--help")
        yield (f"tools/{name} --help",
               None if (errors, status) == ("", 0) and out.startswith("usage: ") and len(out.split()) > 20
               else f"got {out!r}, {errors!r}")
        said, _ = unread(name, "--help")
        yield f"tools/{name} --help, which nobody reads", f"says {said!r}" if said else None
    for words in ((), ("--cited",), ("do_why",)):
        yield (f"tools/definitions {' '.join(words)}, which nobody reads",
               differs(unread("definitions", *words), ("", UNREAD)))
    for name in ("build", "definitions"):
        out, errors, status = by_file(name, "one", "two")
        yield (f"tools/{name} with two words",
               None if (out, status) == ("", 2) and errors.startswith("usage: ")
               else f"got {out!r}, {errors!r}, {status}")


def packages() -> Iterator[Check]:
    """`pip install .` installs each package of tools/, and the tools, in the version that the changelog released
    last."""
    project = (ROOT / "pyproject.toml").read_text()
    packed = json.loads(there(re.search(r"(?m)^packages = (.*)$", project))[1])
    folders = sorted(".".join(path.parent.relative_to(ROOT / "tools").parts)
                     for path in (ROOT / "tools").rglob("__init__.py"))
    yield "the packages that are installed", differs(sorted(packed), folders)
    told = re.findall(r'(?m)^(loops-[\w-]+) = "loops\.commands\.(\w+):main"$', project)
    names = {path.stem: path.stem.replace("_", "-")
             for path in (ROOT / "tools" / "loops" / "commands").glob("[a-z]*.py")}
    tools = [(name if name.startswith("loops-") else f"loops-{name}", module) for module, name in names.items()]
    yield "the tools that are installed", differs(sorted(told), sorted(tools))
    version = there(re.search(r'(?m)^version = "(.*)"$', project))[1]
    released = there(re.search(r"(?m)^## \[(\d.*?)\]", (ROOT / "CHANGELOG.md").read_text()))[1]
    yield "the version that was released last", differs(version, released)


def schema() -> Iterator[Check]:
    """The schema refuses what isn't a document."""
    if not HAS_SCHEMAS:
        left_out("the schema", "python3-jsonschema isn't installed")
        return
    checker = Draft202012Validator(json.loads(SCHEMA.read_text(encoding="utf-8")))
    Draft202012Validator.check_schema(checker.schema)
    good = document(TEXTS[9][1])
    for name, bad in (("another form", {**good, "form": "image"}),
                      ("no version", {"form": "verdict", "content": good["content"]}),
                      ("another kind", json.loads(json.dumps(good).replace('"true", "epoch"', '"odd", "epoch"')))):
        try:
            checker.validate(bad)
            wrong = "is taken"
        except ValidationError:
            wrong = None
        yield f"the schema: {name}", wrong


def printed(program: str | Path, words: list[str], text: str) -> str | None:
    """What a program prints, or None where it refuses."""
    try:
        return call(program, words, text, (0, 1, 4))
    except Stopped:
        return None


def examples(command: list[str]) -> Iterator[Check]:
    """All examples, and what the programs print of them."""
    found = {name: beside(command, name) for name in ("why", "replay", "gain", "depends")}
    programs = {name: path for name, path in found.items() if path and path.is_file()}
    for name in ("why", "replay", "gain", "depends"):
        if name not in programs:
            left_out(f"what {name} prints", "it wasn't built beside the program that is tested")
    for path in sorted((ROOT / "examples").glob("*.image")):
        text = path.read_text()
        image = read_image(text)
        told = json.loads(json.dumps(document(text)))
        yield (f"{path.name}: the image",
               None if content_of(told) == image == read_image(image.text()) else "is another after JSON")
        seq = printed(command[0], command[1:], text)
        yield (f"{path.name}: the report of its text",
               None if printed(command[0], command[1:], image.text()) == seq else "is another")
        run = printed(command[0], [*command[1:-1], "run", "--cores", "4", "--trace"], text)
        if seq is None or run is None:
            yield f"{path.name}: what it prints", "is refused"
            continue
        yield f"{path.name}: its report", wrong_with("output", seq)
        yield f"{path.name}: a run", wrong_with("output", run)
        traced = with_trace(image.text(), there(read_output(run).trace))
        yield f"{path.name}: its trace", wrong_with("traced", traced)
        yield f"{path.name}: its verdict", wrong_with("verdict", printed(command[0], [*command[1:-1], "audit"], traced))
        if "why" in programs:
            yield f"{path.name}: its conflicts", wrong_with("conflicts", printed(programs["why"], [], traced))
        if "replay" in programs:
            yield (f"{path.name}: every schedule",
                   wrong_with("survey", printed(programs["replay"], ["all", "plain", "2", "6"], text)))
            again = Programs(programs["replay"].parent).retrace(traced, "caches")
            yield f"{path.name}: its trace taken again", None if again == read_output(run) else "is another"
            yield f"{path.name}: its turns", wrong_with("steps",
                                                        printed(programs["replay"], ["steps", "caches"], traced))
            yield (f"{path.name}: a run at even speed",
                   wrong_with("output", printed(programs["replay"], ["even", "caches", "4"], text)))
        if "gain" in programs:
            yield f"{path.name}: its gains", wrong_with("gains", printed(programs["gain"], ["4"], text))
        if "depends" in programs:
            yield f"{path.name}: its dependences", wrong_with("dependences", printed(programs["depends"], ["4"], text))


def main() -> int:
    script = Script()
    script.run(by_hand, in_pieces, refused_back, packages, schema, partial(examples, script.command()))
    return script.ended()


if __name__ == "__main__":
    sys.exit(main())
