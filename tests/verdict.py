#!/usr/bin/env python3
"""Tests tools/verdict: first on outputs that were worked by hand, and then on the examples by the programs.

Usage: tests/verdict.py [COMMAND ..]

COMMAND is a command of `trace_cli` that ends with the word `seq`; `why`, `replay`, `gain` and `depends` are the
programs that were built beside it. Without it those of this repository are tested. The figures are those of a trial of
the schedule outside the programs. Where a program isn't built, or none compiles, a line says what is left out. Exits
with 1 where a check failed.
"""

import re
import sys
import tempfile
from collections.abc import Iterable, Iterator
from functools import partial
from pathlib import Path

from common import ROOT, Check, Script, beside, called_tool, differs, left_out

# What a check is of, and what is wrong or None
Results = Iterator[Check]
# Epoch 1 loads the word at 40 before epoch 0 stores it. On two cores the loop takes 8 steps, on one 12; epoch 1 loses
# 4.
IMAGE = ("# Two epochs, of which one waits.\n# flag 00000040 4\n# code 00000004 waits.c:7\n# code 00000014 waits.c:4\n"
         "size 256\nepochs 2\nlimit 50\n"
         "code 6308050083220004e38e02fe67800000930210002320500467800000\n")
RUN = ("turns 0 1 0 1 0 1 1 1\nend done 2\nat 00000040 01000000000000000000000000000000\ncounts 2 1 1 2\ntrace 2\n"
       "0 start 0\n1 start 1\n0 store 00000040 4 00000001\n"
       "1 load 00000040 4 00000000\n0 hurt 1\n0 commit\n1 restart\n1 load 00000040 4 00000001\n1 commit\n")
WHY = ("hurt 4 true epoch 1 try 1 core 1 lost 3 entered 2 since 2 by 0 core 0 cause 5 commit load 3 00000004 store 2 "
       "00000014 at 00000040 4\n"
       "kind true rollbacks 1 lost 3\ntotal epochs 2 committed 2 useful 8 rollbacks 1 lost 3 cancelled 0 dropped 0 "
       "open 0 unsettled 0\n")
ONE = ("store {} cores 1 steps 12 gain 1.00 useful 12 lost 0 dropped 0 waiting 0 idle 0 restarts 0 true 0 silent 0 "
       "false 0 buffer 0 nothomefree 0 noway 0 orbfull 0 "
       "orbbusy 0\n")
TWO = ("store {} cores 2 steps 10 gain 1.20 useful 12 lost 4 dropped 0 waiting 0 idle 4 restarts 1 true 1 silent 0 "
       "false 0 buffer 0 nothomefree 0 noway 0 orbfull 0 "
       "orbbusy 0\n")
LARGE = "caches:line=16,sets=64,ways=4,buffer=16"
GAIN = "".join(line.format(store) for store in ("caches", LARGE, "plain") for line in (ONE, TWO))
CACHES = "The caches have 4 sets of 2 ways with lines of 16 bytes, and buffers of 4 lines."
# What `gain` prints where the load at 4 waits, and what is told then.
HELD = TWO.replace("steps 10 gain 1.20", "steps 9 gain 1.33").replace("waiting 0 idle 4", "waiting 0 held 2 idle 0")
WAITS = " Where one load waits until its epoch is the first, it gains 1.33 at waits.c:7."
# What `gain --held` prints below the run on two cores, and what is told then.
ALL_HELD = HELD.replace("store", "held", 1).replace("steps 9 gain 1.33", "steps {} gain {}")
HELD_ROWS = [("8", "1.50", "it gains 1.50."), ("13", "0.92", "it loses, a gain of 0.92."), ("10", "1.20", ""),
             ("8", "-", "")]
# What `gain` prints where bytes lie apart, and such bytes with what is told then.
APART = "caches:line=16,sets=4,ways=2,buffer=4,apart="
PARTED = (ONE + TWO.replace("steps 10 gain 1.20", "steps 7 gain 1.71")).replace("{}", "{0}")
PIECES = [("# flag 00000040 4", "00000040:4:4", "4 bytes of flag"),
          ("# flags 0000003e 5", "0000003c:8:4", "4 bytes of flags"),
          ("# other 00000080 4", "00000040:16:4", "4 bytes of 00000040")]
HOLDS = " Where each load waits for the earlier epochs that store to its line, "
# What `gain --costs bus=N` prints of two cores.
COSTED = (TWO.replace("useful 12", "order 20 busy 8 handling 4 memory 0 queue 0").format("caches")
          .replace("steps 10", "steps $steps"))
# What `gain --limits` prints below that on two cores, and what is told then.
LIMITS = "limit cores 1 forward 12 commit 12\nlimit cores 2 forward {} commit {}\n"
ALLOWED = [
    (8, 10, " Its dependences allow 1.20 on 2 cores where a load waits for the commit of the epoch that it depends on, "
            "and 1.50 where it gets the value as soon as it is stored."),
    (7, 8, " Its dependences allow 1.50 on 2 cores where a load waits for the commit of the epoch that it depends on, "
           "and 1.71 where it gets the value as soon as it is stored."),
    (8, 8, " Its dependences allow 1.50 on 2 cores."),
    (9, 9, ""),         # 1.33, less than a fifth above 1.20
]
# Up to which cost two cores take fewer steps than in order, at which their history is full, and what is told then.
EACH = " each miss, upgrade, begin, restart, commit and published line costs"
EVENS: list[tuple[int, list[int], str]] = [
    (60, [], f"{EACH} 60 steps more, it takes fewer steps than the loop in order, and no higher cost was tried. What"),
    (3, [], f"{EACH} 3 steps more, it takes fewer steps than the loop in order; at higher costs, up to 60, it doesn't. "
            "What"),
    (1, [], f"{EACH} 1 step more, it takes fewer steps than the loop in order; at higher"),
    (0, [], f" Where{EACH} 1 to 60 steps more, it takes no fewer steps than the loop in order. What"),
    (0, [1], "than the loop in order, but at 1 its history is full, so that isn't known. What"),
    (-1, [], f" Whatever{EACH}, up to 60 steps, it takes no fewer steps than the loop in order. What"),
    (3, [40], "; at higher costs, up to 60, it doesn't, but at 40 its history is full, so that isn't known. What"),
    (3, [60, *range(5, 25)], "it doesn't, but at 21 of these costs, between 5 and 60, its history is full, so that "
                             "isn't known. What"),
    (59, [60], " costs 59 steps more, it takes fewer steps than the loop in order; at higher costs, up to 60, it "
               "doesn't, but at 60 its history is full, so that isn't known. What"),
    (-1, [7, 8], "than the loop in order, but at 2 of these costs, between 7 and 8, its history is full, so that isn't "
                 "known. What"),
]
PAYS = f" Where{EVENS[0][2].removesuffix(' What')}"
# How many steps it takes on one core, further words, and whether costs are tried then.
SHORT: list[tuple[str, list[str], bool]] = [
    ("steps 20000", [], True), ("steps 20001", [], False), ("full", [], False),
    ("steps 20001", ["--even-at"], True), ("full", ["--even-at"], True)]
UNTRIED = (" Up to which cost of communication it gains wasn't tried, since that takes up to 61 runs and on one core "
           "{}: --even-at asks for it. What holds")
LARGER = " With 64 sets of 4 ways with lines of 16 bytes, and buffers of 16 lines, it gains {}"
SAID = ("waits gains 1.20 on 2 cores at even speed: 10 steps in place of 12. Over a plain store of bytes it gains "
        f"1.20. {CACHES} Of all steps 60 % are useful, 20 % are lost and "
        f"20 % are idle.{WAITS}{HOLDS}{HELD_ROWS[0][2]}{PAYS} What holds it back over a plain store already: 1 "
        "rollback by true sharing lost 3 instructions. "
        "3 instructions where the store at waits.c:4 hits the "
        "load at waits.c:7 at flag: it usually helps to wait for flag, or let each epoch keep its own and put them "
        "together at the end. In 20 % of the steps cores have no "
        "epoch: the loop has 2; it usually helps to have more, or shorter ones. What helps is advice, and no claim.")
FURTHER = f"{WAITS}{HOLDS}{HELD_ROWS[0][2]}{PAYS}"
# The run ends in a fault of its last epoch, at the load or behind it.
FAULTS = {
    "5 00000004": "at waits.c:7, 00000004, with cause 5, an address that is no multiple of the access's width.",
    "8 00000008": "at 00000008, behind waits.c:7, with cause 8, more instructions than the limit allows.",
    "3 00000400": "at 00000400, with cause 3, a jump out of the code.",
}
# Epochs of eight instructions that load a word, compute and store it: where in them, by four forms, and what is told.
LOAD, LOAD_THERE, ADD, STORE, NOTHING = "83220004", "83a20200", "93821200", "23205004", "13000000"
CLEAR, AROUND = "93020000", "63040000"          # addi x5,x0,0; beq x0,x0,8
WORD = "# Four epochs.\n# total 00000040 4\nsize 256\nepochs 4\nlimit 50\ncode {}67800000\n"
FORMS = [
    ([NOTHING] * 4 + [LOAD, ADD, STORE], "load 00000010", "1 1",
     "It looks like a reduction: each epoch changes total at its end"),
    ([LOAD, ADD, STORE] + [NOTHING] * 4, "load 00000000", "1 1",
     "It looks like an induction: each epoch changes total near its start"),
    ([LOAD, LOAD_THERE, STORE] + [NOTHING] * 4, "load 00000000", "1 1",
     "It looks like the walk of a list: each epoch finds in total"),
    ([LOAD, AROUND] + [NOTHING] * 3 + [ADD, STORE], "load 00000000", "1 1",
     "It looks like a recurrence: each epoch reads total early and changes it late"),
    ([LOAD, CLEAR] + [NOTHING] * 4 + [STORE], "load 00000000", "1 1",
     "It looks like a recurrence: an epoch needs what the one before it makes"),
    ([LOAD] + [NOTHING] * 5 + [STORE], "load 00000000", "1 3", "Each epoch reads total, and some change it"),
]
NEVER = "never caches 8\nnever plain 8\n"
MEETS = "from {} {} epoch 1 load 00000004 by epoch 0 store 00000014\nturns 0 1 0\n"
DEP = ("dep store 00000014 load 00000004 times {} distance {} at {} first 0 1 stored {} loaded {}\n")
# What `depends` prints of the loop above, and what is told then.
FLOWS = [
    (NEVER, "No schedule on up to 8 cores can roll this loop back (proved). What holds it back"),
    (MEETS.format("caches", 2) + "never plain 8\n",
     "Over caches a schedule rolls it back from 2 cores on; over a plain store of bytes none on up to 8 cores does "
     "(proved). In order no "
     "epoch reads what another one stores: what rolls back are lines that they share."),
    ("open caches 2\nnever plain 8\n",
     "Over caches epochs conflict from 2 cores on, but no schedule that rolls back is known; over a plain store of "
     "bytes none on up to "
     "8 cores does (proved). What holds it back"),
    (DEP.format(1, "1 1", "00000040 1", "2 of 4", "1 of 4") + MEETS.format("caches", 2) + MEETS.format("plain", 2),
     "A schedule rolls it back over caches from 2 cores on, and over a plain store of bytes too. What an epoch needs "
     "earliest of another: "
     "the load at waits.c:7 reads, after 1 of 4 instructions, what the store at waits.c:4 left after 2 of 4, 1 epoch "
     "before; 1 time "
     "in all, at flag. It looks like a recurrence: an epoch needs what the one before it makes; it usually helps to "
     "load it later, or "
     "to store it earlier. What holds it back over a plain store already: 1 rollback by true sharing lost 3 "
     "instructions. 3 "
     "instructions where the store at waits.c:4 hits the load at waits.c:7 at flag. In 20 %"),
    (DEP.format(4, "2 5", "00000040 13", "2 of 4", "1 of 4") + MEETS.format("caches", 2) + MEETS.format("plain", 3),
     "A schedule rolls it back over caches from 2 cores on, and over a plain store of bytes from 3. What "
     "epochs need of one another is at least 2 epochs apart, so it holds nothing back on up to 2 cores. What holds it "
     "back"),
]
# What holds back six loops whose epochs wait for ways of full sets, by how they were written: the place, and the lines
# of the store and of the load.
HIDDEN = {
    "cipher": ("state+48", "state[12] += 1", "x[i] = state[i]"),
    "diffusion": ("carried", "carried[0] = left", "left = carried[0]"),
    "blocks": ("unused", "unused = (epoch", "mine = unused"),
    "product": ("total", "total[0] += sum", "total[0] += sum"), "count": ("ways", "ways += 1", "ways += 1"),
    "words": ("used", "used = first + count", "first = used"),
}
# What their dependences look like, told where `depends` is built.
SHAPES = {
    "cipher": "a recurrence: each epoch reads state+48 early",
    "diffusion": "a recurrence: each epoch reads carried early",
    "blocks": "a recurrence: each epoch reads unused early",
    "product": "a reduction: each epoch changes total at its end",
    "count": "a reduction: each epoch changes ways again and again",
    "words": "a recurrence: each epoch reads used early",
}
NEIGHBOURS = ("unsigned out[64] __attribute__((aligned(16)));\nvoid body(unsigned e)\n{\n    unsigned s = e;\n"
              "    for (unsigned i = 0; i < 20; i++) {\n        s = s * 5 + i;\n"
              "        out[e] += s;\n    }\n}\n")
# Of an example on four cores: words of its verdict.
EXAMPLES = {"histogram": ["gains 2.28 on 4 cores", "plain store of bytes it gains 3.25",
                          "hits the load at 00000018 at bins+4 and bins+20",
                          f"{HOLDS}it gains 3.42.", "line costs 3 steps more, it takes fewer"],
            "own_counters": ["gains 1.08 on 4 cores", "428 steps in place of 464",
                             "plain store of bytes it gains 4.00. So the caches cost most of what there is to gain",
                             "27 % are useful, 64 % are lost and 9 % are idle",
                             "42 rollbacks by false sharing lost 1,050 instructions",
                             "give counter, counter+4, counter+8 and counter+12 lines of 16 bytes of their own",
                             "With a line of its own for each 4 bytes of counter it gains 4.00.",
                             f"{HOLDS}it gains 1.29."],
            "padded_counters": ["gains 4.00 on 4 cores", "Nothing holds it back."],
            "list_walk": ["loses on 4 cores at even speed, a gain of 0.99", "18 rollbacks by true sharing lost",
                          f"{HOLDS}it gains 1.00."],
            "queens": ["gains 1.39 on 4 cores", "wait for a way in a full set"]}

# What is told besides where `depends` is built.
FLOWING = {
    "histogram": ["A schedule rolls it back over caches from 2 cores on, and over a plain store of bytes from 3.",
                  "7 times in all, at bins. It joins epochs 2 to 9 apart, as where data decide"],
    "own_counters": ["over caches from 2 cores on, and over a plain store of bytes from 5.",
                     "at least 4 epochs apart, so it holds nothing back on up to 4 cores"],
    "padded_counters": ["A schedule rolls it back over caches from 5 cores on, and over a plain store of bytes too."],
    "list_walk": ["after 0 of 200 instructions, what the store at 00000014 left after 5 of 200, 1 epoch before; 4 "
                  "times in all, at cursor. It looks like "
                  "the walk of a list"],
    "queens": ["No schedule on up to 8 cores can roll this loop back (proved)."],
}


def stub(folder: Path | str, name: str, output: str, error: str = "", status: int = 0) -> None:
    """A program that prints this, whatever it is given."""
    path = Path(folder, name)
    path.write_text(f"#!/bin/sh\ncat >/dev/null\ncat <<'END'\n{output}END\n"
                    + (f"echo '{error}' >&2\n" if error else "") + f"exit {status}\n")
    path.chmod(0o755)


def verdict(folder: Path | str, image: Path, *words: str | Path) -> tuple[str, str, int]:
    """What the tool prints, on one line, with the programs of a folder; its error line and its status."""
    done = called_tool("verdict", image, *words, env={"PATH": "/usr/bin:/bin", "LOOPS_PROGRAMS": str(folder)})
    return " ".join(done.stdout.split()), done.stderr, done.returncode


def stub_gain(folder: Path | str, output: str, waiting: str = ONE + HELD, held: str | None = None,
              at: int = 60, full: Iterable[int] = (), bytes_apart: str = "") -> None:
    """A `gain` that prints one of these: of one of two loads, over caches, that waits; of each load that waits; where
    these bytes lie apart, seven steps; and where actions cost something, that it takes fewer steps than in order up to
    such a cost, with full histories at others."""
    held = (ONE + ALL_HELD).format("caches", "caches", *HELD_ROWS[0][:2]) if held is None else held
    path = Path(folder, "gain")
    path.write_text(
        "#!/bin/sh\ncat >/dev/null\ncost=${*##*=}\ncase \"$*\" in\n"
        "'2 caches --wait 00000004'|'2 caches --wait 00000008') "
        f"cat <<'END'\n{waiting.format('caches', 'caches')}END\n;;\n"
        f"'2 {APART}{bytes_apart}') cat <<'END'\n{PARTED.format(APART + bytes_apart)}END\n;;\n*apart=*) exit 9 ;;\n"
        f"'2 caches --held') cat <<'END'\n{held}END\n;;\n'2 caches --costs bus='*)\n"
        f"case ' {' '.join(map(str, full))} ' in *\" $cost \"*) echo store caches cores 2 full; exit 0 ;; esac\n"
        f"if [ \"$cost\" -le {at} ]; then steps=19; else steps=20; fi\necho \"{COSTED.rstrip()}\" ;;\n"
        f"*--wait*|*--held*|*--costs*|*--even-at*) exit 9 ;;\n*) cat <<'END'\n{output}END\nesac\n")
    path.chmod(0o755)


def tries(folder: Path | str, image: Path) -> Results:
    """What it gains where each load waits, and up to which cost of communication."""
    for steps, gain, said in HELD_ROWS:
        stub_gain(folder, GAIN, held=(ONE + ALL_HELD).format("caches", "caches", steps, gain))
        got = verdict(folder, image, "--cores", "2")
        told = SAID.replace(f"{HOLDS}{HELD_ROWS[0][2]}", f"{HOLDS}{said}" if said else "")
        yield f"each load waits: {steps} steps, a gain of {gain}", differs(got, (told, "", 0))
    stub_gain(folder, GAIN)
    stub(folder, "why", WHY.partition("\n")[0].replace("load 3 00000004", "load 3 00000008") + "\n" + WHY)
    image.write_text(IMAGE.replace("# code 00000014", "# code 00000008 waits.c:7\n# code 00000014"))
    got = verdict(folder, image, "--cores", "2")
    said = "the first, it gains 1.33 at waits.c:7 (00000004) and 1.33 at waits.c:7 (00000008)."
    yield "two loads of one line", None if said in got[0] and got[1:] == ("", 0) else f"got {got}"
    stub(folder, "why", WHY)
    image.write_text(IMAGE)
    stub_gain(folder, GAIN, held="held caches cores 1 full\nheld caches cores 2 full\n")
    got = verdict(folder, image, "--cores", "2")
    yield ("full where each load waits",
           differs(got, (SAID.replace(HELD_ROWS[0][2], "its history is full."), "", 0)))
    stub(folder, "why", WHY.replace("true", "false"))
    for variable, pieces, said in PIECES:
        stub_gain(folder, GAIN, bytes_apart=pieces)
        image.write_text(IMAGE.replace("# flag 00000040 4", variable))
        got = verdict(folder, image, "--cores", "2")
        told = f"waits.c:7. With a line of its own for each {said} it gains 1.71. Where each"
        yield f"{variable} apart", None if told in got[0] and got[1:] == ("", 0) else f"got {got}"
    stub(folder, "why", WHY)
    image.write_text(IMAGE)
    for at, full, said in EVENS:
        stub_gain(folder, GAIN, at=at, full=full)
        got = verdict(folder, image, "--cores", "2")
        yield f"costs up to {at}, full at {full}", None if said in got[0] and got[1:] == ("", 0) else f"got {got}"
    for one, words, is_tried in SHORT:
        line = f"store caches cores 1 {one}" + ("" if one == "full" else ONE.partition("steps 12")[2].rstrip()) + "\n"
        stub_gain(folder, GAIN.replace(ONE.format("caches"), line).replace("gain 1.20", "gain -" if one == "full"
                                                                           else "gain 1.20"))
        got = verdict(folder, image, "--cores", "2", *words)
        takes = "its history is full" if one == "full" else "it takes 20,001 steps, more than 20,000"
        right = (PAYS in got[0], UNTRIED.format(takes) in got[0]) == (is_tried, not is_tried)
        yield f"on one core {one}, {words}", None if right and got[1:] == ("", 0) else f"got {got}"


def by_hand(folder: Path | str) -> Results:
    """(what it shows, what is wrong or None)"""
    image = Path(folder, "waits.image")
    image.write_text(IMAGE)
    stub_gain(folder, GAIN)
    for name, output in (("replay", RUN), ("why", WHY)):
        stub(folder, name, output)
    Path(folder, "replay").write_text("#!/bin/sh\n[ \"$2\" != plain ] || { echo 'stopped HistoryFull' >&2; exit 3; }\n"
                                      f"cat <<'END'\n{RUN}END\n")
    got = verdict(folder, image, "--cores", "2")
    yield ("a history over the plain store that is longer than a trace",
           None if got == (SAID.replace(" over a plain store already", ""), "", 0) else f"got {got}")
    stub(folder, "replay", RUN)
    for words, ending, status in ((list[str](), "", 0),
                                  (["--max-lost", "20", "--min-gain", "1.2"], " Within the limits.", 0),
                                  (["--max-lost", "19"],
                                   " Past the limits: 20.0 % of the steps are lost, more than 19 %.", 5),
                                  (["--min-gain", "1.5"], " Past the limits: it gains 1.20, less than 1.50.", 5)):
        got = verdict(folder, image, "--cores", "2", *words)
        yield f"the verdict {words}", None if got == (SAID + ending, "", status) else f"got {got}"
    for forward, commit, said in ALLOWED:
        stub_gain(folder, GAIN + LIMITS.format(forward, commit))
        got = verdict(folder, image, "--cores", "2")
        yield (f"what its dependences allow: {forward} and {commit} steps",
               None if got == (SAID.replace(" are idle.", f" are idle.{said}"), "", 0) else f"got {got}")
    yield from tries(folder, image)
    stub_gain(folder, GAIN.replace(ONE.format("caches"), "store caches cores 1 full\n").replace("gain 1.20", "gain -")
              + LIMITS.format(8, 10))
    got = verdict(folder, image, "--cores", "2", "--min-gain", "1.5")
    yield "full on one core", None if "so what it gains isn't known" in got[0] and got[2] == 5 else f"got {got}"
    stub_gain(folder, GAIN, "store {} cores 1 full\nstore {} cores 2 full\n")
    got = verdict(folder, image, "--cores", "2")
    yield "full where the load waits", differs(got, (SAID.replace(WAITS, ""), "", 0))
    stub_gain(folder, GAIN, ONE + HELD.replace("gain 1.33", "gain -"))
    got = verdict(folder, image, "--cores", "2")
    yield "what it gains isn't known where the load waits", differs(got, (SAID.replace(WAITS, ""), "", 0))
    stub_gain(folder, GAIN.replace(TWO.format("caches"), TWO.format("caches").replace("lost 4", "lost 0").replace(
        "idle 4", "idle 8")), "no line\n")
    got = verdict(folder, image, "--cores", "2")
    yield "where nothing is lost no wait is tried", differs((WAITS[:20] in got[0], got[1:]), (False, ("", 0)))
    stub(folder, "gain", GAIN.replace(TWO.format("caches"), "store caches cores 2 full\n"))
    got = verdict(folder, image, "--cores", "2")
    yield "full on these cores", None if got == ("", "stopped HistoryFull\n", 3) else f"got {got}"
    stub(folder, "gain", "", error="image 3 BadSize", status=2)
    got = verdict(folder, image)
    yield "a refused image", None if got == ("", "image 3 BadSize\n", 2) else f"got {got}"
    for fault, where in FAULTS.items():
        stub(folder, "gain", GAIN)
        stub(folder, "replay",
             RUN.replace("end done 2", f"end fault 1 {fault}").replace("1 commit\n", f"1 fault {fault}\n"), status=1)
        got = verdict(folder, image, "--cores", "2", "--min-gain", "1")
        said = (f"waits ends in a fault: end fault 1 {fault.split()[0]}: epoch 1 stops {where} What it would gain "
                "isn't told.")
        yield f"a fault {fault}", None if got == (said, "", 6) else f"got {got}"
    stub(folder, "replay", RUN)
    stub_gain(folder, GAIN.replace("steps 10 gain 1.20", "steps 15 gain 0.80"))
    got = verdict(folder, image, "--cores", "2")
    said = ("waits loses on 2 cores at even speed, a gain of 0.80: 15 steps in place of 12. Over a plain store of "
            "bytes it loses, a gain of 0.80.")
    yield "a loss", None if got[0].startswith(said) and got[1:] == ("", 0) else f"got {got}"
    got = verdict(folder, Path(folder, "none.image"))
    yield "no image", None if got[0] == "" and got[1].startswith("verdict: ") and got[2] == 2 else f"got {got}"


# Of a machine by its sets what the loop gains, where it gains 4.00 over a plain store and 1.10 over the version's
# caches; and what is told of it.
BY_SETS = [
    ({64: 4.00, 4: 1.10, 8: 1.20, 16: 3.90, 32: 4.00},
     LARGER.format("4.00") + ". Of caches of 4 ways, the first that gain as much as the plain store, within 5 %, have "
     "16 sets, 64 lines. Of all steps"),
    ({64: 4.00, 4: 1.10, 8: 1.20, 16: 1.30, 32: 3.79}, " within 5 %, have 64 sets, 256 lines. Of all"),
    ({64: 2.00, 1024: 4.00, 128: 2.00, 256: 3.81},
     LARGER.format("2.00") + ". Of caches of 4 ways, the first that gain as much as the plain store, within 5 %, have "
     "256 sets, 1,024 lines."),
    ({64: 2.00, 1024: 4.00, 128: 2.00, 256: 3.00, 512: 3.50}, " have 1,024 sets, 4,096 lines."),
    ({64: 1.12, 1024: 1.12},
     f"{CACHES} No caches of 4 ways up to 1,024 sets gain as much as the plain store: what they cost isn't for want of "
     "room. Of all"),
    ({64: 1.02, 1024: 1.02}, LARGER.format("1.02") + ": it hangs on the size of the caches. No caches"),
]


def gain_by_sets(folder: Path | str, gains: dict[int, float]) -> None:
    """A `gain` that is asked of machines by their sets; of others it knows nothing. On one core the loop takes so many
    steps that no costs are tried."""
    one = ONE.replace("steps 12", "steps 20001")
    lines = {f"sets={sets},": TWO.format("$word").replace("gain 1.20", f"gain {gain:.2f}")
             for sets, gain in gains.items()}
    lines |= {"caches": TWO.format("caches").replace("gain 1.20", "gain 1.10"),
              "plain": TWO.format("plain").replace("gain 1.20", "gain 4.00")}
    cases = "".join(f"{'*' * (key[-1] == ',')}{key}{'*' * (key[-1] == ',')}) "
                    f"store=$word; echo \"{one.format('$word')}{line.rstrip()}\" ;;\n"
                    for key, line in lines.items())
    path = Path(folder, "gain")
    cases += (f"--held) echo \"{ALL_HELD.format('$store', *HELD_ROWS[0][:2]).rstrip()}\" ;;\n"
              "--limits|--wait|00000004) ;;\n")
    path.write_text(f"#!/bin/sh\ncat >/dev/null\nshift\nfor word; do\ncase $word in\n{cases}*) exit 9 ;;\nesac\ndone\n")
    path.chmod(0o755)


def sizes(folder: Path | str) -> Results:
    """Whether it hangs on the size of the caches, and which ones gain as much as the plain store: no other size is
    tried than is told here."""
    image = Path(folder, "waits.image")
    image.write_text(IMAGE)
    for name, output in (("replay", RUN), ("why", WHY)):
        stub(folder, name, output)
    for gains, said in BY_SETS:
        gain_by_sets(folder, gains)
        got = verdict(folder, image, "--cores", "2")
        yield f"by the sets: {gains}", None if said in got[0] and got[1:] == ("", 0) else f"got {got}"
    gain_by_sets(folder, {64: 1.15, 1024: 4.00, 128: 3.90, 256: 1.00})
    got = verdict(folder, image, "--cores", "2", "--store", "caches:sets=256,buffer=5")
    said = ("The caches have 256 sets of 2 ways with lines of 16 bytes, and buffers of 5 lines, as "
            "caches:sets=256,buffer=5 asks. Of all")
    yield "as many lines as large caches", None if said in got[0] and got[1:] == ("", 0) else f"got {got}"
    for word, wrong in (("plain", "it gains over the plain store"), ("caches:sets=3", "names no store")):
        got = verdict(folder, image, "--store", word)
        yield (f"refused: {word}",
               None if got[0] == "" and wrong in " ".join(got[1].split()) and got[2] == 2 else f"got {got}")


def flows(folder: Path | str) -> Results:
    """What `depends` adds, where it is there: whether anything can roll back, and what an epoch needs earliest of
    another."""
    image = Path(folder, "waits.image")
    image.write_text(IMAGE)
    stub_gain(folder, GAIN)
    for name, output in (("replay", RUN), ("why", WHY)):
        stub(folder, name, output)
    for output, said in FLOWS:
        stub(folder, "depends", output)
        got = verdict(folder, image, "--cores", "2")
        told = said.replace(" What holds it back", f"{FURTHER} What holds it back")
        yield (f"told of {output[:40]!r}",
               None if f" are idle. {told}" in got[0] and got[1:] == ("", 0) else f"got {got}")
    for code, load, distance, said in FORMS:
        image.write_text(WORD.format("".join(code)))
        place = int(load.split()[1], 16) // 4
        text = DEP.format(3, distance, "00000040 1", f"{code.index(STORE)} of 8", f"{place} of 8")
        text = text.replace("load 00000004", load).replace("store 00000014", f"store {4 * code.index(STORE):08x}")
        stub(folder, "depends", text + MEETS.format("caches", 2) + MEETS.format("plain", 2))
        got = verdict(folder, image, "--cores", "2")
        yield (f"a shape: {said}",
               None if f"3 times in all, at total. {said}" in got[0] and got[1:] == ("", 0) else f"got {got}")
    stub(folder, "depends", "", error="stopped NoMemory", status=3)
    got = verdict(folder, image, "--cores", "2")
    yield "depends is stopped", None if got == ("", "stopped NoMemory\n", 3) else f"got {got}"
    Path(folder, "depends").unlink()


def line_of(text: str, words: str) -> int:
    return 1 + next(place for place, line in enumerate(text.splitlines()) if words in line)


def compiled(folder: Path | str, source: Path, compiler: str, *words: str) -> Path | None:
    """The image of a source with lines, or None where something isn't installed."""
    done = called_tool("image-of", "--compiler", compiler, "-g", *words, source)
    if done.returncode:
        return None
    path = Path(folder, f"{source.stem}.image")
    path.write_text(done.stdout)
    return path


def hidden(folder: Path | str) -> Results:
    """What holds a loop back is told first, at its line and its byte, though its epochs wait for the caches in most of
    their steps."""
    for compiler in ("gcc", "clang"):
        for name, (place, store, load) in HIDDEN.items():
            source = ROOT / "tests" / "verdicts" / f"{name}.c"
            image, text = compiled(folder, source, compiler), source.read_text()
            if image is None:
                left_out(f"verdicts on tests/verdicts by {compiler}", "tools/image-of lacks something")
                break
            got = verdict(folder, image)
            first = f"hits the load at {name}.c:{line_of(text, load)} at {place}"
            pattern = (r"What holds it back over a plain store already: \d+ rollbacks?,? [^.]*lost [\d,]+ "
                       r"instructions\. [\d,]+ instructions where the store at "
                       rf"{name}\.c:{line_of(text, store)} {re.escape(first)}(: it usually helps to|\.)")
            ways = ("What the caches add: " in got[0]
                    and "wait for a way in a full set" in got[0].partition("What the caches add: ")[2])
            shape = not Path(folder,
                             "depends").exists() or f" in all, at {place}. It looks like {SHAPES[name]}" in got[0]
            yield (f"the verdict on {name} by {compiler}", None if re.search(pattern, got[0]) and ways and shape
                   and got[1:] == ("", 0) else f"got {got}")


def chunks(folder: Path | str) -> Results:
    """Neighbours of an array that share lines: so many iterations an epoch are proposed, and with the words of image-of
    measured."""
    source = Path(folder, "neighbours.c")
    source.write_text(NEIGHBOURS)
    for compiler in ("gcc", "clang"):
        words = ["--epochs", "64", "--stack", "64"]
        image = compiled(folder, source, compiler, *words)
        if image is None:
            left_out(f"the verdict on neighbours by {compiler}", "tools/image-of lacks something")
            continue
        proposed = ("were lost where epochs use neighbours in out, 4 bytes apart, that share lines of 16 bytes: it "
                    "usually helps to give an epoch 4 iterations, as image-of --chunk 4 does")
        got = verdict(folder, image)
        yield (f"a chunk is proposed by {compiler}", None if f"{proposed}; behind -- the words" in got[0]
               and got[1:] == ("", 0) else f"got {got}")
        got = verdict(folder, image, "--", "--compiler", compiler, *words, source)
        found = re.search(rf"{proposed}\. Measured so, it takes ([\d,]+) steps and not ([\d,]+), a gain of", got[0])
        chunked, alone = [int(one.replace(",", "")) for one in found.groups()] if found else (1, 1)
        yield f"a chunk is measured by {compiler}", None if 2 * chunked < alone and got[1:] == ("", 0) else f"got {got}"


def chunk_of_a_program(folder: Path | str) -> Results:
    """The same of a loop of a program: tools/loops-of is proposed, and measured with its words."""
    source, image = Path(folder, "program.c"), Path(folder, "program.image")
    source.write_text(NEIGHBOURS + "int main(void)\n{\n    for (unsigned e = 0; e < 64; e++)\n        body(e);\n"
                                   "    return 0;\n}\n")
    words = ["--loop", f"program.c:{line_of(source.read_text(), 'for (unsigned e = 0')}", str(source)]
    done = called_tool("loops-of", *words, env={"PATH": "/usr/bin:/bin", "LOOPS_PROGRAMS": str(folder)})
    if done.returncode:
        left_out("the verdict on neighbours in a program", "tools/loops-of lacks something")
        return
    image.write_text(done.stdout)
    got = verdict(folder, image, "--", *words)
    proposed = ("4 bytes apart, that share lines of 32 bytes: it usually helps to give an epoch 8 iterations, as "
                "loops-of --chunk 8 does")
    found = re.search(rf"{proposed}\. Measured so, it takes ([\d,]+) steps and not ([\d,]+), a gain of", got[0])
    chunked, alone = [int(one.replace(",", "")) for one in found.groups()] if found else (1, 1)
    yield ("a chunk of a program's loop is measured", None if 2 * chunked < alone and got[1:] == ("", 0)
           else f"got {got}")


def examples(folder: Path | str, command: list[str]) -> Results:
    """The verdicts on examples, by the programs."""
    found = {name: beside(command, name) for name in ("why", "replay", "gain", "depends")}
    programs = {name: path for name, path in found.items() if path and path.is_file()}
    if not {"why", "replay", "gain"} <= set(programs):
        left_out("the examples", "why, replay or gain wasn't built beside the program that is tested")
        return
    if "depends" not in programs:
        left_out("what verdicts tell of depends", "it wasn't built beside the program that is tested")
    for name, path in {**programs, "trace_cli": Path(command[0]).resolve()}.items():
        Path(folder, name).unlink(missing_ok=True)
        Path(folder, name).symlink_to(path)
    for name, wanted in EXAMPLES.items():
        got = verdict(folder, ROOT / "examples" / f"{name}.image")
        also = FLOWING[name] if "depends" in programs else []
        missing = [words for words in [*wanted, *also] if words not in got[0]]
        missing += [HOLDS] * ((HOLDS in got[0]) != (HOLDS in " ".join(wanted)))
        yield (f"the verdict on {name}", None if not missing and got[1:] == ("", 0)
               else f"got {got}, which lacks {missing}, or has it")
    got = verdict(folder, ROOT / "examples" / "own_counters.image", "--min-gain", "2")
    yield ("past the least gain", None if got[2] == 5 and got[0].endswith("it gains 1.08, less than 2.00.")
           else f"got {got}")
    got = verdict(folder, ROOT / "examples" / "fault.image")
    told = ("fault ends in a fault: end fault 3 2: epoch 3 stops at 00000008, with cause 2, ECALL or EBREAK. What it "
            "would gain isn't told.")
    yield "the verdict on fault", None if got == (told, "", 6) else f"got {got}"
    yield from hidden(folder)
    yield from chunks(folder)
    yield from chunk_of_a_program(folder)
    source, image = ROOT / "examples" / "c" / "own_counters.c", Path(folder, "own_counters.image")
    made = called_tool("image-of", "-g", source)
    if made.returncode:
        left_out("lines of the source", "tools/image-of lacks something")
        return
    image.write_text(made.stdout)
    stores, loads = (next(number for number, text in enumerate(source.read_text().splitlines(), 1)
                          if text.strip().startswith(begin))
                     for begin in ("counter[epoch", "unsigned old"))
    got = verdict(folder, image)
    yield ("the lines of the source", None if f"the store at own_counters.c:{stores} hits the load at "
                                              f"own_counters.c:{loads}" in got[0] else f"got {got}")


def main() -> int:
    script = Script()
    with tempfile.TemporaryDirectory() as folder:
        script.run(partial(by_hand, folder), partial(sizes, folder), partial(flows, folder),
                   partial(examples, folder, script.command()))
    return script.ended()


if __name__ == "__main__":
    sys.exit(main())
