#!/usr/bin/env python3
"""Tests tools/picture, tools/named and tools/trace, with stubs in the place of `why` and of `trace_cli`: nothing has to
be built.

Usage: tests/picture.py

The image, its trace and the report are worked by hand; the pictures are read back as XML and as JSON. Exits with 1
where a check failed.
"""

import json
import os
import subprocess
import sys
import tempfile
import xml.etree.ElementTree as xml
from collections.abc import Callable, Iterator
from functools import partial, wraps
from pathlib import Path
from typing import Any

from common import ROOT, Check, Script, called, called_tool
from why import attempts

SVG = "{http://www.w3.org/2000/svg}"
# Epoch 1 loads the word at 40 before epoch 0 stores it; epoch 0 publishes by its commit.
IMAGE = ("# Two epochs, of which one waits. And more.\n# flag 00000040 4\n# code 00000004 waits.c:7\nsize 256\nepochs "
         "2\nlimit 50\n"
         "code 6308050083220004e38e02fe67800000930210002320500467800000\n")
TRACE = ("trace 2\n0 start 0\n1 start 1\n0 store 00000040 4 00000001\n1 load 00000040 4 00000000\n0 hurt 1\n0 commit\n"
         "1 restart\n"
         "1 load 00000040 4 00000001\n1 commit\n")
REPORT = ("hurt 4 true epoch 1 try 1 core 1 lost 3 entered 2 since 2 by 0 core 0 cause 5 commit load 3 00000004 store "
          "2 00000014 at 00000040 4\n"
          "kind true rollbacks 1 lost 3\ntotal epochs 2 committed 2 useful 8 rollbacks 1 lost 3 cancelled 0 dropped 0 "
          "open 0 unsettled 0\n")
SENTENCE = ("epoch 1's load at 00000004 at waits.c:7 of 4 bytes at flag was hit by epoch 0's store at 00000014, "
            "committed; 3 instructions lost; true sharing")
BESIDE = REPORT.replace("true", "false")
FULL = REPORT.replace("true", "buffer").replace("since 2", "since -").replace("load 3 00000004 store 2 00000014",
                                                                              "held 3 00000004 asked 2 00000014")
SUMS = ("pair store 00000014 load 00000004 rollbacks 1 lost 3 true 1 silent 0 false 0 buffer 0 stale 1 vain 0 later 0 "
        "distance 1 1 at 00000040 4\n"
        "line 00000040 rollbacks 1 lost 3 true 1 silent 0 false 0 buffer 0\npc 00000004 victim 1 3 causer 0 0\npc "
        "00000014 victim 0 0 causer 1 3\n")
HURT, KIND, TOTAL = REPORT.splitlines(True)
# The instructions are `lw x5,64(x0)` and `sw x5,64(x0)`; only the first has a line in the source.
NAMED = (HURT.replace(" 4\n", " 4 flag\n")
         + "also 4 silent load 3 00000004 store 2 00000014 at 00000080 4 -\nvain 4 hurt\n# " + SENTENCE
         + "; in vain, since that epoch was undone itself\n"
         + SUMS.replace("00000040 4\n", "00000040 4 flag\n").replace("buffer 0\npc",
                                                                     "buffer 0\nname flag rollbacks 1 lost 3 true 1 "
                                                                     "silent 0 false 0 buffer 0\npc", 1)
         .replace("causer 0 0\n", "causer 0 0 waits.c:7 lw x5,64(x0)\n").replace("causer 1 3\n",
                                                                                 "causer 1 3 - sw x5,64(x0)\n") + KIND
         + TOTAL)
# What it shows, and whether it holds
Claim = tuple[str, bool]
BARE = REPORT.replace("true", "other").replace("load 3 00000004 store 2 00000014 at 00000040 4",
                                               "load - - store - - at - -")


def claims(part: Callable[[str], Iterator[Claim]]) -> Callable[[str], Iterator[Check]]:
    """Makes a part of a function of claims."""
    @wraps(part)
    def checks(folder: str) -> Iterator[Check]:
        return ((name, None if holds else "it isn't so") for name, holds in part(folder))
    return checks


def stub(folder: str | Path, name: str, output: str, error: str = "", status: int = 0) -> Path:
    """A program that prints this, whatever it is given."""
    path = Path(folder, name)
    path.write_text(f"#!/bin/sh\ncat >/dev/null\ncat <<'END'\n{output}END\n"
                    + (f"echo '{error}' >&2\n" if error else "") + f"exit {status}\n")
    path.chmod(0o755)
    return path


def picture(folder: str, report: str, *words: str, text: str = IMAGE + TRACE,
            **more: Any) -> subprocess.CompletedProcess[str]:
    lines = [f"attempt {head} done 0 {end}\n" for head, end in attempts(text[text.index("trace "):].splitlines()[1:])]
    why = stub(folder, "why", report + "".join(lines), **more)
    return called_tool("picture", "--why", why, *words, given=text)


def svg(folder: str, report: str, *words: str, text: str = IMAGE + TRACE) -> tuple[list[str], list[str]]:
    """All texts of a picture, and all its hover texts."""
    done = picture(folder, report, *words, text=text)
    root = xml.fromstring(done.stdout)
    return [text.text or "" for text in root.iter(f"{SVG}text")], [tip.text or "" for tip in root.iter(f"{SVG}title")]


@claims
def rows(folder: str) -> Iterator[Claim]:
    texts, tips = svg(folder, REPORT)
    yield ("the heading", "2 epochs on 2 cores: 1 rollback, 2 committed" in texts
           and "Two epochs, of which one waits." in texts)
    yield "what was lost", "3 attempts; 3 instructions lost to rollbacks" in texts
    yield "each attempt has its name", [text for text in texts if text.startswith("e")] == ["e0", "e1", "e1 try 2"]
    yield "the arrow tells the conflict", tips.count(SENTENCE) == 2 and "flag" in texts
    yield "the lost attempt", "epoch 1, try 1: violated, 3 instructions lost" in tips
    yield "the pair to blame", "3 of 3 lost, 1 rollback on flag (1 true)" in texts
    yield "the legend has the bars' words", any(text.endswith("(e5 try 3, e5 #3 or #3: the third try of epoch 5)")
                                                for text in texts)
    texts, tips = svg(folder, REPORT, text=IMAGE.replace("# Two", "# 2. Two") + TRACE)
    yield "a heading with a number in front", "2. Two epochs, of which one waits." in texts
    texts, tips = svg(folder, BESIDE,
                      text=IMAGE.replace("256\n", "256\n# mark 00000044 4\n")
                      + TRACE.replace("store 00000040", "store 00000044"))
    yield ("false sharing names both variables",
           "may help: give flag and mark lines of 16 bytes of their own" in texts
           and any("store at 00000014 to mark" in tip for tip in tips))
    texts, tips = svg(folder, BESIDE,
                      text=IMAGE.replace("40 4\n", "40 8\n") + TRACE.replace("store 00000040", "store 00000044"))
    yield ("false sharing in one variable names both places",
           "may help: give flag and flag+4 lines of 16 bytes of their own" in texts)
    texts, tips = svg(folder, REPORT, "--overview")
    yield ("the overview", SENTENCE in tips
           and "instructions that each epoch lost to rollbacks, a block for each" in texts)
    texts, tips = svg(folder, FULL)
    yield ("a full buffer",
           "1 rollback on flag (1 buffer)" in " ".join(texts) and any("held in a full buffer" in tip for tip in tips))
    texts, tips = svg(folder, BARE)
    yield ("without a pair",
           "No rollback to blame on a pair of instructions." in texts and any("has no cause" in tip for tip in tips))
    texts, tips = svg(folder, REPORT.splitlines(True)[0] + "vain 4 hurt\n")
    yield "in vain", any(tip.endswith("in vain, since that epoch was undone itself") for tip in tips)
    events = json.loads(picture(folder, REPORT, "--perfetto").stdout)["traceEvents"]
    yield "a slice for each attempt", [told["name"] for told in events
                                       if told["ph"] == "X"] == ["epoch 0", "epoch 1 lost", "epoch 1 try 2"]
    yield "a flow for each violation", [told["ph"] for told in events
                                        if told.get("cat") == "rollback"] == ["s", "i", "f"]
    refused = picture(folder, "", error="trace 3 Line", status=2)
    yield "a refused trace", (refused.stdout, refused.stderr, refused.returncode) == ("", "trace 3 Line\n", 2)


def shapes(root: xml.Element, tag: str) -> set[str]:
    """What is drawn by elements that have a hover text, without their places and their colours: the fill's hatch, the
    dashes and the corners."""
    fills = {f"url(#{fill.get('id')})": " ".join(f"{one.tag} {one.get('d')}" for one in fill if one.tag != f"{SVG}rect")
             for fill in root.iter(f"{SVG}pattern")}
    told = [one for one in root.iter(f"{SVG}{tag}") if one.find(f"{SVG}title") is not None
            and one.get("width") != "0.0"]
    return {f"{fills.get(one.get('fill', ''), 'plain')} {one.get('stroke-dasharray')}" for one in told}


def signs(root: xml.Element) -> set[tuple[int, bool]]:
    """The signs of kinds, each by its corners and whether it is flat above; a dot has none."""
    corners = [one.get("points", "").replace(",", " ").split() for tag in ("circle", "polygon")
               for one in root.iter(f"{SVG}{tag}")
               if one.get("fill") != "none" and one.get("r") != "0.9"]
    return {(len(one) // 2, one[1:2] == one[3:4]) for one in corners}


@claims
def kinds(folder: str) -> Iterator[Claim]:
    """Each kind is told by its hatch, its dashes and its sign, not by its colour alone."""
    reports = [REPORT, REPORT.replace("true", "silent"), BESIDE, FULL, BARE]
    drawn = [[xml.fromstring(picture(folder, report, *words).stdout) for report in reports]
             for words in (list[str](), ["--overview"])]
    yield "a hatch for each kind", len({frozenset(shapes(root, "rect")) for root in drawn[1]}) == 5
    yield "dashes for each kind", len({frozenset(shapes(root, "path")) for root in drawn[0]}) == 5
    for name, roots in zip(("an arrow's foot", "a line's foot"), drawn):
        yield (f"a sign for each kind at {name}", len({frozenset(signs(root))
                                                      for root in roots}) == 5
               and all(len(signs(root)) == 1 for root in roots))


def long_run(pairs: int, cores: int = 2) -> tuple[str, str]:
    """So many pairs of epochs, each as the two above, on two cores after two: the text of the trace, and the lines of
    its violations, one of ten of them false sharing."""
    trace, hurts = [f"trace {cores}"], []
    for pair in range(pairs):
        first, second, place = 2 * pair, 2 * pair + 1, 9 * pair
        by, core = first % cores, second % cores
        trace += [f"{core if entry[0] == '1' else by}{entry[1:]}".replace("start 0", f"start {first}")
                  .replace("start 1", f"start {second}").replace("hurt 1", f"hurt {second}")
                  for entry in TRACE.splitlines()[1:]]
        hurt = (HURT.replace("core 1", f"core {core}").replace("core 0", f"core {by}")
                .replace("hurt 4", f"hurt {place + 4}").replace("epoch 1", f"epoch {second}"))
        hurts.append(hurt.replace("by 0", f"by {first}").replace("cause 5", f"cause {place + 5}")
                     .replace("load 3", f"load {place + 3}").replace("store 2", f"store {place + 2}")
                     .replace("true", "true" if pair % 10 else "false"))
    return IMAGE.replace("epochs 2", f"epochs {2 * pairs}") + "\n".join(trace) + "\n", "".join(hurts) + KIND + TOTAL


@claims
def gathered(folder: str) -> Iterator[Claim]:
    """A run of 20,000 epochs: its picture and its events are small, and leave out no rollback."""
    text, report = long_run(10_000)
    drawn = picture(folder, report, text=text).stdout
    root = xml.fromstring(drawn)
    tips = [tip.text or "" for tip in root.iter(f"{SVG}title")]
    counted = [int(tip.split()[1].replace(",", "")) for tip in tips if tip.startswith(("true: ", "false: "))
               and "rollback" in tip]
    yield "a long run is at most 2 MB", 20_000 < len(drawn) < 2_000_000
    yield "a long run has at most 2,000 elements", len(list(root.iter())) < 2_000
    yield "its rollbacks are all there", sum(counted) == 10_000
    yield ("a pixel has its share of turns",
           "the same run: cores over turns; a pixel is 67 turns, from below what was lost, cancelled and useful" in [
        told.text for told in root.iter(f"{SVG}text")])
    told = picture(folder, report, "--perfetto", text=text).stdout
    events = json.loads(told)["traceEvents"]
    yield "its events are at most 2 MB", len(told) < 2_000_000
    yield "its events are at most 12,100", len(events) < 12_100
    yield "its events count all rollbacks", [sum(one["args"][kind] for one in events if one["name"] == "rollbacks")
                                             for kind in ("true", "false")] == [9_000, 1_000]
    yield "its events count what was lost", sum(one["args"]["lost"] for one in events
                                                if one["name"] == "lost instructions") == 30_000
    wide, report_of_wide = long_run(10_000, cores=16)
    drawn, told = (picture(folder, report_of_wide, *words, text=wide).stdout
                   for words in (list[str](), ["--perfetto"]))
    yield ("on 16 cores its elements are at most 2,000 too",
           len(drawn) < 2_000_000 and len(list(xml.fromstring(drawn).iter())) < 2_000)
    yield ("on 16 cores its events are at most 12,100 too",
           len(told) < 2_000_000 and 10_000 < len(json.loads(told)["traceEvents"]) < 12_100)
    part = json.loads(picture(folder, report, "--perfetto", "--turns", "800-879", text=text).stdout)["traceEvents"]
    yield "the events of eighty turns", sum(one["name"].startswith("rollback")
                                            for one in part) == 10 and all(800 <= one.get("ts", 800) <= 879
                                                                           or one["ph"] in "MX" for one in part)


@claims
def names(folder: str) -> Iterator[Claim]:
    """The same of tools/named."""
    def named(report: str, *words: str, **more: Any) -> subprocess.CompletedProcess[str]:
        why = stub(folder, "why", report, **more)
        return called_tool("named", "--why", why, *words, given=IMAGE + TRACE)

    report = HURT + "also 4 silent load 3 00000004 store 2 00000014 at 00000080 4\nvain 4 hurt\n" + SUMS + KIND + TOTAL
    yield "names, and what a violation says", named(report, "--say").stdout == NAMED
    yield "names alone", named(report).stdout == "".join(line for line in NAMED.splitlines(True)
                                                         if not line.startswith("#"))
    yield "no name without a pair", named(BARE).stdout == BARE.replace("at - -\n", "at - - -\n")
    refused = named("", error="trace 3 Line", status=2)
    yield "a refused trace is not named", (refused.stdout, refused.stderr,
                                           refused.returncode) == ("", "trace 3 Line\n", 2)
    text, report = long_run(1_000)
    command = f"{ROOT}/tools/named --why {stub(folder, 'why', report)} | head -1; echo ${{PIPESTATUS[0]}}"
    read = called(["bash", "-c", command], text)
    yield ("of a long report one line is read",
           (read.stdout, read.stderr) == (HURT.replace("true", "false").replace(" 4\n", " 4 flag\n") + "141\n", ""))


@claims
def dependences(folder: str) -> Iterator[Claim]:
    """The same of tools/named --depends, with a stub in the place of `depends`."""
    programs = Path(folder, "depends")
    programs.mkdir()

    def named(output: str, *words: str, **more: Any) -> tuple[str, str, int]:
        stub(programs, "depends", output, **more)
        done = called_tool("named", "--depends", *words, given=IMAGE,
                           env={**os.environ, "LOOPS_PROGRAMS": str(programs)})
        return done.stdout, done.stderr, done.returncode

    dep = "dep store 00000014 load 00000004 times 1 distance 1 1 at 00000040 1 first 0 1 stored 2 of 4 loaded 1 of 4"
    met = "caches 2 epoch 1 load 00000004 by epoch 0 store 00000014"
    rest = "from caches 2 epoch 1 buffer by epoch 0\nturns 0 1\nopen plain 8\n"
    yield "names of dependences", named(f"{dep}\nfrom {met}\nturns 0 1 0\n") == (f"{dep} flag - waits.c:7\nfrom {met} "
                                                                                 "waits.c:7 -\nturns 0 1 0\n", "", 0)
    yield "no names", named(dep.replace("at 00000040 1", "at 00000044 60") + "\n"
                            + rest)[0] == dep.replace("at 00000040 1", "at 00000044 60") + f" - - waits.c:7\n{rest}"
    yield "several names", named(dep.replace("at 00000040 1", "at 0000003c 60") + "\n"
                                 + rest)[0].startswith(dep.replace("at 00000040 1", "at 0000003c 60") + " flag - ")
    yield "refused by depends", named("", error="usage", status=2) == ("", "usage\n", 2)
    yield "another line", named("depends\n")[1:] == ("named: 'depends' is no line of depends\n", 2)


@claims
def traces(folder: str) -> Iterator[Claim]:
    """The same of tools/trace, with a stub in the place of the program."""
    programs, image = Path(folder, "programs"), Path(folder, "waits.image")
    programs.mkdir()
    image.write_text(IMAGE)

    def traced(*words: str) -> tuple[str, str, int]:
        done = called_tool("trace", image, *words, env={**os.environ, "LOOPS_PROGRAMS": str(programs)})
        return done.stdout, done.stderr, done.returncode

    stub(programs, "trace_cli", "end done 2\ncounts 2 1 1 2\n" + TRACE)
    yield "an image with its trace", traced("2") == (IMAGE + TRACE, "", 0)
    stub(programs, "trace_cli", "", error="usage", status=2)
    yield "a refused run", traced("99") == ("", "usage\n", 2)


def main() -> int:
    script = Script()
    with tempfile.TemporaryDirectory() as folder:
        script.run(*[partial(part, folder) for part in (rows, kinds, gathered, names, dependences, traces)])
    return script.ended()


if __name__ == "__main__":
    sys.exit(main())
