#!/usr/bin/env python3
"""Tests tools/plot on lines of `gain` and of `depends`: the plot is read back as XML, the table as CSV. Nothing has to
be built.

Usage: tests/plot.py

The figures are those of a trial of the schedule outside the program. The plots are left out where no Python here has
matplotlib, and a line says so. Exits with 1 where a check failed.
"""

import csv
import io
import re
import sys
import tempfile
import xml.etree.ElementTree as xml
from collections.abc import Iterator
from functools import partial
from pathlib import Path

from common import ROOT, Check, Script, called_tool, differs, imported, left_out, there

SVG = "{http://www.w3.org/2000/svg}"
NAMES = ("store cores steps gain useful lost dropped waiting idle restarts true silent false buffer nothomefree noway "
         "orbfull orbbusy").split()
# Of own_counters all violations are false sharing; of queens all waiting is for a way; of the histogram one of nine is
# made up to be false sharing.
LINES = {
    "own_counters": """caches 1 464 1.00 464 0 0 0 0 0 0 0 0 0 0 0 0 0
caches 4 428 1.08 464 1092 0 0 156 42 0 0 42 0 0 0 0 0
plain 1 464 1.00 464 0 0 0 0 0 0 0 0 0 0 0 0 0
plain 4 116 4.00 464 0 0 0 0 0 0 0 0 0 0 0 0 0""",
    "queens": """caches 1 1014 1.00 1014 0 0 0 0 0 0 0 0 0 0 0 0 0
caches 4 728 1.39 1014 0 0 944 954 0 0 0 0 0 0 944 0 0
plain 1 1014 1.00 1014 0 0 0 0 0 0 0 0 0 0 0 0 0
plain 4 268 3.78 1014 0 0 58 0 0 0 0 0 0 58 0 0 0""",
    "histogram": "caches 4 84 2.29 192 99 0 27 18 9 8 0 1 0 27 0 0 0",
}
FULL = ("store caches cores 1 full\nstore caches cores 2 steps 84 gain - "
        + " ".join(f"{name} 0" for name in NAMES[4:]).replace("useful 0", "useful 168") + "\n")
# Of each bar the parts that are drawn, from below, in hundredths of all steps, rounded.
PARTS = {
    "own_counters-caches-1": {"useful": 100}, "own_counters-caches-4": {"useful": 27, "false": 64, "idle": 9},
    "own_counters-plain-4": {"useful": 100},
    "queens-caches-4": {"useful": 35, "noway": 32, "idle": 33}, "queens-plain-4": {"useful": 95, "nothomefree": 5},
    "histogram-caches-4": {"useful": 57, "true": 26, "false": 3, "nothomefree": 8, "idle": 5},
    "grown-caches-2": {"useful": 100},
}


# Two pairs of a loop, of which one is stored later in its epoch than it is loaded, and a loop without any; and one of
# fourteen pairs.
DEP = "dep store {:08x} load {:08x} times {} distance {} at 00000040 13 first 0 4 stored {} loaded {}\n"
NEVER = "never caches 8\nnever plain 8\n"
DEPENDS = {
    "flows": DEP.format(0x34, 0x14, 12, "4 4", "25 of 27", "5 of 27")
    + DEP.format(0x08, 0x20, 3, "1 5", "3 of 27", "9 of 27")
             + "from caches 2 epoch 1 load 00000014 by epoch 0 store 00000034\nturns 0 1 1 0 0\nopen plain 5\n",
    "alone": NEVER,
    "many": "".join(DEP.format(4 * place, 4, 20 - place, f"{place + 1} 30", "2 of 4", "1 of 4") for place in range(14))
    + NEVER,
}
IMAGE = ("# counter 00000040 16\n# code 00000034 flows.c:20\n# code 00000014 flows.c:14\nsize 256\nepochs 16\nlimit "
         "50\ncode 67800000\n")


def text_of(rows: str) -> str:
    """The lines of `gain` of a table."""
    return "".join(" ".join(f"{name} {word}" for name, word in zip(NAMES, row.split())) + "\n"
                   for row in rows.splitlines())


def plot(*words: str | Path, text: str = "") -> tuple[str, str, int]:
    done = called_tool("plot", *words, given=text)
    return done.stdout, done.stderr, done.returncode


def files(folder: str) -> Iterator[str]:
    """The inputs, as words NAME=FILE."""
    for name, rows in [*LINES.items(), ("grown", None)]:
        Path(folder, f"{name}.txt").write_text(FULL if rows is None else text_of(rows))
        yield f"{name}={folder}/{name}.txt"


def bars(root: xml.Element) -> dict[str, list[tuple[str, float, float]]]:
    """Of each bar the heights of its parts, from below."""
    found: dict[str, list[tuple[str, float, float]]] = {}
    for group in root.iter(f"{SVG}g"):
        named = re.fullmatch(r"(\w+-(?:held-)?(?:caches|plain)-\d+)-(\w+)", group.get("id", ""))
        if named:
            heights = [float(point.split()[-1])
                       for point in re.findall(r"[ML] ([-\d.]+ [-\d.]+)", there(group.find(f"{SVG}path")).get("d", ""))]
            found.setdefault(named[1], []).append((named[2], min(heights), max(heights)))
    return {name: sorted(parts, key=lambda part: -part[2]) for name, parts in found.items()}


def hatches(root: xml.Element) -> dict[str, str]:
    """Of each part of bars the lines of its hatch, without colours; empty where it has none."""
    lines = {f"url(#{one.get('id')})": "".join(path.get("d", "") for path in one.iter(f"{SVG}path"))
             for one in root.iter(f"{SVG}pattern")}
    found = {}
    for group in root.iter(f"{SVG}g"):
        named = re.fullmatch(r"\w+-(?:held-)?(?:caches|plain)-\d+-(\w+)", group.get("id", ""))
        if named:
            fill = there(re.match(r"fill: ([^;]+)", there(group.find(f"{SVG}path")).get("style", "")))
            found[named[1]] = lines.get(fill[1], "")
    return found


def plots(words: list[str]) -> Iterator[Check]:
    """(what it shows, what is wrong or None) of the plot of all inputs."""
    out, errors, status = plot(*words)
    if "is not installed" in errors:
        left_out("plots", "python3-matplotlib isn't installed")
        return
    yield "a plot", None if (errors, status) == ("", 0) else f"{errors!r}, {status}"
    root = xml.fromstring(out)
    texts = ["".join(text.itertext()).strip() for text in root.iter(f"{SVG}text")]
    for name in [*LINES, "grown"]:
        yield f"the panel of {name}", None if name in texts else f"{texts}"
    gains = [text for text in texts if re.fullmatch(r"\d\.\d\d|-|full", text)]
    wanted = "1.00 1.08 1.00 4.00 1.00 1.39 1.00 3.78 2.29 full -".split()
    yield "the gain above each bar", None if sorted(gains) == sorted(wanted) else f"{gains}"
    told = [text for text in texts if text.startswith(("useful", "lost,", "dropped", "waiting", "idle"))]
    wanted = ["useful: attempts that committed", "lost, true sharing", "lost, false sharing",
              "waiting to be the first epoch", "waiting for a way in a full set", "idle: without an epoch"]
    yield "what occurs is explained, and nothing else", None if told == wanted else f"{told}"
    found = bars(root)
    yield "a bar for each run that isn't full", None if len(found) == 10 else f"{sorted(found)}"
    for name, parts in PARTS.items():
        whole = sum(high - low for _, low, high in found[name])
        got = {part: round(100 * (high - low) / whole) for part, low, high in found[name]}
        yield f"the parts of {name}", None if list(got.items()) == list(parts.items()) else f"{got}"
    yield "the same bytes again", None if plot(*words)[0] == out else "others"
    hatched = hatches(root)
    yield ("no colour alone",
           None if len(hatched) >= 6 and len(set(hatched.values())) == len(hatched)
           else f"{ {name: hash(one) for name, one in hatched.items()} }")


def tables(words: list[str], folder: str) -> Iterator[Check]:
    """The same of the table, and what is refused."""
    out, errors, status = plot("--csv", *words)
    rows = list(csv.DictReader(io.StringIO(out)))
    yield "a row for each line", None if (len(rows), errors, status) == (11, "",
                                                                         0) else f"{len(rows)}, {errors!r}, {status}"
    found = next(row for row in rows if (row["loop"], row["store"], row["cores"]) == ("own_counters", "caches", "4"))
    wanted = dict(zip(["loop", *NAMES],
                      ["own_counters", *LINES["own_counters"].splitlines()[1].split()])) | {"full": "0"}
    yield "a row", None if found == wanted else f"{found}"
    full = rows[-2]
    yield "a full run", None if (full["full"], full["steps"], rows[-1]["gain"]) == ("1", "", "") else f"{full}"
    held = plot("--csv", text=text_of(LINES["own_counters"]).replace("waiting 0", "waiting 0 held 7"))[0]
    yield "held steps, where runs have them", None if [row["held"] for row in csv.DictReader(io.StringIO(held))] == [
        "7"] * 4 else held
    named = plot("--csv", f"{folder}/queens.txt")[0].splitlines()[1].split(",")[0]
    yield "named after the file", None if named == "queens" else named
    for name, text, said in (("another line", "end done 3\n", "is no line of gain"),
                             ("nothing", "", "there is no line of gain")):
        got = plot("--csv", text=text)
        yield f"refused: {name}", None if got[0] == "" and said in got[1] and got[2] == 2 else f"{got}"


def many(folder: str) -> Iterator[Check]:
    """The bars of ten stores stand apart, within the place of their number of cores, and the note fits."""
    words = [f"caches:sets={2 ** place}" for place in range(9)] + ["plain"]
    rows = "".join(f"{word} {cores} 464 1.00 464 0 0 0 0 0 0 0 0 0 0 0 0 0\n" for word in words for cores in (1, 2))
    Path(folder, "many.txt").write_text(text_of(rows))
    out, errors, status = plot(f"{folder}/many.txt")
    if "is not installed" in errors:
        return
    yield "a plot of ten stores", None if (errors, status) == ("", 0) else f"{errors!r}, {status}"
    root, ends = xml.fromstring(out), []
    for group in root.iter(f"{SVG}g"):
        if re.fullmatch(r"many-.*-useful", group.get("id", "")):
            across = [float(x) for x in re.findall(r"[ML] ([-\d.]+) ", there(group.find(f"{SVG}path")).get("d", ""))]
            ends.append((min(across), max(across)))
    ends.sort()
    yield "a bar for each store and number of cores", None if len(ends) == 20 else f"{len(ends)}"
    yield ("no bar overlaps another one",
           None if all(one[1] < other[0] for one, other in zip(ends, ends[1:])) else f"{ends}")
    yield ("two numbers of cores are further apart than two bars",
           None if ends[10][0] - ends[9][1] > 2 * (ends[1][0] - ends[0][1]) else f"{ends[8:12]}")
    wide = float(there(re.match(r"[\d.]+", root.get("width", "")))[0])
    longest = max((text for text in root.iter(f"{SVG}text")), key=lambda text: len("".join(text.itertext())))
    letters = max(len(line) for line in ("".join(part.itertext()) for part in [*longest, longest]))
    # A letter of the note, which is 6.5 points high, is at least 3.1 wide on an average.
    yield "each line of the note fits", None if 3.1 * letters <= wide else f"{letters} letters in {wide} points"


def held(folder: str) -> Iterator[Check]:
    """The steps that a core was held at a load that waits are a part of the bar."""
    path = Path(folder, "held.txt")
    rows = "caches 1 10 1.00 10 0 0 0 0 0 0 0 0 0 0 0 0 0\ncaches 2 8 1.25 10 0 0 0 2 0 0 0 0 0 0 0 0 0"
    path.write_text(text_of(rows).replace("waiting 0 idle 2", "waiting 0 held 4 idle 2"))
    out, errors, status = plot(f"held={path}")
    if "is not installed" in errors:
        return
    yield "a plot with held steps", None if (errors, status) == ("", 0) else f"{errors!r}, {status}"
    parts = bars(xml.fromstring(out))["held-caches-2"]
    whole = sum(high - low for _, low, high in parts)
    yield "the parts of a bar with held steps", differs({part: round(1000 * (high - low) / whole) for part, low, high
                                                         in parts}, {"useful": 625, "held": 250, "idle": 125})
    texts = ["".join(text.itertext()).strip() for text in xml.fromstring(out).iter(f"{SVG}text")]
    yield "held steps are explained", None if "held at a load that waits" in texts else f"{texts}"


def costed(folder: str) -> Iterator[Check]:
    """What turns cost are parts of the bar, and a held run has a bar of its own. The lines are what
    `gain 2 caches --held --costs bus=10` prints of examples/recurrence.image."""
    rest = "idle 28 restarts 0 true 0 silent 0 false 0 buffer 0 nothomefree 0 noway 0 orbfull 0 orbbusy 0\n"
    lines = ("store caches cores 2 steps 643 gain 0.84 order 236 busy 196 handling 408 memory 280 queue 0 lost 364 "
             "dropped 0 waiting 0 " + rest.replace("28", "38").replace("restarts 0 true 0", "restarts 13 true 13")
             + "held caches cores 2 steps 410 gain 1.32 order 236 busy 196 handling 308 memory 270 queue 0 lost 0 "
             "dropped 0 waiting 0 held 18 " + rest)
    path = Path(folder, "costed.txt")
    path.write_text(lines)
    table = list(csv.DictReader(io.StringIO(plot("--csv", f"one={path}")[0])))
    yield "the columns of what turns cost", differs(
        [(row["waits"], row["order"], row["busy"], row["useful"], row["held"]) for row in table],
        [("0", "236", "196", "", ""), ("1", "236", "196", "", "18")])
    out, errors, status = plot(f"one={path}")
    if "is not installed" in errors:
        return
    yield "a plot of what turns cost", None if (errors, status) == ("", 0) else f"{errors!r}, {status}"
    root = xml.fromstring(out)
    high = {name: {part: round(1000 * (end - start) / sum(most - least for _, least, most in parts))
                   for part, start, end in parts} for name, parts in bars(root).items()}
    yield "the parts of bars where turns cost", differs(high, {
        "one-caches-2": {"busy": 152, "handling": 317, "memory": 218, "true": 283, "idle": 30},
        "one-held-caches-2": {"busy": 239, "handling": 376, "memory": 329, "held": 22, "idle": 34}})
    texts = " ".join("".join(text.itertext()).strip() for text in root.iter(f"{SVG}text"))
    yield ("no bar says that turns cost nothing",
           None if "what turns cost" in texts and "no latency" not in texts else texts)
    looks = hatches(root)
    yield "what turns cost by no colour alone", None if len(set(looks.values())) == len(looks) else f"{looks}"
    path.write_text(lines + LIMITS)
    timed = xml.fromstring(plot("--times", f"one={path}")[0])
    told = ["".join(text.itertext()).strip() for text in timed.iter(f"{SVG}text")]
    # 643 and 410 of 236 steps
    yield "hundredths of the loop in order", differs([text for text in told if text in ("272", "174")], ["272", "174"])
    yield "and the note says so", None if "of the loop in order" in " ".join(told) else f"{told}"


def dear_lines(costs: str) -> str:
    """The lines of `gain` of own_counters at the costs of this name, and its limits: what tests/costs.tsv and
    tests/limits.tsv have, by another program."""
    made = []
    for row in rows_of("costs.tsv"):
        if row["costs"] == costs:
            names = "store cores steps gain order busy handling memory queue lost dropped waiting idle restarts"
            words = {name: row.get(name, "0") for name in names.split()}
            words |= {"gain": "1.00", "true": row["restarts"], **dict.fromkeys(NAMES[11:], "0"),
                      "nothomefree": row["waiting"]}
            made.append(" ".join(f"{name} {word}" for name, word in words.items()) + "\n")
    return "".join(made) + "".join(f"limit cores {row['cores']} forward {row['forward']} commit {row['commit']}\n"
                                   for row in rows_of("limits.tsv"))


def rows_of(name: str) -> Iterator[dict[str, str]]:
    """The rows of own_counters in a table of another program's figures."""
    lines = [line.split("\t") for line in (ROOT / "tests" / name).read_text().splitlines() if line[0] != "#"]
    return (row for line in lines[1:] for row in [dict(zip(lines[0], line))] if row["example"] == "own_counters")


# Which lines of own_counters are drawn at costs, by stores, and what the note says of lines. It takes 432 instructions;
# over caches its loop in order pays for misses where these cost.
DRAWN = ("Lines: what dependences allow of turns that cost nothing, where a load waits for the commit (whole) or for "
         "the store (dotted)")
NOT_DRAWN = ("What dependences allow isn't drawn: it is of turns that cost nothing, and here the loop in order pays "
             "for its misses.")
BOTH = ("caches", "plain")
DEAR: list[tuple[str, tuple[str, ...], tuple[str, ...], str]] = [
    ("hand10", BOTH, BOTH, f"{DRAWN}."), ("ideal", ("caches",), ("caches",), f"{DRAWN}."),
    ("bus10", BOTH, ("plain",), f"{DRAWN}; none where the loop in order pays for its misses."),
    ("mem20", ("caches",), (), NOT_DRAWN)]


def noted(root: xml.Element) -> str:
    """What the note of a plot says of lines, on one line."""
    lines = next(text for group in root.iter(f"{SVG}g") if group.get("id", "").startswith("text_")
                 for text in [" ".join(group.itertext())] if "Each bar is" in text)
    return " ".join(lines.split()).partition("by their violations.")[2].strip()


def dear(folder: str) -> Iterator[Check]:
    """Where turns cost, limits are drawn over those bars alone that are measured by a loop in order of free turns."""
    for costs, stores, marked, said in DEAR:
        path = Path(folder, f"{costs}.txt")
        path.write_text("".join(line for line in dear_lines(costs).splitlines(True)
                                if line.startswith(("limit", *(f"store {store} " for store in stores)))))
        out, errors, status = plot("--times", f"dear={path}")
        if "is not installed" in errors:
            return
        yield f"a plot at {costs}", differs((errors, status), ("", 0))
        root = xml.fromstring(out)
        high = {name: max(one for *_, one in parts) - min(one for _, one, _ in parts)
                for name, parts in bars(root).items()}
        foot = max(low for parts in bars(root).values() for _, _, low in parts)
        wanted = {}
        for store in marked:
            one = next(row for row in rows_of("costs.tsv") if (row["costs"], row["store"], row["cores"])
                       == (costs, store, "1"))
            for row in rows_of("limits.tsv"):
                for name in ("commit", "forward"):
                    wanted[f"dear-{store}-{row['cores']}-{name}"] = round(
                        high[f"dear-{store}-1"] * int(row[name]) / int(one["steps"]))
        got = {name: round(foot - y) for name, (y, _) in marks_of(root, r"dear-(\w+-)?\d+").items()}
        yield f"the limits at {costs}", differs(got, wanted)
        yield f"what the note says of lines at {costs}", differs(noted(root), said)
    path.write_text("".join(line for line in dear_lines("bus10").splitlines(True) if not line.startswith("limit")))
    root = xml.fromstring(plot("--times", f"dear={path}")[0])
    yield "the note without limits", differs(noted(root), "")


def tall(folder: str) -> Iterator[Check]:
    """The words beside a tall axis are whole: that of 12,000 % too."""
    path = Path(folder, "tall.txt")
    for steps, word in ((12, "1200 %"), (120, "12000 %")):
        path.write_text(text_of(f"caches 1 {steps} 1.00 1 0 0 0 0 0 0 0 0 0 0 0 0 0").replace("useful 1", (
            f"order 1 busy 1 handling {steps - 1} memory 0 queue 0")))
        out, errors, _ = plot("--times", f"tall={path}")
        if "is not installed" in errors:
            return
        found = {"".join(text.itertext()).strip(): text.get("x") or ""
                 for text in xml.fromstring(out).iter(f"{SVG}text")}
        # A letter of a tick's word, 6.2 points high, is about 4 wide.
        yield f"{word} is whole", None if float(found.get(word) or 0) >= 4 * len(word) else f"{found}"


def marks_of(root: xml.Element, name: str) -> dict[str, tuple[float, bool]]:
    """How low the line of each limit is whose loop, store and cores are so, and whether it is dotted."""
    found = {}
    for group in root.iter(f"{SVG}g"):
        if re.fullmatch(name + "-(commit|forward)", group.get("id", "")):
            path_of = there(group.find(f"{SVG}path"))
            found[group.get("id", "")] = (float(re.findall(r"M [-\d.]+ ([-\d.]+)", path_of.get("d", ""))[0]),
                                          "stroke-dasharray" in path_of.get("style", ""))
    return found


# Of own_counters the limits of 1 and of 4 cores
LIMITS = "limit cores 1 forward 464 commit 464\nlimit cores 4 forward 58 commit 116\n"


def times(folder: str) -> Iterator[Check]:
    """Bars as high as the time of their runs, and the limits as marks."""
    path = Path(folder, "timed.txt")
    path.write_text(text_of(LINES["own_counters"]) + LIMITS)
    out, errors, status = plot("--times", f"timed={path}")
    if "is not installed" in errors:
        return
    yield "a plot of times", None if (errors, status) == ("", 0) else f"{errors!r}, {status}"
    root = xml.fromstring(out)
    high = {name: max(one for *_, one in parts) - min(one for _, one, _ in parts) for name, parts in bars(root).items()}
    one = high["timed-caches-1"]
    heights = {name: round(100 * height / one) for name, height in high.items()}
    wanted = {"timed-caches-1": 100, "timed-caches-4": 92, "timed-plain-1": 100, "timed-plain-4": 25}
    yield "bars as high as the steps of a run to those on one core", differs(heights, wanted)
    texts = ["".join(text.itertext()).strip() for text in root.iter(f"{SVG}text")]
    yield "the hundredths above them", differs([text for text in texts if text in ("100", "92", "25")],
                                               ["100", "92", "100", "25"])
    lines = marks_of(root, r"timed-\d+")
    foot = max(low for parts in bars(root).values() for _, _, low in parts)
    marks = {name: (round(100 * (foot - y) / one), dotted) for name, (y, dotted) in lines.items()}
    yield "a line for each limit, of which one is dotted", differs(
        marks, {"timed-1-commit": (100, False), "timed-1-forward": (100, True), "timed-4-commit": (25, False),
                "timed-4-forward": (12, True)})
    yield "what the note says of lines", differs(noted(root), (
        "Lines: what dependences allow, where a load waits for the commit (whole) or for the store (dotted)."))
    path.write_text(text_of(LINES["own_counters"]))
    yield "no lines and no word of them", differs(noted(xml.fromstring(plot("--times", f"timed={path}")[0])), "")
    got = plot("--times", "--sizes", f"timed={path}")
    yield "both forms", None if got[0] == "" and "not allowed with" in got[1] and got[2] == 2 else f"{got}"


def depends(folder: str) -> Iterator[Check]:
    """(what it shows, what is wrong or None) of what `depends` printed."""
    Path(folder, "flows.image").write_text(IMAGE)
    for name, text in DEPENDS.items():
        Path(folder, f"{name}.dep").write_text(text)
    words = [f"{folder}/{name}.dep" for name in DEPENDS]
    out, errors, status = plot("--csv", *words)
    rows = [line.split(",") for line in out.splitlines()]
    yield "a row for each pair", None if (len(rows), errors, status) == (17, "",
                                                                         0) else f"{out!r}, {errors!r}, {status}"
    wanted = ["flows", "00000034", "00000014", "12", "4", "4", "00000040", "13", "0", "4", "25", "27", "5", "27"]
    yield "the first pair", None if rows[1] == wanted else f"{rows[1]}"
    got = plot("--csv", f"{folder}/flows.dep", f"{folder}/queens.txt")
    yield ("refused: lines of both programs",
           None if got[0] == "" and "is no line of gain" in got[1] and got[2] == 2 else f"{got}")
    out, errors, status = plot("--images", folder, *words)
    if "is not installed" in errors:
        left_out("plots of dependences", "python3-matplotlib isn't installed")
        return
    yield "a plot of dependences", None if (errors, status) == ("", 0) else f"{errors!r}, {status}"
    root = xml.fromstring(out)
    texts = ["".join(text.itertext()).strip() for text in root.iter(f"{SVG}text")]
    for said in ("caches: rolls back from 2 cores on; plain: open from 5 cores on",
                 "caches: never on up to 8 cores; plain: never on up to 8 cores",
                 "12 times, 4 later: counter", "flows.c:20 to flows.c:14", "3 times, 1 to 5 later: counter",
                 "00000008 to 00000020",
                 "no epoch reads what another one stored", "3 more pairs, 24 times, at least 12 later"):
        yield f"it is told: {said}", None if said in texts else f"{texts}"
    arrows = {group.get("id"): "stroke-dasharray" in xml.tostring(group, "unicode") for group in root.iter(f"{SVG}g")
              if re.match(r"\w+-[0-9a-f]{8}-[0-9a-f]{8}", group.get("id", ""))}
    yield "an arrow for each pair that has a row", None if len(arrows) == 13 else f"{arrows}"
    told = (arrows["flows-00000034-00000014"], arrows["flows-00000008-00000020"])
    yield "late and early by no colour alone", None if told == (False, True) else f"{told}"
    yield "the same bytes of dependences again", None if plot("--images", folder, *words)[0] == out else "others"


def main() -> int:
    imported("matplotlib.pyplot")
    script = Script()
    with tempfile.TemporaryDirectory() as folder:
        words = list(files(folder))
        script.run(partial(plots, words), partial(tables, words, folder), partial(many, folder),
                   partial(held, folder), partial(costed, folder), partial(dear, folder), partial(tall, folder),
                   partial(times, folder), partial(depends, folder))
    return script.ended()


if __name__ == "__main__":
    sys.exit(main())
