#!/usr/bin/env python3
"""Tests tools/study: small studies whose figures are known; what is stopped, changed or misused; and what is refused.

Usage: tests/study.py [COMMAND ..]

COMMAND is a command of `trace_cli` that ends with the word `seq`; `why`, `replay` and `gain` are the programs that were
built beside it. Without it those of this repository are tested. Without them, or Debian's packages snakemake,
python3-jsonschema and python3-matplotlib, the studies are left out, and a line says so; so is what is sorted on the
page without Chromium. Exits with 1 where a check failed.
"""

import csv
import json
import os
import pty
import re
import shutil
import signal
import subprocess
import sys
import tempfile
import time
from collections.abc import Callable, Iterator
from functools import wraps
from pathlib import Path
from xml.etree import ElementTree

from common import ROOT, Check, Script, beside, called, called_tool, called_well, differs, imported, left_out
from packages import has_module
from view import driver, find_selenium

Results = Iterator[Check]
NAMES = ("trace_cli", "why", "replay", "gain")
PLAN = ('cores = [1]\nschedules = ["threads"]\nversions = [1, 2]\n[loops]\ncounter = "counter.image"\nown_counters = '
        '"own_counters.image"\n')
# Loop and version: how many epochs committed, how many instructions these are by hand (4 of counter; 27 of
# own_counters), and the trace's entries, which on one core are its turns: a begin, the accesses and a commit of each
# epoch.
RUNS = {("counter", "1"): ("4", "16", "16"), ("counter", "2"): ("4", "16", "16"),
        ("own_counters", "1"): ("16", "432", "64"), ("own_counters", "2"): ("16", "432", "64")}
SEEDS = 'cores = [1, 4]\nschedules = ["even", "seeded"]\nseeds = [{}]\n[loops]\nown_counters = "own_counters.image"\n'
# Store and cores of own_counters at even speed: steps and gain, as tests/gain.txt has them.
EVEN = {("caches", "1"): ("464", "1.00"), ("caches", "4"): ("428", "1.08"), ("plain", "1"): ("464", "1.00"),
        ("plain", "4"): ("116", "4.00")}
# With four seeds there are 4 runs at even speed, 16 seeded ones and a call of `gain`.
ROWS = 21
SECONDS = 120
MADE = ("runs.csv", "pairs.csv", "manifest.json", "page.html")
IMAGE = "[loops]\na = 'counter.image'\n"
NAMED = "[loops]\na = 'counter.image'\nb = 'named.image'\n"
ALL_SIZES = f"versions = [1, 2]\ncores = {[*range(1, 17)]}\n"
# What is refused, and the words of the reason.
REFUSED = [
    ("cores = [1]\n", "loops is missing"), ("[loops]\n", "loops: {} is refused; wanted is a table of loops"),
    ("speed = 3\n" + IMAGE, '"speed": no field'),
    ("stores = ['disk']\n" + IMAGE, 'stores[0]: \'disk\' names no store; one is plain, caches or caches:KEY=N'),
    ("[loops]\na = 'none.image'\n", "isn't there"),
    ("[loops]\n'a b' = 'counter.image'\n", "a loop's name"), ("[loops]\n\"a\\n\" = 'counter.image'\n", "a loop's name"),
    ("[loops]\na = 'plan.toml'\n", "begins no line of an image"),
    ("[loops]\na = '.'\n", "is no file"), ("[loops]\na = \"a\\u0000b\"\n", "loops.a"),
    ("seeds = ['1 || touch X || :']\n" + IMAGE, "seeds[0]"),
    ("cores = ['$(touch X)']\n" + IMAGE, "cores[0]"), ("gain = '1; touch X'\n" + IMAGE, "gain: "),
    ("cores = [17]\n" + IMAGE, "a whole number from 1 to 16"),
    ("cores = [true]\n" + IMAGE, "cores[0]: true"), ("cores = [1.0]\n" + IMAGE, "cores[0]: 1.0"),
    ("cores = []\n" + IMAGE, "cores: []"), ("cores = [2, 2]\n" + IMAGE, "each once"),
    ("seeds = [18446744073709551616]\n" + IMAGE, "seeds[0]"), ("seeds = [-1]\n" + IMAGE, "seeds[0]"),
    ("versions = [3]\n" + IMAGE, "versions[0]"),
    ("cores = " + "[" * 5000 + "\n", "plan.toml"), ("cores = [1\n", "plan.toml"),
    ("schedules = 'even'\n" + IMAGE, "schedules: \"even\""),
    ("seeds = [" + ", ".join(map(str, range(15_626))) + "]\nschedules = ['seeded']\n" + ALL_SIZES + IMAGE,
     "1,000,064 runs, more than 1,000,000"),
    ("costs = [" + ", ".join(f"'bus={cost}'" for cost in range(7_812)) + "]\nheld = true\n" + ALL_SIZES + IMAGE,
     "1,000,064 runs, more than 1,000,000"),
    ("held = 1\n" + IMAGE, "held: 1 is refused; wanted is true or false"),
    ("costs = 'bus=1'\n" + IMAGE, "wanted is a list of costs"),
    ("costs = [1]\n" + IMAGE, "costs[0]: 1 is refused; wanted is what turns cost"),
    ("costs = ['bus=1', 'bus=1']\n" + IMAGE, "each once"),
    *((f"costs = ['bus=1', '{word}']\n" + IMAGE, f"costs[1]: '{word}' says no costs; such are KEY=N,..")
      for word in ("", "bus", "disk=1", "bus=01", "bus=-1", "bus=1000001", "bus=1,miss=1", "miss=1,miss=2", "hold=",
                   "hold=1,hold=2", "hold=1000001", "bus=1 --hold 1", "bus=1; touch X")),
    ("apart = 'count:4'\n" + IMAGE, "wanted is a list of variables"),
    ("apart = ['count:4', 'count:4']\n" + IMAGE, "each once"), ("apart = [4]\n" + IMAGE, "apart[0]: 4"),
    ("apart = ['count']\n" + IMAGE, "apart[0]: 'count' isn't NAME:BYTES"),
    ("apart = ['count:4', 'other; touch X:4']\n" + NAMED, "apart[1]: no loop names the variable of other; touch X:4"),
    ("stores = ['plain']\napart = ['count:4']\n" + NAMED, "apart[0]: no loop names the variable"),
    ("apart = ['count:6']\n" + NAMED, "apart[0]: 'caches:apart=00000040:4:6' names no store"),
    ("stores = ['caches:apart=00000040:4:4']\napart = ['count:4']\n" + NAMED, "names no store"),
    ("schedules = ['threads']\napart = ['count:4']\n" + NAMED, "apart: a run on threads is over the caches"),
    ("schedules = ['seeded']\nheld = true\n" + IMAGE, 'held: asked of runs at even speed, and schedules has no "even"'),
    ("schedules = ['threads']\ncosts = ['bus=1']\n" + IMAGE, "costs: asked of runs at even speed"),
]
# Where turns cost something, or loads wait: of own_counters over caches the lines of tests/costs.tsv and
# tests/held.tsv.
DEAR = ('cores = [1, 4]\nstores = ["caches"]\nheld = true\ncosts = ["bus=10", "bus=10,hold=10"]\ngain = 4\n[loops]\n'
        'own_counters = "own_counters.image"\n')
# A variable that lies apart: of own_counters over caches and of padded_counters the steps, as tests/gain.txt has them.
APART = ('cores = [2, 4]\napart = ["counter:4"]\n[loops]\nown_counters = "own_counters.image"\ncounter = '
         '"counter.image"\n')
TAKES, PADDED = {"2": "440", "4": "428"}, {"2": "232", "4": "116"}
SETS = {"bus10": "bus=10", "bus10b": "bus=10,hold=10"}
COLUMNS = "steps order busy handling memory queue lost_steps dropped_steps waiting idle restarts".split()
PARTS = "useful_steps busy handling memory queue lost_steps dropped_steps waiting held idle".split()
# In the place of Slurm's commands: each job runs at once, and its number is that of the process which took it.
SLURM = {
    "sbatch": 'for last; do :; done\necho "$@" >> "$CALLS"\n(sh "$last"; echo $? > "$CALLS.$$") > /dev/null 2>&1 &\n'
              'echo $$',
    "scontrol": 'state=RUNNING\n[ ! -f "$CALLS.$4" ] || { read -r status < "$CALLS.$4"; state=COMPLETED; [ "$status" = '
                '0 ] || state=FAILED; }\necho "JobId=$4 JobState=$state"',
    "scancel": "exit 0",
}
# A module that tells of its import, under names that Python's own library and Snakemake import.
TELLTALE = "open({!r}, 'w').close()\n"
TAKEN = ("json.py", "random.py", "subprocess.py", "snakemake.py", "studies.py", "loops.py", "sitecustomize.py",
         "usercustomize.py")


def without_progress(said: str) -> str:
    """What a study says, without the lines that say how far it is: on a machine with much to do there are some."""
    return "".join(line for line in said.splitlines(True) if " cells are done" not in line)


def words_of(plan: Path, out: Path, *further: str) -> list[str]:
    return [str(ROOT / "tools" / "study"), str(plan), "--out", str(out), "--jobs", "2", *further]


def study(folder: Path, text: str, programs: Path | None, *further: str, out: str = "out") -> tuple[str, int]:
    """What the tool says of a plan, and its status."""
    plan = folder / "plan.toml"
    plan.write_text(text, encoding="utf-8")
    env = {**os.environ, **({"LOOPS_PROGRAMS": str(programs)} if programs else {})}
    done = called_tool("study", *words_of(plan, folder / out, *further)[1:], env=env, cwd=folder)
    return without_progress(done.stdout + done.stderr), done.returncode


def furnished(folder: Path, command: list[str]) -> Path | None:
    """A folder with the programs, or None where one isn't built."""
    found: dict[str, Path | None] = {name: beside(command, name) for name in NAMES[1:]}
    found["trace_cli"] = Path(command[0]).resolve()
    for name, path in found.items():
        if path and path.is_file():
            (folder / name).symlink_to(path)
    return folder if all((folder / name).is_file() for name in NAMES) else None


def slow(folder: Path, programs: Path, seconds: float = 0.03) -> Path:
    """A folder with programs that take their time."""
    folder.mkdir()
    for name in NAMES:
        (folder / name).write_text(f'#!/bin/sh\nsleep {seconds}\nexec "{programs / name}" "$@"\n')
        (folder / name).chmod(0o755)
    return folder


def table(out: Path, name: str = "runs.csv") -> list[dict[str, str]]:
    with (out / name).open(encoding="utf-8", newline="") as file:
        return list(csv.DictReader(file))


def rows_made(out: Path) -> dict[str, int]:
    """How many rows each file has."""
    return {path.name: sum(line.endswith("}") for line in path.read_text().split("\n"))
            for path in sorted((out / "rows").iterdir())}


def refused(folder: Path) -> Results:
    """(what it shows, what is wrong or None)"""
    (folder / "named.image").write_text("# count 00000040 4\n" + (folder / "counter.image").read_text())
    for text, words in REFUSED:
        said, status = study(folder, text, None)
        right = (status == 2 and words in said and not (folder / "out").exists() and not (folder / "X").exists()
                 and "Traceback" not in said)
        yield f"refused: {text[:60]!r}", None if right else f"{said[:500]!r}, {status}"
    said, status = study(folder, IMAGE, None, out="$(touch X)")
    yield ("refused: a folder's name",
           None if status == 2 and "which Snakemake would hand to a shell" in said and not (folder / "X").exists()
           else f"{said!r}, {status}")


def studied(folder: Path, programs: Path) -> Results:
    """The figures of a study, which then loses a row and its page, and goes on."""
    said, status = study(folder, PLAN, programs)
    out = folder / "out"
    yield "a study", None if (said, status) == ("", 0) else f"{said!r}, {status}"
    rows = table(out)
    got = {(row["loop"], row["version"]): (row["committed"], row["useful"], row["entries"]) for row in rows}
    yield "its runs", None if got == RUNS and all((row["ending"], row["rollbacks"], row["turns"], row["steps"],
                                                   row["gain"])
                                                  == ("done", "0", row["entries"], row["entries"], "1.00")
                                                  for row in rows) else f"{rows}"
    told = json.loads((out / "manifest.json").read_text())
    made = told["made"]
    right = (told["plan"]["versions"] == [1, 2] and len(told["programs"]["why"]) == 64 and made["counter"] is None
             and "own_counters.c" in made["own_counters"] and "clang version 14" in made["own_counters"])
    yield "its manifest", None if right else f"{told}"
    wanted = {"image_sha256": told["images"], "runner_sha256": told["programs"]["trace_cli"],
              "why_sha256": told["programs"]["why"]}
    wrong = [row for row in rows for name, one in wanted.items()
             if row[name] != (one[row["loop"]] if isinstance(one, dict) else one)]
    yield "each row carries its digests", None if not wrong and told["images"]["counter"] == called_well(
        ["sha256sum", folder / "counter.image"]).split()[0] else f"{wrong}"
    page = (out / "page.html").read_text()
    cells = ElementTree.fromstring("<table>" + page.partition("<tbody>")[2].partition("</tbody>")[0]
                                   + "</table>").findall("tr/td")
    yield "its page", None if len(cells) == 4 * 18 and "runs.csv" in page else f"{len(cells)} cells"
    before, [path] = rows_made(out), (out / "rows").iterdir()
    path.write_text(path.read_text()[:-40])
    (out / "page.html").unlink()
    said, status = study(folder, PLAN, programs)
    after = rows_made(out)
    yield ("what is there isn't run again",
           None if status == 0 and sum(before.values()) == sum(after.values()) and [*after.values()][1:] == [1]
           else f"{said!r}, {before}, {after}")
    yield "and the page is the same", None if (out / "page.html").read_text() == page else "it isn't"


def grown(folder: Path, programs: Path) -> Results:
    """Steps, gains and seeds; and a table that changes."""
    said, status = study(folder, SEEDS.format("1, 2"), programs, "--chunk", "3", "--", "--printshellcmds")
    out = folder / "out"
    yield "even and seeded, by Snakemake", None if (said, status) == ("", 0) else f"{said!r}, {status}"
    rows = table(out)
    even = {(row["store"], row["cores"]): (row["steps"], row["gain"]) for row in rows if row["schedule"] == "even"}
    yield "steps and gain at even speed", None if even == EVEN else f"{even}"
    wrong = []
    for row in rows:
        if row["schedule"] == "seeded":
            words = [str(programs / "replay"), "seeded", row["seed"], row["store"], row["cores"]]
            turns = len(called_well(words, (folder / "own_counters.image").read_text()).split("\n")[0].split()) - 1
            cores = int(row["cores"])
            wanted = (str(turns), str((turns + cores - 1) // cores), f"{int(100 * 64 * cores / turns) / 100:.2f}")
            wrong += [] if (row["turns"], row["steps"], row["gain"]) == wanted else [(row, wanted)]
    yield "steps and gain of seeds", None if not wrong and len(rows) == 12 else f"{wrong}"
    page, one = (out / "page.html").read_text(), [row for row in rows
                                                  if (row["schedule"], row["store"],
                                                      row["cores"]) == ("seeded", "caches", "4")]
    lost = sorted(int(row["lost"]) for row in one)
    told = page.partition('<table id="seeds">')[2].partition("</table>")[0]
    cells = "".join(f"<td>{value:g}</td>" for value in (lost[0], sum(lost) / 2, lost[1]))
    yield ("least, middle and most over the seeds",
           None if cells in told and told.count("<tr>") == 5 else f"{cells} isn't in {told}")
    before = rows_made(out)
    said, status = study(folder, SEEDS.format("1, 2, 7"), programs, "--chunk", "100")
    new = {name: count for name, count in rows_made(out).items() if name not in before}
    yield ("one seed more runs its cells alone",
           None if status == 0 and sum(new.values()) == 4 and len(table(out)) == 16 else f"{said!r}, {new}")
    before = rows_made(out)
    said, status = study(folder, SEEDS.format("2"), programs)
    yield ("one seed less runs none",
           None if status == 0 and rows_made(out) == before and len(table(out)) == 8 else f"{said!r}, {status}")


def rows_of(name: str, loop: str) -> Iterator[dict[str, str]]:
    """The lines of a loop in a table of another program's figures."""
    lines = [line.split("\t") for line in (ROOT / "tests" / name).read_text().splitlines() if line[0] != "#"]
    return (row for line in lines[1:] for row in [dict(zip(lines[0], line))] if row["example"] == loop)


def dear(folder: Path, programs: Path) -> Results:
    """Runs in which turns cost something, and in which loads wait."""
    said, status = study(folder, DEAR, programs)
    out = folder / "out"
    yield "costs and held runs", None if (said, status) == ("", 0) else f"{said!r}, {status}"
    rows = {(row["schedule"], row["costs"], row["cores"]): row for row in table(out)}
    yield "a row for each", differs(list(rows), [(schedule, costs, cores) for cores in "14" for schedule in ("even",
                                                 "held") for costs in ("", *SETS.values())])
    names = dict(zip(COLUMNS, [*COLUMNS[:6], "lost", "dropped", *COLUMNS[8:]]))
    for known in rows_of("costs.tsv", "own_counters"):
        row = rows.get(("even", SETS.get(known["costs"], "none"), known["cores"]))
        if row and known["store"] == "caches":
            yield (f"where the steps went at {row['costs']} on {row['cores']} cores",
                   differs([row[name] for name in COLUMNS], [known[name] for name in names.values()]))
    known = next(row for row in rows_of("held.tsv", "own_counters") if (row["store"], row["cores"]) == ("caches", "4"))
    held, even = rows["held", "", "4"], rows["even", "", "4"]
    yield "where loads wait", differs([held["steps"], held["restarts"], even["steps"], even["restarts"]],
                                      [known[name] for name in ("waits", "waiting_restarts", "speculates",
                                                                "restarts")])
    wrong = [row for row in rows.values()
             if sum(int(row[name] or 0) for name in PARTS) != int(row["cores"]) * int(row["steps"])]
    yield "each step of each core is counted once", None if not wrong else f"{wrong}"
    page = (out / "page.html").read_text()
    heads = re.findall(r">([^<]+)</button>", page.partition('<table id="runs">')[2].partition("</thead>")[0])
    yield "the columns of its page", differs([name for name in ("costs", "order", "queue", "held") if name in heads],
                                             ["costs", "order", "queue", "held"])
    drawn = [path.name for path in sorted(out.glob("gains*.svg"))]
    yield "a plot at each of its costs", differs(
        (drawn, page.count("<svg"), page.count("<h2>Where turns cost bus=10")),
        (["gains-1.svg", "gains-2.svg", "gains.svg"], 3, 2))
    before = rows_made(out)
    said, status = study(folder, DEAR.replace(', "bus=10,hold=10"', ""), programs)
    left = [path.name for path in sorted(out.glob("gains*.svg"))]
    yield ("costs less run nothing", None if status == 0 and rows_made(out) == before and len(table(out)) == 8
           and left == ["gains-1.svg", "gains.svg"] else f"{said!r}, {status}, {left}")


def aparts(folder: Path, programs: Path) -> Results:
    """Runs in which a variable lies apart: those of a loop that has it take what the loop takes that pads it."""
    said, status = study(folder, APART, programs)
    yield "a variable that lies apart", None if (said, status) == ("", 0) else f"{said!r}, {status}"
    steps = {(row["loop"], row["store"], row["apart"], row["cores"]): row["steps"] for row in table(folder / "out")
             if row["loop"] == "own_counters"}
    yield "what it takes", differs(steps, {
        ("own_counters", store, apart, cores): known for cores in ("2", "4")
        for store, apart, known in (("caches", "", TAKES[cores]), ("plain", "", PADDED[cores]),
                                    ("caches:apart=00000040:16:4", "counter:4", PADDED[cores]))})
    others = [row["store"] for row in table(folder / "out") if row["loop"] == "counter"]
    yield "a loop without the variable", differs(others, ["caches", "plain"] * 2)
    page = (folder / "out" / "page.html").read_text()
    yield ("the column of its page",
           None if ">apart</button>" in page and "<td>counter:4</td>" in page else "isn't there")


def wait_for(out: Path, rows: int, run: subprocess.Popen[str] | subprocess.Popen[bytes]) -> None:
    """Waits until a study that runs has so many rows."""
    end = time.monotonic() + SECONDS
    while time.monotonic() < end and run.poll() is None and (not (out / "rows").is_dir()
                                                             or sum(rows_made(out).values()) < rows):
        time.sleep(0.02)


def begun(folder: Path, programs: Path, text: str, rows: int, sign: int) -> str | None:
    """Begins a study, and sends a signal to all of it once so many rows are there. Answers what is wrong, or None."""
    (folder / "plan.toml").write_text(text)
    out = folder / "out"
    with subprocess.Popen(words_of(folder / "plan.toml", out, "--chunk", "4"), stderr=subprocess.PIPE, text=True,
                          env={**os.environ, "LOOPS_PROGRAMS": str(programs)}, start_new_session=True) as run:
        wait_for(out, rows, run)
        there = sum(rows_made(out).values())
        if sign == signal.SIGKILL:
            for pid in called(["ps", "-o", "pid=", "--ppid", str(run.pid)]).stdout.split():
                os.killpg(int(pid), sign)       # snakemake, which has a session of its own
        run.send_signal(sign)
        assert run.stderr
        said = run.stderr.read()
    made = (out / "runs.csv").exists() or there < rows or run.returncode in (0, 1)
    return f"{there} rows, {said!r}, {run.returncode}" if made else None


def stopped(folder: Path, programs: Path) -> Results:
    """A study that is stopped, and then goes on with the same, or with another image, or with other programs."""
    text, late = SEEDS.format("1, 2, 3, 4"), slow(folder / "slow", programs)
    said, status = study(folder, text, late, "--chunk", "50", out="whole")
    yield "a study that is never stopped", None if status == 0 else f"{said!r}, {status}"
    for name, sign in (("SIGTERM", signal.SIGTERM), ("SIGKILL", signal.SIGKILL)):
        yield f"stopped by {name}", begun(folder, late, text, 5, sign)
        said, status = study(folder, text, late, "--chunk", "5")
        other = [one for one in MADE if (folder / "out" / one).read_bytes() != (folder / "whole" / one).read_bytes()]
        right = (status == 0 and not other and sum(rows_made(folder / "out").values()) == ROWS
                 and not [*(folder / "out").glob(".study-jobs-*")])
        yield (f"after {name} it goes on, and is the same byte for byte",
               None if right else f"{said!r}, {status}, {other}, {rows_made(folder / 'out')}")
        shutil.rmtree(folder / "out")
    yield "stopped before the image changes", begun(folder, late, text, 5, signal.SIGTERM)
    shutil.copy(ROOT / "examples" / "padded_counters.image", folder / "own_counters.image")
    said, status = study(folder, text, late)
    rows = table(folder / "out")
    right = (status == 0 and len(rows) == 20 and {row["lost"] for row in rows} == {"0"}
             and len({row["image_sha256"] for row in rows}) == 1)
    yield "and every row is of the new image", None if right else f"{said!r}, {status}, {rows}"
    (late / "replay").write_text((late / "replay").read_text() + "# another\n")
    before = rows_made(folder / "out")
    said, status = study(folder, text, late)
    new = sum(count for name, count in rows_made(folder / "out").items() if name not in before)
    yield ("another replay runs all that it ran",
           None if status == 0 and new == 20 and len({row["runner_sha256"] for row in table(folder / "out")}) == 1
           else f"{said!r}, {new}")


def misused(folder: Path, programs: Path) -> Results:
    """Names with spaces and commands, modules beside the data, and programs that a relative path names."""
    room, mark = folder / "a room", folder / "X"
    for place in (room, room / "the out", room / "the out" / "rows"):
        place.mkdir()
        for name in TAKEN:
            (place / name).write_text(TELLTALE.format(str(mark)))
    names = {"a": "$(touch X).image", "b": "it's; touch X #.image", "c": "`touch X`.image", "ä": "\u202e ä.image"}
    for name in names.values():
        shutil.copy(folder / "counter.image", room / name)
    text = ("gain = 2\ncores = [2]\nstores = ['plain']\n[loops]\n"
            + "".join(f"{json.dumps(name)} = {json.dumps(path)}\n" for name, path in names.items()))
    said, status = study(room, text, Path(os.path.relpath(programs, room)), "--chunk", "2", out="the out")
    there = [path for path in folder.rglob("X")]
    yield ("names that are commands, and modules beside the data",
           None if (said, status, there) == ("", 0, []) else f"{said!r}, {status}, {there}")
    yield "and their rows", None if [row["steps"] for row in table(room / "the out")] else "none"
    last = called([str(ROOT / "tools" / "study"), "--out", "the out", "--chunk", "2", "plan.toml", "--", "--cores",
                   "1"], cwd=room, env={**os.environ, "LOOPS_PROGRAMS": str(programs)})
    yield "words in another order", None if (without_progress(last.stderr), last.returncode) == ("", 0) else f"{last}"


def on_a_cluster(folder: Path, programs: Path) -> Results:
    """By the profile for Slurm, called from another folder: so many jobs as there are chunks, and the same tables."""
    for name, text in SLURM.items():
        path = folder / "bin" / name
        path.parent.mkdir(exist_ok=True)
        path.write_text(f"#!/bin/sh\n{text}\n")
        path.chmod(0o755)
    (folder / "plan.toml").write_text(SEEDS.format("1, 2"))
    env = {**os.environ, "LOOPS_PROGRAMS": str(programs), "PATH": f"{folder / 'bin'}:{os.environ['PATH']}",
           "CALLS": str(folder / "calls"), "CI": "true"}
    words = [*words_of(Path("plan.toml"), Path("the out"), "--chunk", "5"), "--", "--profile",
             os.path.relpath(ROOT / "tools" / "loops" / "studies" / "profiles" / "slurm", folder)]
    done = called(words, cwd=folder, env=env, seconds=SECONDS)
    jobs = (folder / "calls").read_text().splitlines() if (folder / "calls").exists() else []
    yield "by the profile for Slurm", None if (without_progress(done.stderr), done.returncode,
                                               len(jobs)) == ("", 0, 3) else f"{done}, {jobs}"
    said, status = study(folder, SEEDS.format("1, 2"), programs)
    other = [one for one in MADE if (folder / "out" / one).read_bytes() != (folder / "the out" / one).read_bytes()]
    yield "and the tables are those made here", None if status == 0 and not other else f"{said!r}, {status}, {other}"


def failing(folder: Path, programs: Path) -> Results:
    """A program that the machine stops gives no row; a line says how far a study is; and one folder has one study."""
    late, text = slow(folder / "failing", programs, 0), SEEDS.format("1")
    good = (late / "replay").read_text()
    (late / "replay").write_text(good.replace("exec",
                                              'case "$*" in "seeded 1 plain 4") echo stopped NoMemory >&2; exit 3;; '
                                              'esac\nexec'))
    said, status = study(folder, text, late, "--chunk", "4", out="failed")
    right = status == 1 and "stopped NoMemory" in said and "1 of 9 runs have no row" in said
    there = (folder / "failed" / "runs.csv").exists()
    yield "a run that the machine stopped", None if right and not there else f"{said!r}, {status}"
    late = slow(folder / "slower", programs, 1)
    (folder / "plan.toml").write_text(text)
    parent, child = pty.openpty()
    with subprocess.Popen(words_of(folder / "plan.toml", folder / "told", "--chunk", "3"), stderr=child,
                          env={**os.environ, "LOOPS_PROGRAMS": str(late)}) as run:
        wait_for(folder / "told", 1, run)
        other = study(folder, text, late, out="told")
        run.wait(SECONDS)
    os.close(child)
    said = os.read(parent, 65_536).decode()
    yield ("a line of progress",
           None if run.returncode == 0 and " of 9 cells are done, about 0 min 0" in said
           else f"{said!r}, {run.returncode}")
    yield ("a second study in the folder",
           None if other[1] == 1 and "another study runs in this folder" in other[0] else f"{other}")


def sorted_page(folder: Path) -> Results:
    """The order of a column after a click on its head, and after another."""
    browser = driver()
    if browser is None:
        left_out("the order of a study's page", "chromium, chromium-driver and python3-selenium aren't all installed")
        return
    try:
        browser.get((folder / "out" / "page.html").as_uri())
        head = next(one for one in browser.find_elements("css selector", "#runs th button") if one.text == "lost")
        column = 1 + [one.text for one in browser.find_elements("css selector", "#runs th button")].index("lost")
        for order, down in (("ascending", False), ("descending", True)):
            head.click()
            got = [int(one.text) for one in browser.find_elements("css selector", f"#runs td:nth-child({column})")]
            said = browser.find_elements("css selector", "#runs th")[column - 1].get_attribute("aria-sort")
            yield (f"the page sorts, {order}",
                   None if got == sorted(got, reverse=down) and len(set(got)) > 2 and said == order
                   else f"{got}, {said}")
    finally:
        browser.quit()


def in_a_folder(part: Callable[[Path, Path], Results], programs: Path) -> Callable[[], Results]:
    """A part that has a folder with images for itself."""
    @wraps(part)
    def alone() -> Results:
        with tempfile.TemporaryDirectory() as room:
            for name in ("counter", "own_counters"):
                shutil.copy(ROOT / "examples" / f"{name}.image", room)
            yield from part(Path(room), programs)
            if part is grown:
                yield from sorted_page(Path(room))
    return alone


def lacking(programs: Path | None) -> str | None:
    """What studies need that isn't there, or None."""
    if not programs:
        return "why, replay and gain weren't built beside the program that is tested"
    missing = [] if shutil.which("snakemake") else ["snakemake"]
    missing += [f"python3-{name}" for name in ("jsonschema", "matplotlib") if not has_module(name)]
    return f"{' and '.join(missing)} isn't installed" if missing else None


def plans(folder: Path, _: Path) -> Iterator[Check]:
    return refused(folder)


def main() -> int:
    find_selenium()
    imported("jsonschema")
    script = Script()
    with tempfile.TemporaryDirectory() as room:
        programs = furnished(Path(room), script.command())
        parts = [plans, studied, grown, dear, aparts, stopped, misused, on_a_cluster, failing]
        lacks = lacking(programs)
        if lacks:
            left_out("studies", lacks)
            parts = parts[:1] if has_module("jsonschema") else []
        script.run(*[in_a_folder(part, programs or Path(room)) for part in parts])
    return script.ended()


if __name__ == "__main__":
    sys.exit(main())
