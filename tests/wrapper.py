#!/usr/bin/env python3
"""Tests ./trace_cli, the script that builds the program where it has to and runs it.

Usage: tests/wrapper.py

Each row works in a small tree of its own, with stubs in the place of the kit's commands, so nothing is proved: they
note how they were called, and make a program that prints its words and its standard input. Exits with 1 where a check
failed.
"""

import os
import re
import shutil
import sys
import tempfile
import time
from collections.abc import Callable, Iterator
from itertools import accumulate
from pathlib import Path

from common import ROOT, Check, Script, called, left_out

CRATES = """\
# the crates
low:
other: low
middle: low kit_library
trace_cli: kit_library middle low
bench: middle
"""
RT = """\
#!/bin/sh
case $1 in
    doc) echo "$KIT/START-HERE.md" ;;
    version) echo "kit 1" ;;
    try) shift 2; echo "unproved $*"; cat; exit 4 ;;
esac
"""
# The kit's checker: notes the crate and the verb, and its jobs when it begins and ends. What a program is linked from
# is the program.
CHECKER = """\
#!/bin/sh
verb=$1
for word; do
    case $word in --crate-name=*) crate=${word#*=} ;; --jobs=*) jobs=${word#*=} ;; esac
    last=$word
done
echo "$crate $verb" >>"$CALLS"
echo "said of $crate"
echo "$jobs" >>"$JOBS"
[ -z "$SLOW" ] || sleep "$SLOW"
echo "-$jobs" >>"$JOBS"
[ "$crate" != "$REFUSED" ] || exit 1
case $last in
    --*) ;;
    *.o) printf '#!/bin/sh\\necho "words $*"\\ncat\\nexit 3\\n' >"$last"; chmod +x "$last" ;;
    *) mkdir -p "$last/lang/antt/proofs"; cat src/* specs/* >"$last/interface" 2>/dev/null
        cp -r proofs/* "$last/lang/antt/proofs"
        cat src/* proofs/* | sed "s/^/sum /" >"$last/format" ;;
esac 2>/dev/null
"""
LINKER = """\
#!/bin/sh
[ -n "$NOTHING" ] || cp -p "$7" "$6"
"""
BUILD = ["low build", "middle build", "trace_cli build"]
MOST_MILLISECONDS = 60


class Tree:
    """A tree with the wrapper, a few crates and stubs of the kit's commands."""

    def __init__(self, folder: str) -> None:
        self.top = Path(folder, "a tree")
        self.calls, self.jobs = Path(folder, "calls"), Path(folder, "jobs")
        self.bin = Path(folder, "bin")
        self.kit = Path(folder, "kit")
        for crate in ("low", "other", "middle"):
            self.write(f"crates/{crate}/src/lib.rt", crate)
        self.write("crates/low/src/tests.rt", "tests")
        self.write("crates/low/proofs/Lib.antt", "proof")
        self.write("crates.txt", CRATES)
        self.write("HANDLES", "none")
        self.write("crates/trace_cli/src/main.rt", "program")
        self.write("crates/bench/src/main.rt", "bench")
        for name in ("trace_cli", "tools/build", "tools/crates.py", "tools/help/trace_cli"):
            self.write(name, (ROOT / name).read_text()).chmod(0o755)
        shutil.copytree(ROOT / "tools" / "loops", self.top / "tools" / "loops",
                        ignore=shutil.ignore_patterns("__pycache__"))
        for path, text in ((self.bin / "rt", RT), (self.kit / "bin/rattle", CHECKER),
                           (self.kit / "bin/rattle-link", LINKER)):
            path.parent.mkdir(parents=True, exist_ok=True)
            path.write_text(text)
            path.chmod(0o755)
        (self.bin / "python3").symlink_to(sys.executable)

    def write(self, name: str, text: str) -> Path:
        path = self.top / name
        path.parent.mkdir(parents=True, exist_ok=True)
        path.write_text(text)
        return path

    def run(self, wrapper: Path | None = None, path: Path | None = None, words: tuple[str, ...] = ("seq", "b c"),
            **environment: str) -> tuple[str, list[str], int, list[str]]:
        """The wrapper's output, its lines on standard error, its status and the calls of the checker, sorted."""
        self.calls.write_text("")
        environment = {"PATH": f"{path or self.bin}:/usr/bin:/bin", "CALLS": str(self.calls), "JOBS": str(self.jobs),
                       "REFUSED": "", "NOTHING": "", "SLOW": "", "KIT": str(self.kit), **environment}
        done = called([str(wrapper or self.top / "trace_cli"), *words], "given\n", env=environment)
        return done.stdout, done.stderr.splitlines(), done.returncode, sorted(self.calls.read_text().splitlines())

    def is_run(self, calls: list[str], wrapper: Path | None = None) -> str | None:
        """What is wrong where the program has to run after these calls of the checker, or None."""
        output, errors, status, made = self.run(wrapper)
        if (output, status, made) != ("words seq b c\ngiven\n", 3, calls) or bool(errors) != bool(calls):
            return f"got {output!r}, {errors!r}, {status}, {made!r}"
        return None


Trial = Callable[[Tree], str | None]


def rows() -> list[tuple[str, Trial]]:
    """The checks: each takes a new tree and answers what is wrong, or None."""
    def first_run(tree: Tree) -> str | None:
        output, errors, status, calls = tree.run()
        log = (tree.top / "out" / "trace_cli.log").read_text()
        good = (output, status, calls, len(errors)) == ("words seq b c\ngiven\n", 3, BUILD, 2)
        good = good and errors[0].startswith("trace_cli: not built for these sources yet; 3 of 3 crates are to be "
                                             "proved, on ")
        good = good and errors[1] == "trace_cli: proved and built in 0 min 00 s"
        if not good:
            return f"got {output!r}, {errors!r}, {status}, {calls!r}"
        return None if log.count("said of") == 3 else f"the log is {log!r}"

    def progress(tree: Tree) -> str | None:
        text = (tree.top / "tools/build").read_text()
        tree.write("tools/build", text.replace("SECONDS_BETWEEN_LINES = 20", "SECONDS_BETWEEN_LINES = 0.3"))
        tree.write("crates/low/src/lib.rt", "pub fn one() {}\n    fn two() {}\n")
        tree.write("crates/middle/src/lib.rt", "pub(crate) fn three() {}\n")
        _, errors, _, _ = tree.run(SLOW="0.7")
        wanted = "trace_cli: 1 of 3 crates, 2 of 3 functions proved, 0 min 0"
        lines = [it for it in errors if it.startswith(wanted) and re.search(r"; now middle \(1 functions, \d s\)$", it)]
        return None if lines else f"got {errors!r}"

    def unproved(tree: Tree) -> str | None:
        output, errors, status, calls = tree.run(words=("--unproved", "seq", "b c"))
        good = ((output, status, calls, len(errors)) == ("unproved seq b c\ngiven\n", 4, [], 1)
                and "is unproved" in errors[0])
        if not good:
            return f"got {output!r}, {errors!r}, {status}, {calls!r}"
        tree.is_run(BUILD)
        output, errors, status, calls = tree.run(words=("--unproved", "seq", "b c"))
        good = ((output, status, calls, len(errors)) == ("words seq b c\ngiven\n", 3, [], 1)
                and "is the proved one" in errors[0])
        return None if good else f"built: got {output!r}, {errors!r}, {status}, {calls!r}"

    def helps(tree: Tree) -> str | None:
        page = (tree.top / "tools/help/trace_cli").read_text()
        for words in ((), ("-h",), ("--help",)):
            output, errors, status, calls = tree.run(words=words)
            if (not output.startswith(page) or "Nothing is built yet" not in output
                or (errors, status, calls) != ([], 0, [])):
                return f"{words}: got {output!r}, {errors!r}, {status}, {calls!r}"
        tree.is_run(BUILD)
        output, errors, status, calls = tree.run(words=())
        return None if (output, errors, status, calls) == (page, [], 0,
                                                           []) else f"built: got {output!r}, {errors!r}, {status}"

    def where_it_is(tree: Tree) -> str | None:
        place = f"{tree.top}/crates/trace_cli/out/trace_cli\n"
        output, errors, status, calls = tree.run(words=("--built",))
        if (output, status, calls, len(errors)) != (place, 0, BUILD, 2):
            return f"got {output!r}, {errors!r}, {status}, {calls!r}"
        far = tree.bin / "far"
        far.symlink_to(tree.top / "trace_cli")
        got = tree.run(far, words=("--built",))
        return None if got == (place, [], 0, []) else f"built: got {got}"

    def whether_it_is(tree: Tree) -> str | None:
        got = [tree.run(words=("--is-built",)), *([] if tree.is_run(BUILD) else [tree.run(words=("--is-built",))])]
        return None if got == [("", [], 1, []), ("", [], 0, [])] else f"got {got}"

    def from_python(tree: Tree) -> str | None:
        """A script that calls the program builds nothing unasked. Asked, it shows how far the build is, and calls what
        was built."""
        script = ("import sys; from loops.programs import TREE, call; print(call(TREE / 'trace_cli', ['seq', "
                  "sys.argv[1]], 'given\\n', (3,)), end='')")
        tree.calls.write_text("")
        env = {"PATH": f"{tree.bin}:/usr/bin:/bin", "CALLS": str(tree.calls), "KIT": str(tree.kit),
               "PYTHONPATH": str(tree.top / "tools"), "REFUSED": "", "NOTHING": "", "SLOW": ""}
        alone = called([sys.executable, "-c", script, "one"], env=env)
        if "trace_cli isn't built for these sources" not in alone.stderr or tree.calls.read_text():
            return f"unasked: got {alone}, {tree.calls.read_text()}"
        script = f"from loops.programs import allow_builds; allow_builds(); {script}"
        done = [called([sys.executable, "-c", script, word], env=env) for word in ("one", "two")]
        right = [one.stdout for one in done] == [f"words seq {word}\ngiven\n"
                                                 for word in ("one", "two")] and done[1].stderr == ""
        told = done[0].stderr.splitlines()
        good = (right and len(told) == 2 and "not built for these sources yet" in told[0]
                and "proved and built in" in told[1])
        return None if good else f"got {done}"

    def with_kept_work(tree: Tree) -> str | None:
        (tree.top / "crates/low/out/incremental").mkdir(parents=True)
        return tree.is_run(BUILD)

    def after(change: Callable[[Tree], object], calls: list[str]) -> Trial:
        def check(tree: Tree) -> str | None:
            tree.is_run(BUILD)
            change(tree)
            return tree.is_run(calls) or tree.is_run([])
        return check

    def with_an_old_time(tree: Tree) -> None:
        path = tree.write("crates/low/src/lib.rt", "LOW")
        os.utime(path, (0, 0))

    def touched(tree: Tree) -> None:
        (tree.top / "crates/low/src/lib.rt").touch()

    def links(tree: Tree) -> str | None:
        far, near = tree.bin / "far", tree.bin / "near"
        far.symlink_to(tree.top / "trace_cli")
        near.symlink_to("far")
        return tree.is_run(BUILD, near) or tree.is_run([], far)

    def another_program(tree: Tree) -> str | None:
        (tree.top / "bench").symlink_to("trace_cli")
        return (tree.is_run(["bench build", *BUILD[:2]], tree.top / "bench") or tree.is_run([], tree.top / "bench")
                or tree.is_run(BUILD[2:]))

    def all_programs(tree: Tree) -> str | None:
        (tree.top / "bench").symlink_to("trace_cli")
        output, errors, status, calls = tree.run(tree.top / "tools/build", words=())
        good = (output, status, calls, len(errors)) == ("", 0, ["bench build", *BUILD], 2)
        if not (good
                and errors[0].startswith("programs: not built for these sources yet; 4 of 4 crates are to be proved, "
                                         "on ")):
            return f"got {output!r}, {errors!r}, {status}, {calls!r}"
        again = tree.run(tree.top / "tools/build", words=())
        return (tree.is_run([]) or tree.is_run([], tree.top / "bench")
                or (None if again == ("", [], 0, []) else f"again: got {again}"))

    def all_programs_with_one_refused(tree: Tree) -> str | None:
        (tree.top / "bench").symlink_to("trace_cli")
        output, errors, status, _ = tree.run(tree.top / "tools/build", words=(), REFUSED="bench")
        wanted = "programs: bench is not proved and built; out/programs.log has what the checker says, which ends so:"
        return (None if (output, status) == ("",
                                            1) and wanted in errors and "said of bench" in errors
                else f"got {output!r}, {errors!r}, {status}")

    def as_many_jobs_as_processors(tree: Tree) -> str | None:
        side_by_side = [f"low_{it}" for it in range(6)]
        tree.write("crates.txt", "\n".join([CRATES, *(f"{it}:" for it in side_by_side),
                                            f"bench_all: {' '.join(side_by_side)}", ""]))
        for it in side_by_side:
            tree.write(f"crates/{it}/src/lib.rt", "low")
        tree.write("crates/bench_all/src/main.rt", "bench")
        for it in ("bench", "bench_all"):
            (tree.top / it).symlink_to("trace_cli")
        tree.run(tree.top / "tools/build", words=(), SLOW="0.2")
        begun_and_ended = [int(it) for it in tree.jobs.read_text().splitlines()]
        at_once, processors = [*accumulate(begun_and_ended)], len(os.sched_getaffinity(0))
        good = (len(at_once), at_once[-1]) == (22, 0) and 0 not in begun_and_ended
        good = good and min(processors, 4) <= max(at_once) <= processors
        return None if good else f"the jobs that began and ended are {begun_and_ended}"

    def from_its_folder(tree: Tree) -> str | None:
        tree.is_run(BUILD)
        done = called(["sh", "trace_cli", "seq"], "", cwd=tree.top)
        return None if (done.stdout, done.stderr, done.returncode) == ("words seq\n", "", 3) else f"got {done}"

    def refused(tree: Tree) -> str | None:
        output, errors, status, calls = tree.run(REFUSED="middle")
        good = output == "" and status == 126 and calls == BUILD[:2] and "said of middle" in errors
        wanted = ("trace_cli: middle is not proved and built; out/trace_cli.log has what the checker says, which ends "
                  "so:")
        good = good and wanted in errors
        return tree.is_run(BUILD[1:]) if good else f"got {output!r}, {errors!r}, {status}, {calls!r}"

    def no_program(tree: Tree) -> str | None:
        output, errors, status, _ = tree.run(NOTHING="1")
        good = output == "" and status == 126 and any("nothing was made of trace_cli" in line for line in errors)
        return None if good else f"got {output!r}, {errors!r}, {status}"

    def without_rt(tree: Tree) -> str | None:
        if shutil.which("rt", path="/usr/bin:/bin"):
            left_out("no rt", "one is installed beside sh")
            return None
        output, errors, status, _ = tree.run(path=tree.top)
        wanted = ["trace_cli: the command rt of the Rattle kit is not installed, so the program can't be built"]
        (tree.top / "python3").symlink_to(sys.executable)
        if (output, errors, status) != ("", wanted, 127):
            return f"got {output!r}, {errors!r}, {status}"
        tree.is_run(BUILD)
        output, errors, status, _ = tree.run(path=tree.top)
        return None if (errors, status) == ([], 3) else f"built, and without rt: {errors!r}, {status}"

    def quick(tree: Tree) -> str | None:
        tree.is_run(BUILD)
        best = 1e9
        for _ in range(10):
            begun = time.monotonic()
            tree.run()
            best = min(best, time.monotonic() - begun)
        return None if best * 1e3 < MOST_MILLISECONDS else f"{best * 1e3:.0f} ms"

    return [
        ("first run", first_run),
        ("progress", progress),
        ("an unproved run", unproved),
        ("the page of help", helps),
        ("where the program is", where_it_is),
        ("whether the program is built", whether_it_is),
        ("called from Python", from_python),
        ("over work that a check kept", with_kept_work),
        ("second run", after(lambda tree: None, [])),
        ("a source that changed", after(lambda tree: tree.write("crates/low/src/lib.rt", "LOW"), BUILD)),
        ("a source that changed, with an old time", after(with_an_old_time, BUILD)),
        ("a proof that changed", after(lambda tree: tree.write("crates/low/proofs/Lib.antt", "PROOF"), BUILD[:1])),
        ("a promise that changed", after(lambda tree: tree.write("crates/low/specs/Lib.antt", "PROMISE"), BUILD)),
        ("a new specification", after(lambda tree: tree.write("crates/middle/specs/Lib.antt", "new"), BUILD[1:])),
        ("a source that went", after(lambda tree: (tree.top / "crates/middle/src/lib.rt").unlink(), BUILD[1:])),
        ("a source that was touched", after(touched, [])),
        ("the program's tests", after(lambda tree: tree.write("crates/low/src/tests.rt", "TESTS"), [])),
        ("a crate that isn't the program's", after(lambda tree: tree.write("crates/other/src/lib.rt", "OTHER"), [])),
        ("a bench", after(lambda tree: tree.write("crates/bench/src/main.rt", "BENCH"), [])),
        ("another crate in crates.txt", after(
            lambda tree: tree.write("crates.txt", CRATES.replace("kit_library middle low", "middle other")),
            ["other build", *BUILD[2:]])),
        ("the program went", after(lambda tree: (tree.top / "crates/trace_cli/out/trace_cli").unlink(), BUILD[2:])),
        ("a library went", after(lambda tree: shutil.rmtree(tree.top / "crates/low/out/statements"), [])),
        ("symbolic links", links),
        ("a link of another program's name", another_program),
        ("all programs", all_programs),
        ("all programs, of which one is refused", all_programs_with_one_refused),
        ("at most as many jobs as processors", as_many_jobs_as_processors),
        ("from its own folder", from_its_folder),
        ("a crate that is refused", refused),
        ("no program was made", no_program),
        ("no rt", without_rt),
        ("the time of a call", quick),
    ]


def trials() -> Iterator[Check]:
    """Each in a tree of its own."""
    for name, trial in rows():
        with tempfile.TemporaryDirectory() as folder:
            yield name, trial(Tree(folder))


def main() -> int:
    script = Script()
    script.run(trials)
    return script.ended()


if __name__ == "__main__":
    sys.exit(main())
