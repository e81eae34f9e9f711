#!/usr/bin/env python3
"""What the commands of `trace_cli` do where a stream is slow or fails, or a thread is refused.

Usage: tests/streams.py [COMMAND ..]

COMMAND reads its standard input and ends with the word `seq`, in whose place
`run` or `audit` is put for some checks; without it `./trace_cli seq` of this
repository is tested. Needs Linux: /dev/full, on
which each write fails, and /proc/self/mem, whose first read fails. Exits with 1
where an outcome differs.
"""

import os
import subprocess
import sys
import tempfile
import time
from collections.abc import Iterator
from functools import partial
from typing import Any

from common import Row, Script, called_bytes, comparing

COUNTER = b"size 256\nepochs 4\nlimit 100\ncode 83220004b382a2002320500467800000\n"
FAULT = b"size 256\nepochs 1\nlimit 100\ncode 00000000\n"
TRACED = b"size 256\nepochs 1\nlimit 100\ncode 83220004b382a2002320500467800000\ntrace 1\n0 start 0\n"
VERDICT = b"legal 1 0\n"
ONE = b"size 256\nepochs 1\nlimit 100\ncode 83220004b382a2002320500467800000\n"
ONE_TRACED = (b"end done 1\ncounts 1 1 0 1\ntrace 1\n0 start 0\n0 load 00000040 4 00000000\n"
              b"0 store 00000040 4 00000000\n0 commit\n")
REPORT = b"end done 4\nat 00000040 06000000000000000000000000000000\n"


def outcome(command: list[str], text: bytes, **streams: Any) -> tuple[bytes | None, bytes | None, int]:
    """Standard output, standard error and status; a stream that is given is not read back."""
    done = called_bytes(command, text, **streams)
    return done.stdout, done.stderr, done.returncode


def piecewise(command: list[str], text: bytes, length: int) -> tuple[bytes, bytes, int]:
    """The outcome where the text comes in pieces of this length."""
    with subprocess.Popen(command, stdin=subprocess.PIPE, stdout=subprocess.PIPE, stderr=subprocess.PIPE) as child:
        assert child.stdin
        for place in range(0, len(text), length):
            child.stdin.write(text[place:place + length])
            child.stdin.flush()
            time.sleep(0.002)
        out, err = child.communicate()
    return out, err, child.returncode


def failing_read(command: list[str]) -> tuple[bytes, bytes, int]:
    """The outcome where each read fails: address 0 of this process has no memory."""
    descriptor = os.open("/proc/self/mem", os.O_RDONLY)
    try:
        done = called_bytes(command, stdin=descriptor)
    finally:
        os.close(descriptor)
    return done.stdout, done.stderr, done.returncode


def taken_from_file(command: list[str], text: bytes) -> tuple[bytes, bytes, int, int]:
    """The outcome where the input is a file, and how many of its bytes were read."""
    with tempfile.TemporaryFile(buffering=0) as given:
        given.write(text)
        given.seek(0)
        done = called_bytes(command, stdin=given)
        return done.stdout, done.stderr, done.returncode, given.tell()


@comparing
def checks(command: list[str]) -> Iterator[Row]:
    yield "text byte by byte", piecewise(command, COUNTER, 1), (REPORT, b"", 0)
    yield "text in pieces of 7", piecewise(command, COUNTER, 7), (REPORT, b"", 0)
    yield "failed read", failing_read(command), (b"", b"image 0 Read\n", 2)
    yield "trace byte by byte", piecewise(command[:-1] + ["audit"], TRACED, 1), (VERDICT, b"", 0)
    yield "failed read of an audit", failing_read(command[:-1] + ["audit"]), (b"", b"trace 0 Read\n", 2)
    run = command[:-1] + ["run", "--cores", "4"]
    traced = command[:-1] + ["run", "--cores", "1", "--trace"]
    yield "run, text byte by byte", piecewise(run, COUNTER, 1), (REPORT, b"", 0)
    yield "run, text in pieces of 7, traced", piecewise(traced, ONE, 7), (ONE_TRACED, b"", 0)
    yield "failed read of a run", failing_read(run), (b"", b"image 0 Read\n", 2)
    with open("/dev/full", "wb", buffering=0) as full:
        yield "failed write of a run", outcome(run, COUNTER, stdout=full), (None, b"stopped Write\n", 3)
        yield "failed write of a traced run", outcome(traced, ONE, stdout=full), (None, b"stopped Write\n", 3)
        yield "failed write of a run that faults", outcome(run, FAULT, stdout=full), (None, b"stopped Write\n", 3)
        yield "failed write of a run's refusal", outcome(run, b"", stderr=full), (b"", None, 2)
        yield "a run that can't write to the error stream", outcome(run, COUNTER, stderr=full), (REPORT, None, 0)
        yield "failed write", outcome(command, COUNTER, stdout=full), (None, b"stopped Write\n", 3)
        yield "failed write after a fault", outcome(command, FAULT, stdout=full), (None, b"stopped Write\n", 3)
        yield "failed write of both", outcome(command, COUNTER, stdout=full, stderr=full), (None, None, 3)
        yield "failed write of a refusal", outcome(command, b"", stderr=full), (b"", None, 2)
        yield "no write to the error stream", outcome(command, COUNTER, stderr=full), (REPORT, None, 0)
        audit = command[:-1] + ["audit"]
        yield "failed write of a verdict", outcome(audit, TRACED, stdout=full), (None, b"stopped Write\n", 3)
        yield "failed write of a refused trace", outcome(audit, COUNTER, stderr=full), (b"", None, 2)
        words = command[:-1] + ["x"]
        yield "failed write of usage", outcome(words, COUNTER, stderr=full), (b"", None, 2)
    yield "all of a text is read", taken_from_file(command, COUNTER), (REPORT, b"", 0, len(COUNTER))
    for name, more in ("no command reads", command[:-1] + ["x"]), ("a word too many reads", command + ["x"]):
        yield f"{name} nothing", taken_from_file(more, COUNTER), (b"", b"usage\n", 2, 0)


def main() -> int:
    script = Script()
    script.run(partial(checks, script.command()))
    return script.ended()


if __name__ == "__main__":
    sys.exit(main())
