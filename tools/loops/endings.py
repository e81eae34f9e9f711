"""How a tool ends: with the status that its `main` gives, and without a word where nobody reads what it prints any
more. What it prints is UTF-8."""

import io
import os
import signal
import sys
from collections.abc import Callable
from functools import wraps

# What a shell tells of `cat` in the same place, which SIGPIPE ends
UNREAD = 128 + signal.SIGPIPE


def tool(main: Callable[[], int]) -> Callable[[], int]:
    """The `main` of a tool, which answers its status. Where the reader of standard output has gone, as `head` goes,
    that is UNREAD."""
    @wraps(main)
    def run() -> int:
        for stream in (sys.stdout, sys.stderr):
            if isinstance(stream, io.TextIOWrapper):
                stream.reconfigure(encoding="utf-8", errors="backslashreplace")
        try:
            try:
                status = main()
            except SystemExit:              # as argparse ends after --help
                sys.stdout.flush()
                raise
            sys.stdout.flush()
        except BrokenPipeError:
            # what is left to be written goes nowhere, else Python would tell of it at its end
            os.dup2(os.open(os.devnull, os.O_WRONLY), sys.stdout.fileno())
            status = UNREAD
        return status
    return run
