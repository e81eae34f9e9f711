"""What a file or a tool may take while it is read or runs: time, memory, and bytes that are written."""

import resource
import signal
import threading
from collections.abc import Iterator
from contextlib import contextmanager
from pathlib import Path
from types import FrameType

# Of one file, for pyelftools: a line table of 100,000 rows takes about 5 s and 200 MB.
SECONDS, MEMORY = 60.0, 2_000_000_000
# Of one file that a compiler or a linker writes, and of the processor
LARGEST_FILE, TOOL_SECONDS = 64_000_000, 300
PAGE = resource.getpagesize()


class TooLong(Exception):
    """What was begun takes too long."""


def taken() -> int:
    """The bytes of address space that this process has, or 0 where the system doesn't say it."""
    told = Path("/proc/self/statm")
    return int(told.read_text(encoding="ascii").split()[0]) * PAGE if told.is_file() else 0


@contextmanager
def bounded(seconds: float | None = None) -> Iterator[None]:
    """Raises TooLong after so many seconds of the processor, and MemoryError where more memory is asked for than
    MEMORY."""
    def ended(_number: int, _frame: FrameType | None) -> None:
        raise TooLong(f"takes more than {seconds or SECONDS:g} s of the processor")

    if threading.current_thread() is not threading.main_thread():
        yield
        return
    least, most = resource.getrlimit(resource.RLIMIT_AS)
    room = taken() + MEMORY
    before = signal.signal(signal.SIGVTALRM, ended)
    try:
        if taken() and (least == resource.RLIM_INFINITY or room < least):
            resource.setrlimit(resource.RLIMIT_AS, (room, most))
        signal.setitimer(signal.ITIMER_VIRTUAL, seconds or SECONDS)
        yield
    finally:
        signal.setitimer(signal.ITIMER_VIRTUAL, 0)
        signal.signal(signal.SIGVTALRM, before)
        resource.setrlimit(resource.RLIMIT_AS, (least, most))


def limit_tool() -> None:
    """Lets this process, one that is about to become a compiler or a linker, write no file larger than LARGEST_FILE, of
    which it is told that it is too large, and ends it after TOOL_SECONDS."""
    for kind, least in ((resource.RLIMIT_FSIZE, LARGEST_FILE), (resource.RLIMIT_CPU, TOOL_SECONDS)):
        now, most = resource.getrlimit(kind)
        resource.setrlimit(kind, (least if now == resource.RLIM_INFINITY else min(least, now), most))
    signal.signal(signal.SIGXFSZ, signal.SIG_IGN)
