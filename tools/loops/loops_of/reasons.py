"""Why a loop has no image, and why a program can't be taken."""


class Refused(Exception):
    """A loop that can't be an image; the words say where and why."""


class Unusable(Exception):
    """A program that can't be built or run, or a request that names no loop."""


class Faults(Unusable):
    """A program that does what a processor stops at."""


class Otherwise(Exception):
    """A check that failed: the fault is this tool's. The first word is WRONG where the program runs otherwise, and
    DIFFERENT where the image does."""


NOT_ENTERED = "this run doesn't enter it"
ENDS_WITHIN = "the program ends within it, or leaves it by longjmp"
CAME_AGAIN = "it is entered again from within, as where another source calls main"


def system_call(place: str) -> str:
    return f"{place}: calls the system, which the machine hasn't (output, input, the end)"


def iteration(number: int) -> str:
    return f"its iteration {number}"


def too_long(place: str, what: str, limit: int) -> str:
    """`what` is an iteration, or an epoch of several."""
    return f"{place}: {what} takes more than {limit} instructions"


def misaligned(place: str, what: str) -> str:
    return f"{place}: {what} loads or stores at an address that isn't a multiple of the size, which the machine doesn't"


def stack_ran_out(bytes_: int) -> str:
    return f"the program's stack ran out; --stack takes more than {bytes_}"


def too_large(end: int, most: int, options: str) -> str:
    return f"needs {end} bytes of memory, and {most} is the most; {options} may take less"


def too_much_text(length: int, most: int) -> str:
    return f"the image has {length} bytes of text, more than {most}: too much memory is in use"


def unlinked(names: list[str]) -> str:
    return "nothing defines " + ", ".join(names) + "; give the source that does, or a program that does without"
