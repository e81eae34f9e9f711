"""Loops and their runs: calls the programs, and reads what they take and print. Each form is read and written here and
nowhere else.

    from loops import Programs, read_image

    programs = Programs()
    image = Path("loop.image").read_text()
    output = programs.run(image, cores=4)
    conflicts = programs.why(with_trace(image, output.trace))
    print(conflicts.total.lost, [pair.kinds.false for pair in conflicts.pairs])
"""

from .changes import Change
from .conflicts import Access, Conflicts, Violation, iter_conflicts, read_conflicts
from .dependences import Dependences, Joined, OverStore, When, read_dependences
from .images import Image, Unreadable, read_image
from .programs import Programs, Stopped, with_trace
from .runs import (Counts, Entry, Output, Report, Survey, Trace, Traced, Verdict, iter_entries, read_output,
                   read_report, read_survey, read_traced, read_verdict)
from .steps import Step, Steps, iter_steps, read_steps

__all__ = [
    "Access", "Change", "Conflicts", "Counts", "Dependences", "Entry", "Image", "Joined", "Output", "OverStore",
    "Programs", "Report", "Step", "Steps", "Stopped", "Survey", "Trace", "Traced", "Unreadable", "Verdict",
    "Violation", "When", "iter_conflicts", "iter_entries", "iter_steps", "read_conflicts", "read_dependences",
    "read_image", "read_output", "read_report", "read_steps", "read_survey", "read_traced", "read_verdict",
    "with_trace",
]
