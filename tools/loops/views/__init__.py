"""The page on which a run is stepped through: its data, its sentences, and what it is made of."""

import html
import json
import re
from pathlib import Path

from .data import PageData

HERE = Path(__file__).resolve().parent
SCRIPTS = ("state.js", "parts.js", "lanes.js", "page.js")


def page(data: PageData) -> str:
    """The whole page, which stands alone."""
    told = json.dumps(data, separators=(",", ":")).replace("<", "\\u003c")
    script = "".join((HERE / name).read_text(encoding="utf-8") for name in SCRIPTS)
    parts = {"@TITLE@": html.escape(data["about"] or "A run, turn by turn"),
             "@STYLE@": (HERE / "page.css").read_text(encoding="utf-8"), "@SCRIPT@": script, "@RUN@": told}
    return re.sub("|".join(parts), lambda name: parts[name[0]], (HERE / "page.html").read_text(encoding="utf-8"))
