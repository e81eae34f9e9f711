"""A page of SVG that stands alone: no script, no font or style from elsewhere."""

import math
from html import escape

# The kinds of conflicts as the report names them, their colours, and what they say.
COLOURS = {"true": "#c1121f", "silent": "#7b2cbf", "false": "#e07a00", "buffer": "#495057", "other": "#000000"}
MEANINGS = {
    "true": "true sharing: the victim had read these bytes, too early",
    "silent": "silent store: the same bytes, but the value was there already",
    "false": "false sharing: other bytes of the same line",
    "buffer": "full buffer: no place for the victim's line",
    "other": "unexplained: no cause in the trace",
}
USEFUL, STRAIGHT, GONE, INK, PALE, GRID = "#a9d6e5", "#2a6f97", "#dddddd", "#1d2733", "#6b7785", "#e6e9ec"
LOST, CANCELLED = "url(#lost)", "url(#cancelled)"
# What tells a kind without its colour: a hatch over it in boxes, the dashes of its lines, and the corners of its mark,
# from its middle in units of its size.
HATCHES = {"true": "", "silent": "M0 3h6", "false": "M0 6L6 0", "buffer": "M0 3h6M3 0v6", "other": "M3 3h1.6"}
DASHES = {"true": "", "silent": "7 2", "false": "3 2", "buffer": "1.5 1.5", "other": "8 2 2 2"}
MARKS = {"silent": "-1.3 -1 1.3 -1 0 1.3", "false": "0 -1.4 1.4 0 0 1.4 -1.4 0", "buffer": "0 -1.3 1.3 1 -1.3 1",
         "other": "-1.4 -.5 1.4 -.5 1.4 .5 -1.4 .5"}


def hatched(kind: str) -> str:
    """The fill of a box of a kind."""
    return f"url(#kind-{kind})" if HATCHES[kind] else COLOURS[kind]


def patterns() -> str:
    """The fills of boxes: of what was lost, of what was cancelled, and of each kind."""
    def pattern(name: str, ground: str, shapes: str) -> str:
        return (f'<pattern id="{name}" width="6" height="6" patternUnits="userSpaceOnUse"><rect width="6" height="6" '
                f'fill="{ground}"/>{shapes}</pattern>')

    kinds = [pattern(f"kind-{kind}", COLOURS[kind], f'<path d="{steps}" stroke="#fff" stroke-width="1.2"/>')
             for kind, steps in HATCHES.items() if steps]
    lost = ('<pattern id="lost" width="6" height="6" patternUnits="userSpaceOnUse" patternTransform="rotate(45)">'
            '<rect width="6" height="6" fill="#f6c6c8"/><rect width="2" height="6" fill="#e5989b"/></pattern>')
    return lost + pattern("cancelled", GONE, f'<circle cx="2" cy="2" r="0.9" fill="{PALE}"/>') + "".join(kinds)


# The width of a character of the font, as a part of its size; generous, so that text fits.
CHARACTER = 0.62


class Page:
    """Shapes, and the room that they take."""

    def __init__(self) -> None:
        self.parts: list[str] = []
        self.width: float = 0
        self.height: float = 0

    def reach(self, x: float, y: float) -> None:
        self.width, self.height = max(self.width, x), max(self.height, y)

    def text(self, x: float, y: float, words: str, size: float = 11, fill: str = INK, anchor: str = "start",
             bold: bool = False, halo: bool = False) -> None:
        style = ' stroke="#fff" stroke-width="3" paint-order="stroke" stroke-linejoin="round"' if halo else ""
        weight = ' font-weight="bold"' if bold else ""
        self.parts.append(f'<text x="{x:.1f}" y="{y:.1f}" font-size="{size:g}" fill="{fill}" '
                          f'text-anchor="{anchor}"{weight}{style}>'
                          f"{escape(words)}</text>")
        self.reach(x + (len(words) * size * CHARACTER if anchor == "start" else 4), y + 6)

    def box(self, x: float, y: float, width: float, height: float, fill: str, stroke: str = "none", tip: str = "",
            line: float = 1.0) -> None:
        title = f"<title>{escape(tip)}</title>" if tip else ""
        self.parts.append(f'<rect x="{x:.1f}" y="{y:.1f}" width="{max(width, 0):.1f}" height="{max(height, 0):.1f}" '
                          f'fill="{fill}" '
                          f'stroke="{stroke}" stroke-width="{line:g}">{title}</rect>')
        self.reach(x + width, y + height)

    def line(self, x1: float, y1: float, x2: float, y2: float, stroke: str, width: float = 1.0,
             dashes: str = "") -> None:
        dashed = f' stroke-dasharray="{dashes}"' if dashes else ""
        self.parts.append(f'<line x1="{x1:.1f}" y1="{y1:.1f}" x2="{x2:.1f}" y2="{y2:.1f}" stroke="{stroke}" '
                          f'stroke-width="{width:g}"{dashed}/>')

    def path(self, steps: str, fill: str = "none", stroke: str = "none", width: float = 1.0, tip: str = "",
             dashes: str = "") -> None:
        title, dashed = (f"<title>{escape(tip)}</title>" if tip else "",
                         f' stroke-dasharray="{dashes}"' if dashes else "")
        self.parts.append(f'<path d="{steps}" fill="{fill}" stroke="{stroke}" '
                          f'stroke-width="{width:g}"{dashed}>{title}</path>')

    def ring(self, x: float, y: float, colour: str) -> None:
        self.parts.append(f'<circle cx="{x:.1f}" cy="{y:.1f}" r="5" fill="none" stroke="{colour}" stroke-width="1.8"/>')

    def mark(self, x: float, y: float, size: float, kind: str, tip: str = "") -> None:
        """The sign of a kind: a dot, a triangle on its head, a diamond, a triangle or a bar."""
        title = f"<title>{escape(tip)}</title>" if tip else ""
        if kind not in MARKS:
            self.parts.append(f'<circle cx="{x:.1f}" cy="{y:.1f}" r="{size:g}" fill="{COLOURS[kind]}">{title}</circle>')
            return
        ends = [float(word) * size for word in MARKS[kind].split()]
        points = " ".join(f"{x + across:.1f},{y + down:.1f}" for across, down in zip(ends[::2], ends[1::2]))
        self.parts.append(f'<polygon points="{points}" fill="{COLOURS[kind]}">{title}</polygon>')

    def arrow(self, x1: float, y1: float, x2: float, y2: float, kind: str, tip: str = "") -> None:
        """From what rolled back to whom, by its mark, its dashes and its colour."""
        colour = COLOURS[kind]
        turn = math.atan2(y2 - y1, x2 - x1)
        along, across = math.cos(turn), math.sin(turn)
        corners = [(x2 - 8 * along - side * across, y2 - 8 * across + side * along) for side in (4, -4)]
        self.mark(x1, y1, 2.6, kind)
        self.path(f"M{x1:.1f} {y1:.1f} L{x2:.1f} {y2:.1f}", stroke=colour, width=1.8, tip=tip, dashes=DASHES[kind])
        self.path(f"M{corners[0][0]:.1f} {corners[0][1]:.1f} L{x2:.1f} {y2:.1f} L{corners[1][0]:.1f} "
                  f"{corners[1][1]:.1f} Z", fill=colour, tip=tip)

    def flag(self, x: float, y: float, tip: str = "") -> None:
        """The sign of a commit."""
        self.path(f"M{x:.1f} {y:.1f} v10 l9 -5 z", fill="#1b7f3b", tip=tip)

    def whole(self, title: str) -> str:
        width, height = math.ceil(self.width) + 24, math.ceil(self.height) + 16
        return (f'<svg xmlns="http://www.w3.org/2000/svg" width="{width}" height="{height}" viewBox="0 0 {width} '
                f'{height}" '
                f'font-family="DejaVu Sans, Helvetica, Arial, sans-serif">\n<title>{escape(title)}</title>\n'
                f'<defs>{patterns()}</defs>\n'
                '<rect width="100%" height="100%" fill="#fff"/>\n' + "\n".join(self.parts) + "\n</svg>\n")
