"""Waves as an SVG picture.

A 1 is a line at the top of a row and a 0 one at its bottom; x is a hatched red field over the whole row, and z a
dashed amber line in its middle, as wave viewers show them. Of another version the wave stands in grey behind it, and where
the two differ is shaded."""
from typing import Iterator, List
from xml.sax.saxutils import escape

from .picture import Picture, Span, spans
from .wave import Wave

# All lengths are in user units of the picture, which a browser shows as pixels.
WIDTH, MARGIN = 860, 16
ROW, HEIGHT = 34, 18
AXIS = 34
CHARACTER, MARK_PITCH = 8.0, 60
# What is shorter is drawn as long as this, so that it is seen.
LEAST = 1.0
FONT = "ui-monospace, 'DejaVu Sans Mono', Menlo, Consolas, monospace"

STYLE = f"""
text {{ font: 13px {FONT}; fill: #24292f; }}
.time {{ font-size: 11px; fill: #57606a; }}
.grid {{ stroke: #d8dee4; stroke-width: 1; }}
.wave {{ fill: none; stroke: #0a7f3f; stroke-width: 1.6; stroke-linejoin: miter; }}
.x {{ fill: url(#hatch); stroke: #cf222e; stroke-width: 1.2; }}
.z {{ fill: none; stroke: #b35900; stroke-width: 1.6; stroke-dasharray: 5 3; }}
"""

# What another version needs beside.
GHOST_STYLE = """.differs { fill: #fff1b8; }
.ghost { fill: none; stroke: #8c959f; stroke-width: 1.2; }
"""

HATCH = (
    '<defs><pattern id="hatch" width="6" height="6" patternUnits="userSpaceOnUse" patternTransform="rotate(45)">'
    '<rect width="6" height="6" fill="#fff1f0"/><line x1="0" y1="0" x2="0" y2="6" stroke="#cf222e" stroke-width="1.4"/>'
    "</pattern></defs>"
)


def draw_svg(picture: Picture) -> str:
    """The picture as the text of an SVG file. The tooltip of a net says its changes."""
    return Drawing(picture).text()


class Drawing:
    """A picture with its scale: where a moment and a row stand."""

    def __init__(self, picture: Picture) -> None:
        self.picture = picture
        longest = max([7, *(len(it.net) for it in picture.waves)])
        self.left = MARGIN + longest * CHARACTER + 12
        self.right = WIDTH - MARGIN
        self.scale = (self.right - self.left) / picture.moments
        self.height = AXIS + ROW * len(picture.waves) + MARGIN / 2

    def x(self, moment: int) -> float:
        """Where a moment begins."""
        return self.left + (moment - self.picture.start) * self.scale

    def text(self) -> str:
        body = [HATCH, f'<rect width="{WIDTH}" height="{self.height:g}" rx="6" fill="#ffffff"/>', *self.axis()]
        for row, wave in enumerate(self.picture.waves):
            body += self.row(wave, AXIS + ROW * row + (ROW - HEIGHT) / 2)
        size = f'width="{WIDTH}" height="{self.height:g}" viewBox="0 0 {WIDTH} {self.height:g}"'
        head = f'<svg xmlns="http://www.w3.org/2000/svg" {size} role="img">'
        title = f"<title>{escape(self.title())}</title>"
        style = STYLE + (GHOST_STYLE if self.picture.before else "")
        return "\n".join([head, title, f"<style>{style}</style>", *body, "</svg>"]) + "\n"

    def title(self) -> str:
        nets = ", ".join(it.net for it in self.picture.waves)
        return f"The waves of {nets} from {self.picture.start} to {self.picture.end}"

    def axis(self) -> Iterator[str]:
        """A line for each moment that is named, and the time unit."""
        yield label(MARGIN, AXIS - 12, self.picture.unit, "time")
        least = max(1, round(MARK_PITCH / self.scale))
        for moment in self.picture.marks(least):
            x = self.x(moment)
            yield f'<line class="grid" x1="{x:.1f}" y1="{AXIS - 6}" x2="{x:.1f}" y2="{self.height - MARGIN / 2:g}"/>'
            yield label(x, AXIS - 12, str(moment), "time", "middle")

    def row(self, wave: Wave, top: float) -> Iterator[str]:
        """The name of a net and its wave, in a row whose wave stands between `top` and `top` + HEIGHT."""
        changes = ", ".join(f"{it.value} at {it.time}" for it in wave.between(self.picture.start, self.picture.end))
        yield f"<g><title>{escape(wave.net)}: {changes or 'no change'}</title>"
        yield label(self.left - 12, top + HEIGHT / 2 + 4.5, wave.net, "net", "end")
        if wave.net in self.picture.before:
            yield from self.ghost(self.picture.before[wave.net], wave, top)
        found = spans(wave, self.picture.start, self.picture.end)
        yield from (self.field("x", span.start, span.end, top) for span in found if span.value == "x")
        yield f'<path class="wave" d="{self.levels(found, top)}"/>'
        for span in found:
            if span.value == "z":
                start = self.x(span.start)
                end = max(start + LEAST, self.x(span.end))
                yield f'<path class="z" d="M{start:.1f} {top + HEIGHT / 2:g}H{end:.1f}"/>'
        yield "</g>"

    def field(self, style: str, start: int, end: int, top: float) -> str:
        """A field over the whole row."""
        width = max(LEAST, self.x(end) - self.x(start))
        return f'<rect class="{style}" x="{self.x(start):.1f}" y="{top:g}" width="{width:.1f}" height="{HEIGHT}"/>'

    def ghost(self, before: Wave, now: Wave, top: float) -> Iterator[str]:
        """The wave of another version, and where it differs."""
        last = min(self.picture.end, before.horizon)
        if last < self.picture.start:
            return
        yield from (self.field("differs", *it, top) for it in before.differences(now, self.picture.start, last))
        found = spans(before, self.picture.start, last)
        yield from (self.field("ghost", it.start, it.end, top) for it in found if it.value == "x")
        middles = "".join(
            f"M{self.x(it.start):.1f} {top + HEIGHT / 2:g}H{self.x(it.end):.1f}" for it in found if it.value == "z"
        )
        yield f'<path class="ghost" d="{self.levels(found, top)}{middles}"/>'

    def levels(self, found: List[Span], top: float) -> str:
        """The lines of the levels 0 and 1, with an edge at each change between them and between one of them and z."""
        level = {"1": top, "0": top + HEIGHT, "z": top + HEIGHT / 2}
        path, before = [], ""
        for span in found:
            if span.value in "01":
                is_joined = before in level
                path.append(f"{'L' if is_joined else 'M'}{self.x(span.start):.1f} {level[span.value]:g}")
                path.append(f"H{self.x(span.end):.1f}")
            elif span.value == "z" and before in ("0", "1"):
                path.append(f"V{level['z']:g}")
            if span.value == "z":
                path.append(f"M{self.x(span.end):.1f} {level['z']:g}")
            before = span.value
        return "".join(path)


def label(x: float, y: float, text: str, style: str, anchor: str = "start") -> str:
    return f'<text class="{style}" x="{x:.1f}" y="{y:g}" text-anchor="{anchor}">{escape(text)}</text>'
