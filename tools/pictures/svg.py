"""Draws SVG pictures that are readable on both light and dark pages.

Nodes and hand-overs have the same colours as in the program's pictures (`qolb draw --svg`), so one key explains all pictures. The colours are
read from the program's source.
"""

import pathlib
import re
from xml.sax.saxutils import escape

PROGRAM = pathlib.Path(__file__).resolve().parents[2] / "crates/qolb_draw/src/svg.rt"
# The key: the class of a bar in the program's pictures, and what it means.
KEY = {"waits": "waits", "turn": "may take its turn", "holds": "holds the line"}


def colours():
    """The colours of the bars and of the arrow in the program's pictures, on a light page and on a dark one."""
    style = PROGRAM.read_text().split("<style>", 1)[1].split("</style>", 1)[0]
    parts = style.split("@media(prefers-color-scheme:dark){")
    return [{name: re.search(rf"^\.{name}\{{.*?(?:fill|stroke):(#\w+)", part.replace("fill:none;", ""), re.M)[1] for name in (*KEY, "arrow")} for part in parts]


LIGHT, DARK = colours()


def bars(page):
    """The style of bars and arrows on a page of these colours."""
    return " ".join([*(f".{name} {{ fill: {page[name]} }}" for name in KEY), f".arrow {{ stroke: {page['arrow']} }} .tip, .hot {{ fill: {page['arrow']} }}"])


# The colours are of middle tone, so that they can be read on white and on black where a viewer knows no colour scheme.
STYLE = """
    text { font: 13px -apple-system, "Segoe UI", Helvetica, Arial, sans-serif; fill: #727d8b }
    .strong { font-weight: 600 }
    .small { font-size: 12px }
    .code { font-family: ui-monospace, SFMono-Regular, Menlo, Consolas, "DejaVu Sans Mono", monospace; font-size: 12px }
    .hot { font-weight: 600 }
    .line { stroke: #818b98; fill: none }
    .faint { stroke: #818b98; fill: none; stroke-opacity: .45 }
    .arrow { fill: none; stroke-width: 2 }
    .call { fill: #727d8b }
    .inside { fill: #1f2328 }
    .box { stroke: #818b98; fill: #818b98; fill-opacity: .10 }
    .a { stroke: #3f83c8; fill: #3f83c8; fill-opacity: .16 }
    .b { stroke: #35955b; fill: #35955b; fill-opacity: .16 }
    .c { stroke: #c9651b; fill: #c9651b; fill-opacity: .16 }
    .d { stroke: #818b98; fill: none }
    %s
    @media (prefers-color-scheme: light) { text, .call { fill: #424a53 } .inside { fill: #1f2328 } .hot { fill: %s } }
    @media (prefers-color-scheme: dark) { text, .call { fill: #b7c0ca } .inside { fill: #e6edf3; paint-order: stroke; stroke: #0d1117; stroke-width: 2px } %s }
""" % (bars(LIGHT), LIGHT["arrow"], bars(DARK))

MARKERS = "".join(
    f'<marker id="{name}" viewBox="0 0 8 8" refX="7" refY="4" markerWidth="8" markerHeight="8" markerUnits="userSpaceOnUse" orient="auto">'
    f'<path d="M0,0.5 L8,4 L0,7.5 z" {colour}/></marker>'
    for name, colour in (("tip", 'fill="#818b98"'), ("hottip", 'class="tip"'))
)


class Picture:
    """Shapes on a sheet, in the order in which they are drawn."""

    def __init__(self, width, height, title):
        self.width, self.height, self.title = width, height, title
        self.shapes = []

    def text(self, x, y, words, kind="", anchor="middle"):
        self.shapes.append(f'<text x="{x:g}" y="{y:g}" class="{kind}" text-anchor="{anchor}">{escape(words)}</text>')

    def box(self, x, y, width, height, kind="box", radius=5):
        self.shapes.append(f'<rect x="{x:g}" y="{y:g}" width="{width:g}" height="{height:g}" rx="{radius}" class="{kind}"/>')

    def path(self, steps, kind="line", tip=None):
        """A path by the words of SVG, with an arrow's tip at its end or none."""
        end = f' marker-end="url(#{tip})"' if tip else ""
        self.shapes.append(f'<path d="{steps}" class="{kind}"{end}/>')

    def line(self, x1, y1, x2, y2, kind="line", tip=None):
        self.path(f"M{x1:g},{y1:g} L{x2:g},{y2:g}", kind, tip)

    def key(self, x, y, names):
        """The key of these bars, from a place on; returns the place behind it."""
        for name in names:
            self.box(x, y, 22, 14, name, 3)
            self.text(x + 30, y + 12, KEY[name], "small", "start")
            x += 54 + 6.4 * len(KEY[name])
        return x

    def svg(self):
        """The whole picture as text."""
        head = f'<svg xmlns="http://www.w3.org/2000/svg" viewBox="0 0 {self.width:g} {self.height:g}" width="{self.width:g}" height="{self.height:g}" role="img">'
        lines = [head, f"  <title>{escape(self.title)}</title>", f"  <style>{STYLE}  </style>", f"  <defs>{MARKERS}</defs>"]
        return "\n".join([*lines, *(f"  {it}" for it in self.shapes), "</svg>"]) + "\n"
