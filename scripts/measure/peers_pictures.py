"""Draws the tables of scripts/measure/peers as bars (SVG), with nothing but text."""
import pathlib
from xml.sax.saxutils import escape

WIDTH, NAMES, LINE, TOP = 720, 190, 18, 34
# the room to the right of a bar for its number
NUMBER = 90
COLOURS = {"accessd": "#1b6e8c", "accessd, no batch": "#6bb0c7"}
OTHERS = "#b8b8b8"
STYLE = ("text { font: 12px sans-serif; fill: #222 } .title { font-weight: bold } .group { font-style: italic; fill: #555 }"
         " .axis { stroke: #999 }")


def text(x, y, words, kind=""):
    return f'<text x="{x:g}" y="{y:g}"{kind and f" class={chr(34)}{kind}{chr(34)}"}>{escape(words)}</text>'


def length_of(value, most):
    return (WIDTH - NAMES - NUMBER) * value / most if most else 0


def bars(title, groups, shown, note=""):
    """A picture of groups of bars: each has a heading, and rows of a name, a number and whether the bar is filled. Each group has a
    scale of its own."""
    lines, y = [text(8, 20, title, "title")], TOP
    for heading, rows in groups:
        y += LINE
        lines.append(text(8, y - 4, heading, "group"))
        most = max(value for _, value, _ in rows)
        begin = y
        for name, value, is_filled in rows:
            lines.append(text(20, y + 13, name))
            colour = COLOURS.get(name, OTHERS)
            length = max(length_of(value, most), 0.5)
            fill = f'fill="{colour}"' if is_filled else f'fill="#fff" stroke="{colour}" stroke-dasharray="3 2"'
            lines.append(f'<rect x="{NAMES}" y="{y + 3}" width="{length:.1f}" height="{LINE - 5}" {fill}/>')
            lines.append(text(NAMES + length + 5, y + 13, shown(value)))
            y += LINE
        lines.append(f'<line x1="{NAMES}" y1="{begin}" x2="{NAMES}" y2="{y}" class="axis"/>')
    if note:
        y += LINE
        lines.append(text(8, y, note, "group"))
    head = f'<svg xmlns="http://www.w3.org/2000/svg" width="{WIDTH}" height="{y + 10}" viewBox="0 0 {WIDTH} {y + 10}" role="img">'
    back = f'<rect width="{WIDTH}" height="{y + 10}" fill="#fff"/>'
    return "\n".join([head, f"<title>{escape(title)}</title>", f"<style>{STYLE}</style>", back, *lines, "</svg>\n"])


def write(folder, name, *words, **more):
    pathlib.Path(folder).mkdir(parents=True, exist_ok=True)
    (pathlib.Path(folder) / f"{name}.svg").write_text(bars(*words, **more))
