"""Parts of a picture as SVG: words that every viewer can show, lines, and the page around them."""

import unicodedata
from xml.sax.saxutils import escape

INK, GREY, RED = "#222222", "#dddddd", "#b00020"
AXIS = "#333333"


def clean(text):
    """Text that every viewer of SVG can show: control characters and the like are replaced."""
    return "".join(c if c.isprintable() else "\ufffd" for c in text)


def wide(text):
    return sum(2 if unicodedata.east_asian_width(c) in "WF" else 1 for c in text)


def cut(text, room):
    """The text, or its beginning and an ellipsis."""
    if wide(text) <= room:
        return text
    while wide(text) > room - 1:
        text = text[:-1]
    return text.rstrip() + "…"


def wrapped(text, room, most):
    """The text on at most so many lines."""
    lines = [""]
    for word in clean(text).split(" "):
        longer = f"{lines[-1]} {word}".strip()
        if wide(longer) <= room or not lines[-1]:
            lines[-1] = longer
        else:
            lines.append(word)
    if len(lines) > most:
        lines[most - 1:] = [" ".join(lines[most - 1:])]
    return [cut(line, room) for line in lines]


def titled(words):
    return f"<title>{escape(clean(words))}</title>"


def text(x, y, words, anchor="start", size=13, weight="normal", turned=False, more=""):
    turn = f' transform="rotate(-90 {x:.1f} {y:.1f})"' if turned else ""
    return (f'<text x="{x:.1f}" y="{y:.1f}" text-anchor="{anchor}" font-size="{size}" font-weight="{weight}"{turn}{more}>'
            f"{escape(clean(words))}</text>")


def rule(x1, y1, x2, y2, colour=GREY, wide=1, dash=""):
    return f'<line x1="{x1:.1f}" y1="{y1:.1f}" x2="{x2:.1f}" y2="{y2:.1f}" stroke="{colour}" stroke-width="{wide}"{dashed(dash)}/>'


def polyline(points, colour, wide=2, dash=""):
    return f'<polyline fill="none" stroke="{colour}" stroke-width="{wide}" stroke-linejoin="round"{dashed(dash)} points="{joined(points)}"/>'


def joined(points):
    return " ".join([f"{x:.2f},{y:.2f}" for x, y in points])


def dashed(dash):
    return f' stroke-dasharray="{dash}"' if dash else ""


def page(width, height, parts):
    head = (f'<svg xmlns="http://www.w3.org/2000/svg" width="{width}" height="{height}" viewBox="0 0 {width} {height}" '
            f'font-family="Helvetica, Arial, sans-serif" fill="{INK}">')
    return "\n".join([head, f'<rect width="{width}" height="{height}" fill="#ffffff"/>', *parts, "</svg>", ""])
