"""Pieces of pictures (SVG): boxes and lines of text that fit a width."""

import html
import unicodedata

# The height of a line of text, and the width of one of its characters.
LINE, CHAR = 20, 7.3
FONT = 'font-family="DejaVu Sans Mono, monospace" font-size="12"'


def fitted(text, width):
    """A text with no more than so many pixels. What can't be drawn is a dot."""
    text = "".join(mark if mark.isprintable() else "\u00b7" for mark in text)
    cells = [2 if unicodedata.east_asian_width(mark) in "FW" else 1 for mark in text]
    while (sum(cells) + 2) * CHAR > width:
        cells.pop()
    return text if len(cells) == len(text) else f"{text[:len(cells)]}.."


def rect(x, y, width, height, fill, title="", stroke="#8a97a6"):
    return (
        f'<rect x="{x}" y="{y}" width="{width}" height="{height}" rx="3" fill="{fill}" '
        f'stroke="{stroke}"><title>{html.escape(title)}</title></rect>'
    )


def line(x, y, text, width, bold=False):
    """A line of text from x on, its middle at y."""
    weight = ("normal", "bold")[bold]
    return f'<text x="{x}" y="{y + 4}" font-weight="{weight}">{html.escape(fitted(text, width))}</text>'
