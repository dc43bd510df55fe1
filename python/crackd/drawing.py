"""What all pictures share: colours for light and dark pages, the head of the SVG document, texts and keys.

A colour means the same in each picture. The colours of curves and bars (by Okabe and Ito) can also be distinguished by
people with colour blindness.
"""

from __future__ import annotations

import html
import string
from typing import Iterable

# each colour on a light page, and on a dark one
COLOURS = {
    "page": ("#ffffff", "#1b1f24"),
    "text": ("#24292f", "#d0d7de"),
    "faint": ("#59636e", "#9aa4af"),
    "grid": ("#d8dee4", "#3d444d"),
    "black": ("#000000", "#ffffff"),
    "blue": ("#0072b2", "#3d95dc"),
    "pale": ("#9ccbe8", "#2a5f8c"),
    "empty": ("#e6eef5", "#2b3440"),
    "sky": ("#56b4e9", "#7cc4f2"),
    "green": ("#009e73", "#2fc79a"),
    "yellow": ("#d3bb00", "#f0e442"),
    "orange": ("#e69f00", "#e69f00"),
    "red": ("#d55e00", "#f5854a"),
    "pink": ("#cc79a7", "#e8a3ca"),
    "brown": ("#8c510a", "#d0a070"),
    "grey": ("#57606a", "#77818c"),
}
# the colours of the policies
POLICY_COLOURS = {"complete": "sky", "gradual": "black", "ripple": "yellow", "auto": "blue"}
# in pixels: the width of pictures in documents (narrow, so that their texts are legible on a phone), the size of texts,
# the greatest width of a letter, and the height of a line of a key
WIDTH, FONT, LETTER, LINE = 440, 14, 8.4, 20


def styles(rules: Iterable[str], **more: tuple[str, str]) -> str:
    """The style element of a picture. In the rules `$page` stands for the colour `page`; `more` has further colours."""
    text, every = string.Template(" ".join(rules)), {**COLOURS, **more}
    light, dark = (text.substitute({name: them[at] for name, them in every.items()}) for at in (0, 1))
    return f"<style>{light} @media (prefers-color-scheme: dark){{{dark}}}</style>"


def document(title: str, height: int, style: str, parts: Iterable[str]) -> str:
    """A picture for documents, with its title at the top."""
    size = f'width="{WIDTH}" height="{height}" viewBox="0 0 {WIDTH} {height}"'
    font = f'font-family="sans-serif" font-size="{FONT}"'
    head = f'<svg xmlns="http://www.w3.org/2000/svg" {size} {font} role="img">'
    page = f'<rect class="page" width="{WIDTH}" height="{height}"/>'
    said = f"<title>{html.escape(title)}</title>"
    return "\n".join([head, said, style, page, words(8, 20, title, "start", "title"), *parts, "</svg>\n"])


def words(x: float, y: float, text: str, anchor: str = "start", kind: str = "text") -> str:
    """A text of an image at a place, with its anchor (start, middle or end) and its CSS class."""
    return f'<text class="{kind}" x="{x:.1f}" y="{y:.1f}" text-anchor="{anchor}">{html.escape(text)}</text>'


def key(entries: Iterable[tuple[str, str, str]], top: float) -> tuple[list[str], float]:
    """The key of a plot, and the height below its last row.

    An entry is the class of a line, its further attributes, and its name. A row has as many entries as fit.
    """
    parts, x, y = [], 8.0, top
    for kind, more, name in entries:
        width = 30 + len(name) * LETTER
        if x > 8 and x + width > WIDTH:
            x, y = 8.0, y + LINE
        parts.append(f'<line class="{kind}" x1="{x:.1f}" x2="{x + 24:.1f}" y1="{y - 5:.1f}" y2="{y - 5:.1f}"{more}/>')
        parts.append(words(x + 30, y, name))
        x += width + 16
    return parts, y + LINE
