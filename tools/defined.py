#!/usr/bin/env python3
"""Writes docs/DEFINITIONS.md from the comments in specs/.

The page has each definition of specs/ with the comment above it, crate by crate and file by file. Modules that only
private clauses cite are left out, since nobody has to read them to know what is promised.
"""

import itertools
import re

import crates
from reading import definitions, promises

PAGE = crates.TOP / "docs" / "DEFINITIONS.md"
HEAD = """# Definitions

The names that public contracts cite, with the comments above them in the crates' `specs` folders. \
Every definition is over lists, finite maps and integers.
[PROOFS.md](PROOFS.md) says what is proved with them, and `make trust` prints the full text of those \
that a promise needs.

This page is written by `python3 tools/defined.py`.
"""


def said(item):
    """The comment above a definition, as one text."""
    start = min(number for number, _ in item.lines)
    return " ".join(line.strip().removeprefix("--").strip() for number, line in sorted(item.beside) if number < start)


def sentence(text):
    """A comment as a sentence of a table."""
    # a name of code at the beginning isn't capitalised
    begun = text[:1].upper() + text[1:] if re.match(r"[a-z][a-z',]*(?:\s|$)", text) else text
    return begun.replace("|", "\\|") + ("" if not text or begun.endswith((".", ":")) else ".")


def page():
    """The whole page: for each file what its first comment says, and a table of its definitions."""
    parts = [HEAD]
    for crate in (it for it in crates.listed().values() if it.name not in promises.LEFT_OUT):
        by_file = itertools.groupby(definitions.definitions_of(crate.folder), lambda it: it.path)
        files = [(path, list(items)) for path, items in by_file if not definitions.is_private(path)]
        parts += [f"## {crate.name}\n"] if files else []
        for path, items in files:
            lines = itertools.takewhile(lambda line: line.startswith("--"), crates.read(path).splitlines())
            purpose = " ".join(line.removeprefix("--").strip() for line in lines)
            link = f"[{crate.name}/specs/{path.name}](../{path.relative_to(crates.TOP).as_posix()})"
            parts += [f"**{link}** {purpose}".rstrip(), "", "| Name | What it is |", "|---|---|"]
            parts += [*(f"| `{it.short}` | {sentence(said(it))} |" for it in items), ""]
    return "\n".join(parts)


if __name__ == "__main__":
    PAGE.write_text(page(), encoding="utf-8")
