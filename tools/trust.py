#!/usr/bin/env python3
"""Prints and counts what a reader must read to know what is promised: trust.py [--count] [PROMISE ..]

The promises are those of docs/PROOFS.md and the sentence above them: PROMISE is the name of one, or `headline`; by
default it takes all. It prints the clauses of their calls, and the definitions, types and ghost members that these cite
directly or indirectly, each after what it cites, with its file and line. With --count it prints only the numbers. Lines
of clauses, definitions and ghost members are counted; those of types and constants, which are code, are counted
separately; comments and the first lines of functions aren't counted.

The status is 1 if there is a definition in specs/ that no clause of any crate reaches; if only private clauses reach it
(of functions that a crate doesn't export, of tests, or of what a type keeps of its own fields) and its module doesn't
say so in its first line; or if its module says so and public clauses reach it.
"""

import itertools
import signal
import sys

import crates
from reading import definitions, promises

# the kinds of items in each column of the table; all lines but those of the last are counted
KINDS = {"definitions": ["definition"], "ghost members": ["model", "trait", "ghost"], "clauses": ["call"]}
KINDS["types beside"] = ["type", "constant"]


def text_of(items):
    """The text of items, each below its file and line, crate by crate."""
    said = []
    for crate, of_crate in itertools.groupby(items, lambda it: it.crate):
        said.append(f"# {crate}\n")
        for it in of_crate:
            lines = "\n".join(line for _, line in sorted({*it.lines, *it.beside}))
            said.append(f"{place_of(it)}\n{lines}\n")
    return "\n".join(said)


def place_of(item):
    """The file and the line of an item."""
    return f"{item.path.relative_to(crates.TOP)}:{item.first}"


def table(whole, asked):
    """How many lines are to be read for each of these promises, and for all of them."""
    said = [f"{'to read for':20}{'lines':>8}" + "".join(f"{name:>15}" for name in KINDS)]
    for name, calls in [*asked.items(), *[("all of these", sum(asked.values(), []))] * (len(asked) > 1)]:
        items = whole.read_for(calls)
        counts = [sum(len(it.lines) for it in items if it.kind in kinds) for kinds in KINDS.values()]
        said.append(f"{name:20}{sum(counts[:-1]):8}" + "".join(f"{it:15}" for it in counts))
    return said


def misplaced(whole):
    """The definitions that aren't where they should be, each with what is wrong."""
    citing = [it for it in whole.items.values() if it.kind in ("call", "trait", "ghost", "model")]
    every, public = whole.reached(citing), whole.reached(filter(promises.is_promised, citing))
    for it in (it for it in whole.items.values() if it.kind == "definition"):
        is_private = definitions.is_private(it.path)
        if it.name not in every:
            yield it, "no clause reaches it"
        elif is_private and it.name in public:
            yield it, "its module is for private clauses, and public ones reach it"
        elif not is_private and it.name not in public:
            yield it, "private clauses alone reach it, and its module doesn't say so"


def main(words):
    whole = promises.Reading([it.folder for it in crates.listed().values()])
    every = promises.roots_in(crates.read(crates.TOP / "docs" / "PROOFS.md"))
    chosen = [it for it in words if it != "--count"] or list(every)
    unknown = [it for it in chosen if it not in every]
    if unknown:
        sys.exit(f"{unknown[0]} is none of {', '.join(['--count', *every])}")
    asked = {name: every[name] for name in chosen}
    if "--count" not in words:
        print(text_of(whole.read_for(sum(asked.values(), []))))
    print("\n".join(table(whole, asked)))
    found = [f"{place_of(it)} {it.short}: {fault}" for it, fault in misplaced(whole)]
    for it in found:
        print(it)
    return 1 if found else 0


if __name__ == "__main__":
    signal.signal(signal.SIGPIPE, signal.SIG_DFL)
    sys.exit(main(sys.argv[1:]))
