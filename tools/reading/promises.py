"""What must be read to know what a promise says: the clauses of the calls that docs/PROOFS.md names for it, and what
these cite, in turn.

A table there whose last column is headed `Its calls` names calls by their paths, row by row; in brackets after a call
are the names of those of its clauses that carry the promise, if not all do. What callers must fulfil is always read. A
type is read with the value and the view of its model, and with the types of the fields that these read; a trait's ghost
members are read with those of each public type that implements it.
"""

import collections
import re
import sys

from reading import contracts, definitions, sources

# the crates that tests use, and those for measurements: like the tests themselves they promise nothing
LEFT_OUT = {"crack_failing", "crack_bench"}
HEADLINE = "headline"
CALLS = re.compile(r"`([\w:]+)::(\w+|\{[\w, ]+\})`(?: \(((?:`\w+`(?:, )?)+)\))?")


def is_promised(item):
    """Whether an item is what a crate promises to others."""
    return item.is_public and item.crate not in LEFT_OUT and not item.crate.endswith("_tests")


class Reading:
    """All items of the crates in these folders by name, the lowest crate first, and what each leads a reader to."""

    def __init__(self, folders):
        names = sources.Names()
        files = [it for folder in folders for it in names.read(folder)]
        found = [it for folder in folders for it in definitions.definitions_of(folder)]
        self.items = {it.name: it for it in [*found, *contracts.items_of(files, names, found)]}
        self.rank = {folder.name: at for at, folder in enumerate(folders)}
        # the ghost members that public types have of traits
        self.had = [it for it in self.items.values() if it.kind == "ghost" and is_promised(it)]

    def cited(self, item):
        """The names of the items that this one leads to."""
        had = {it.name for it in self.had if item.kind == "trait" and item.name in it.cites}
        return {it for it in item.cites if it in self.items} | had

    def reached(self, items):
        """The names of the items that these lead to, in turn."""
        found, left = set(), [name for it in items for name in self.cited(it)]
        while left:
            name = left.pop()
            if name not in found:
                found.add(name)
                left += self.cited(self.items[name])
        return found

    def ordered(self, items):
        """These items crate by crate, the lowest first, each after those that it cites, and a model's members right
        after its type."""
        chosen, met, found = {it.name: it for it in items}, set(), []
        place = lambda it: (self.rank[it.crate], it.path.as_posix(), it.first)
        cited = lambda item: sorted((chosen[it] for it in item.cites if it in chosen), key=place)

        def put(item):
            these = [item, *(it for it in cited(item) if it.name.startswith(f"{item.name} as "))]
            if item.name not in met:
                met.update(it.name for it in these)
                for it in (below for one in these for below in cited(one)):
                    put(it)
                found.extend(these)

        for it in sorted(chosen.values(), key=place):
            put(it)
        return found

    def call(self, path):
        """The call with a path, with or without modules."""
        crate, *rest = path.split("::")
        calls = [it for it in self.items.values() if it.kind == "call" and it.crate == crate]
        found = [it for it in calls if path == it.name or tuple(rest) == it.called]
        if len(found) != 1:
            sys.exit(f"docs/PROOFS.md: {path} is the path of {len(found)} calls with clauses")
        return found[0]

    def read_for(self, roots):
        """What must be read for these calls, each with the names of clauses, none meaning all, in reading order."""
        asked = collections.defaultdict(list)
        for path, names in roots:
            asked[path].append(names)
        calls = [narrowed(self.call(path), set().union(*of) if all(of) else ()) for path, of in asked.items()]
        named = {it.name for it in calls}
        return self.ordered([*calls, *(self.items[it] for it in self.reached(calls) - named)])


def narrowed(call, names):
    """A call with only those of its clauses that have these names or that callers must fulfil; with all of them if no
    name is given."""
    kept = tuple(it for it in call.clauses if not names or it.is_required or it.name in names)
    missing = set(names) - {it.name for it in kept}
    if missing:
        sys.exit(f"docs/PROOFS.md: {call.name} has no clause {sorted(missing)[0]}")
    return definitions.with_clauses(call, kept)


def roots_in(text):
    """The calls of each promise that a text's tables name, the headline's under a name of its own: each with the names
    of clauses, none meaning all."""
    promises, first = collections.defaultdict(list), ""
    for line in text.splitlines():
        cells = [it.strip() for it in line.strip().strip("|").split("|")] if line.startswith("|") else []
        if not cells:
            first = ""
        elif cells[-1] == "Its calls":
            first = cells[0]
        elif first:
            name = cells[0] if first == "Promise" else HEADLINE
            for path, calls, clauses in CALLS.findall(cells[-1]):
                names = set(re.findall(r"\w+", clauses))
                promises[name] += [(f"{path}::{call}", names) for call in re.findall(r"\w+", calls)]
    return promises
